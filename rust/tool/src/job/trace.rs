//! Samples from a table in CSV, as `samples --csv` writes them: a column for each lead, a row for each sample number.

use std::fmt::Display;
use std::fs;
use std::path::Path;
use std::str::FromStr;

use csv::StringRecord;

use crate::text::reason;

/// The head of the column of sample numbers.
const NUMBERS: &str = "sample";

/// A lead's samples.
#[derive(Debug, Default, PartialEq)]
pub struct Column {
    /// The number of the first; none if there are no samples.
    pub first: Option<u32>,
    /// The samples, whose numbers follow each other.
    pub samples: Vec<i16>,
}

/// The samples of all leads.
#[derive(Debug, PartialEq)]
pub struct Trace {
    pub columns: Vec<Column>,
}

impl Trace {
    /// Reads a table from a file. Each column is headed by one of the heads that its lead has.
    pub fn read(file: &Path, heads: &[[String; 2]]) -> Result<Trace, String> {
        let text = fs::read(file).map_err(|error| reason(&error))?;
        Trace::of(&text, heads)
    }

    fn of(text: &[u8], heads: &[[String; 2]]) -> Result<Trace, String> {
        let text = with_plain_ends(text);
        let mut table = csv::ReaderBuilder::new()
            .has_headers(false)
            .from_reader(&text[..]);
        let mut rows = table.records();
        let head = rows.next().ok_or("it is empty")?.map_err(told)?;
        check_heads(&head, heads)?;
        let mut trace = Trace {
            columns: heads.iter().map(|_| Column::default()).collect(),
        };
        let mut before = None;
        for row in rows {
            let row = row.map_err(told)?;
            let line = row.position().map_or(0, |position| position.line());
            let number = trace.take(&row, before);
            before = Some(number.map_err(|words| format!("line {line}, {words}"))?);
        }
        Ok(trace)
    }

    /// Takes a row, which has a cell for each column; its sample number.
    fn take(&mut self, row: &StringRecord, before: Option<u32>) -> Result<u32, String> {
        let number: u32 = whole(&row[0], 0, u32::MAX).map_err(|words| in_column(1, words))?;
        if let Some(before) = before.filter(|&before| before >= number) {
            let words = format!("sample {number} comes after {before}");
            return Err(in_column(1, words));
        }
        for (at, (column, cell)) in self.columns.iter_mut().zip(row.iter().skip(1)).enumerate() {
            if !cell.is_empty() {
                let sample = whole(cell, i16::MIN, i16::MAX);
                let taken = sample.and_then(|sample| column.take(number, sample));
                taken.map_err(|words| in_column(at + 2, words))?;
            }
        }
        Ok(number)
    }
}

impl Column {
    /// Takes a sample, which has the number after the last one's.
    fn take(&mut self, number: u32, sample: i16) -> Result<(), String> {
        let first = *self.first.get_or_insert(number);
        let next = u64::from(first) + self.samples.len() as u64;
        if next != u64::from(number) {
            return Err(format!("there is a sample {number}, and none {next}"));
        }
        self.samples.push(sample);
        Ok(())
    }
}

/// The text with its lines ended by LF alone, so that they are counted right.
fn with_plain_ends(text: &[u8]) -> Vec<u8> {
    let next = text.iter().skip(1).chain([&0]);
    let kept = text
        .iter()
        .zip(next)
        .filter(|pair| *pair != (&b'\r', &b'\n'));
    kept.map(|(&byte, _)| byte).collect()
}

/// Asks that there is a column of sample numbers, and one for each lead.
fn check_heads(row: &StringRecord, heads: &[[String; 2]]) -> Result<(), String> {
    // some programs put a mark in front of what is UTF-8
    let first = row[0].trim_start_matches('\u{feff}');
    if first != NUMBERS {
        let words = format!("the head is {first:?}, not {NUMBERS:?}");
        return Err(format!("line 1, {}", in_column(1, words)));
    }
    let columns = row.len() - 1;
    if columns != heads.len() {
        let leads = heads.len();
        let words = format!("{columns} columns stand after the sample numbers, for {leads} leads");
        return Err(format!("line 1: {words}"));
    }
    for (at, (head, [name, full])) in row.iter().skip(1).zip(heads).enumerate() {
        if head != name && head != full {
            let words = format!("the head is {head:?}, not {name:?} or {full:?}");
            return Err(format!("line 1, {}", in_column(at + 2, words)));
        }
    }
    Ok(())
}

/// Says what is wrong in a column, from 1.
fn in_column(column: usize, words: String) -> String {
    format!("column {column}: {words}")
}

/// The whole number that a cell holds, of a type with these bounds.
fn whole<T: FromStr + Display>(cell: &str, least: T, most: T) -> Result<T, String> {
    let digits = cell.strip_prefix('-').unwrap_or(cell);
    let is_number = !digits.is_empty() && digits.bytes().all(|byte| byte.is_ascii_digit());
    match cell.parse() {
        Ok(number) if is_number => Ok(number),
        _ if is_number => Err(format!("{cell} is outside {least} to {most}")),
        _ => Err(format!("{cell:?} is no whole number")),
    }
}

/// Why a row could not be read.
fn told(error: csv::Error) -> String {
    match error.into_kind() {
        csv::ErrorKind::Io(error) => reason(&error),
        csv::ErrorKind::UnequalLengths {
            pos: Some(place),
            expected_len,
            len,
        } => format!(
            "line {}: it has {len} cells, and line 1 has {expected_len}",
            place.line()
        ),
        csv::ErrorKind::Utf8 {
            pos: Some(place), ..
        } => {
            format!("line {}: it is no text in UTF-8", place.line())
        }
        other => format!("{other:?}"),
    }
}

#[cfg(test)]
mod tests {
    use super::{Column, Trace};

    fn trace(text: &str) -> Result<Trace, String> {
        let heads = ["I", "II"].map(|name| [name.to_string(), format!("1 {name} (5000 nV)")]);
        Trace::of(text.as_bytes(), &heads)
    }

    #[test]
    fn a_column_is_a_lead() {
        let table = "sample,I,1 II (5000 nV)\r\n4,7,\r\n5,-8,9\r\n6,,-32768\r\n";
        let columns = trace(table).unwrap().columns;
        let column = |first, samples: &[i16]| Column {
            first: Some(first),
            samples: samples.to_vec(),
        };
        assert_eq!(columns, [column(4, &[7, -8]), column(5, &[9, -32768])]);
        // spans that lie apart, and no samples
        let columns = trace("sample,I,II\n4,7,\n9,8,\n").unwrap_err();
        assert_eq!(columns, "line 3, column 2: there is a sample 9, and none 5");
        let columns = trace("sample,I,II\n4,,7\n").unwrap().columns;
        assert_eq!(columns[0], Column::default());
    }

    /// Mistakes in a table, and what is said of each.
    const WRONG: [(&str, &str); 13] = [
        ("", "it is empty"),
        (
            "number,I,II\n",
            "line 1, column 1: the head is \"number\", not \"sample\"",
        ),
        (
            "sample,I\n",
            "line 1: 1 columns stand after the sample numbers, for 2 leads",
        ),
        (
            "sample,II,I\n",
            "line 1, column 2: the head is \"II\", not \"I\" or \"1 I (5000 nV)\"",
        ),
        (
            "sample,I,II\n1,2\n",
            "line 2: it has 2 cells, and line 1 has 3",
        ),
        (
            "sample,I,II\n1,2,3\n1,2,3\n",
            "line 3, column 1: sample 1 comes after 1",
        ),
        (
            "sample,I,II\n1,2,32768\n",
            "line 2, column 3: 32768 is outside -32768 to 32767",
        ),
        (
            "sample,I,II\n1,-32769,\n",
            "line 2, column 2: -32769 is outside -32768 to 32767",
        ),
        (
            "sample,I,II\n-1,2,3\n",
            "line 2, column 1: -1 is outside 0 to 4294967295",
        ),
        (
            "sample,I,II\n4294967296,2,3\n",
            "line 2, column 1: 4294967296 is outside 0 to 4294967295",
        ),
        (
            "sample,I,II\n1,2,1.5\n",
            "line 2, column 3: \"1.5\" is no whole number",
        ),
        (
            "sample,I,II\n1,2,+3\n",
            "line 2, column 3: \"+3\" is no whole number",
        ),
        (
            "sample,I,II\n1,2, 3\n",
            "line 2, column 3: \" 3\" is no whole number",
        ),
    ];

    #[test]
    fn what_is_wrong_has_its_place() {
        for (text, words) in WRONG {
            assert_eq!(trace(text), Err(words.to_string()), "{text:?}");
        }
    }
}
