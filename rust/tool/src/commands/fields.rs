//! `tigmavresh fields FILE`: the header fields of a record, byte for byte.

use std::mem;
use std::path::Path;

use scp::Field;

use super::given::read_or_complain;
use crate::escape;
use crate::input::Input;
use crate::json;
use crate::names;
use crate::output::Output;
use crate::paths::shown;
use crate::reading::{Reading, Value};
use crate::refused::Refused;
use crate::status::Status;
use crate::table::{self, numbers, words, Column};
use crate::text::hex;

const COLUMNS: [Column; 5] = [
    numbers("Tag"),
    numbers("Length"),
    words("Name"),
    words("Bytes"),
    words("Text"),
];

/// How many bytes a line shows.
const BYTES_A_LINE: usize = 16;

/// Shows the fields of a file, as a table or as JSON.
pub fn run(file: &Path, json: bool, output: &mut Output) -> Status {
    let Some(input) = read_or_complain(file, json, output) else {
        return Status::NotDone;
    };
    output.block();
    let fields = scp::fields(&input.bytes).map(|fields| fields.collect::<Vec<_>>());
    let fields = fields.map_err(|refusal| Refused::of(&input, 1, refusal));
    let status = match fields {
        Ok(_) => Status::Accepted,
        Err(_) => Status::Refused,
    };
    match (json, fields) {
        (true, fields) => output.line(json::text(&as_json(file, &input, &fields))),
        (false, Ok(fields)) => show(file, &input.bytes, &fields, output),
        (false, Err(refused)) => output.lines(refused.text(file, &input)),
    }
    status
}

/// The fields, or the refusal, as JSON.
fn as_json(
    file: &Path,
    input: &Input,
    fields: &Result<Vec<Field>, Refused>,
) -> json::About<json::Header> {
    let field = |field: &Field| field_as_json(field.tag, &input.bytes[field.range.clone()]);
    let header = fields.as_ref().ok().map(|fields| json::Header {
        fields: fields.iter().map(field).collect(),
    });
    let about = json::About::judged(file, input.size, fields.as_ref().err());
    about.holding(header).noted()
}

/// A field as JSON.
fn field_as_json(tag: u8, bytes: &[u8]) -> json::Field {
    json::Field {
        tag,
        name: names::field(tag),
        length: bytes.len(),
        bytes: hex(bytes),
        reading: Reading::of(tag, bytes),
    }
}

/// Shows the fields of a record that was accepted.
fn show(file: &Path, record: &[u8], fields: &[Field], output: &mut Output) {
    output.line(format_args!(
        "{}: accepted ({} fields)",
        shown(file),
        fields.len()
    ));
    let rows: Vec<_> = fields
        .iter()
        .flat_map(|field| rows(field.tag, &record[field.range.clone()]))
        .collect();
    output.lines(table::lines(&COLUMNS, &rows));
}

/// A field's rows of the table: one, or more if its bytes are many.
fn rows(tag: u8, bytes: &[u8]) -> Vec<[String; 5]> {
    let hex_lines = bytes.chunks(BYTES_A_LINE).map(hex);
    let mut hex_lines: Vec<String> = hex_lines.collect();
    // an empty field has a line too
    hex_lines.resize(hex_lines.len().max(1), String::new());
    let mut texts = texts(tag, bytes).into_iter();
    let mut head = [
        tag.to_string(),
        bytes.len().to_string(),
        names::field(tag).to_string(),
    ];
    let row = |hex| {
        let [tag, length, name] = mem::take(&mut head);
        [tag, length, name, hex, texts.next().unwrap_or_default()]
    };
    hex_lines.into_iter().map(row).collect()
}

/// The text beside each line of a field's bytes: in quotes, or its date or time.
fn texts(tag: u8, bytes: &[u8]) -> Vec<String> {
    let reading = Reading::of(tag, bytes);
    let mut texts = match reading.value {
        Some(Value::Text(_) | Value::Escaped(_)) => quoted(bytes),
        Some(Value::Date(read) | Value::Time(read)) => vec![read],
        None => Vec::new(),
    };
    if let Some(remark) = reading.remark {
        texts.resize(texts.len().max(1), String::new());
        let remarked = format!("{} ({remark})", texts[0]);
        texts[0] = remarked.trim_start().to_string();
    }
    texts
}

/// Text in quotes, every byte of it to be seen, as it is shown beside the lines of its bytes. A character is where its
/// first byte is.
fn quoted(text: &[u8]) -> Vec<String> {
    let mut lines = vec![String::new(); text.len().div_ceil(BYTES_A_LINE)];
    let mut at = 0;
    for piece in escape::pieces(text) {
        let line = &mut lines[at / BYTES_A_LINE];
        match piece.shown.as_str() {
            "\"" => line.push_str("\\\""),
            shown => line.push_str(shown),
        }
        at += piece.bytes;
    }
    lines.iter().map(|line| format!("\"{line}\"")).collect()
}

#[cfg(test)]
mod tests {
    use super::{quoted, rows};

    #[test]
    fn identifiers_are_shown_by_their_bytes() {
        let shown = |bytes| rows(2, bytes)[0][3..].join(" ");
        assert_eq!(shown(b"007\0"), r#"30 30 37 00 "007\0""#);
        assert_eq!(shown(b"7\0"), r#"37 00 "7\0""#);
    }

    #[test]
    fn every_byte_of_a_text_is_seen() {
        assert_eq!(quoted(b"\"\\ \0"), [r#""\"\\ \0""#]);
        assert_eq!(quoted(b"M\xFCller\n"), [r#""M\xFCller\n""#]);
        assert_eq!(quoted("\u{202e}é\0".as_bytes()), [r#""\u{202e}é\0""#]);
    }

    #[test]
    fn a_character_over_the_end_of_a_line_stands_in_the_first() {
        let text = format!("{}é{}", "x".repeat(15), "y".repeat(15));
        let lines = [
            format!("\"{}é\"", "x".repeat(15)),
            format!("\"{}\"", "y".repeat(15)),
        ];
        assert_eq!(quoted(text.as_bytes()), lines);
    }

    #[test]
    fn dates_and_times_have_no_quotes() {
        let shown = |tag, bytes| rows(tag, bytes)[0][4].clone();
        assert_eq!(shown(25, &[0xE8, 7, 3, 14]), "2024-03-14");
        assert_eq!(shown(5, &[0xA8, 7, 11, 2]), "1960-11-02");
        assert_eq!(shown(26, &[9, 26, 53]), "09:26:53");
        assert_eq!(shown(26, &[0, 32, 33]), "00:32:33");
        assert_eq!(
            shown(25, &[0xE8, 7, 13, 14]),
            "(not a date in the calendar)"
        );
        assert_eq!(shown(5, &[0xE8, 7, 2, 31]), "(not a date in the calendar)");
        assert_eq!(shown(5, b"1960"), "\"1960\" (not a date in the calendar)");
        assert_eq!(shown(26, &[24, 26, 53]), "(not a time of day)");
    }

    #[test]
    fn a_long_field_has_several_lines() {
        let shown = rows(30, &[b'x'; 33]);
        assert_eq!(shown.len(), 3);
        assert_eq!(shown[0][1], "33");
        assert_eq!(shown[2][1..], ["", "", "78", "\"x\""]);
    }

    #[test]
    fn an_empty_field_has_a_line() {
        assert_eq!(rows(14, b""), [["14", "0", "recording device", "", ""]]);
    }
}
