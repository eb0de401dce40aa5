//! Explains what a refused record, job or index has that its rule does not allow, for a person to read.
//!
//! It explains an answer of the proved library and decides nothing. The findings in records and jobs are those of the
//! independent implementation (`judge`), which is not proved; the words for it are made here. Bytes count from 1, as a
//! pointer's index does.

mod fields;
mod frame;
mod index;
mod leads;
mod numbers;
mod streams;
mod subject;
mod tables;

use judge::{row, Fault, Finding, Part, What};
use scp::Refusal;

use crate::input::{Input, Size};
use crate::making::Making;
use crate::names;
use crate::text;
use subject::Subject;

/// The words for a refusal that no record and no job can be the reason of.
const ROOM: &str = "the tool lent too small a buffer, which is a fault of its own";

/// The input that is looked at: a record, how long it is, and the place of the lead that was asked for.
pub struct Looked<'a> {
    /// The bytes, of a record that is too long only as many as show it.
    pub record: &'a [u8],
    /// How long the whole is.
    pub size: Size,
    /// From 1; of no matter to rules 1 to 9.
    pub place: usize,
}

impl<'a> Looked<'a> {
    /// The input that was read, where the lead at a place was asked for.
    pub fn at(input: &'a Input, place: usize) -> Looked<'a> {
        Looked {
            record: &input.bytes,
            size: input.size,
            place,
        }
    }
}

/// The findings in a record that was refused, a line for each; at least one.
pub fn found(looked: &Looked, refusal: Refusal) -> Vec<String> {
    let found = judge::lead_findings(looked.record, looked.place);
    explained(refusal, &found, Subject::Record(looked.size))
}

/// The findings in a job that was refused, a line for each; at least one.
pub fn found_in_job(making: &Making, refusal: Refusal) -> Vec<String> {
    let found = judge::job_findings(&judge::Writing {
        section1: &making.section1,
        section2: &making.section2,
        version: making.version,
        flags: making.flags,
        step: making.step,
        interval: making.interval,
        order: making.order,
        firsts: &making.firsts,
        counts: &making.counts,
        ids: &making.ids,
        samples: &making.samples,
    });
    explained(refusal, &found, Subject::Job(making))
}

/// The findings in a record that was refused when it was to be added to an index, a line for each; at least one. Of rule 8 an
/// index asks what Section 3 must keep by itself.
pub fn found_in_adding(looked: &Looked, refusal: Refusal) -> Vec<String> {
    if refusal == Refusal::ROOM {
        return vec![ROOM.to_string()];
    }
    let judged = judge::index_entry(looked.record).err().unwrap_or(0);
    let mut lines: Vec<String> = disagreement(refusal.number(), judged).into_iter().collect();
    if judged == row::DATE {
        lines.extend(index::date(looked.record));
        return lines;
    }
    let mut found = judge::findings(looked.record, judged);
    found.retain(|finding| judged < row::SECTIONS_3_TO_6 || finding.section == Some(3));
    lines.extend(self::lines(&found, Subject::Record(looked.size)));
    lines
}

/// What there is in the bytes of an index that was refused, a line for each. It may be nothing.
pub fn found_in_index(index: &[u8]) -> Vec<String> {
    index::faults(index)
}

/// The findings in a record for a refusal's rule, asked alone; there may be none.
pub fn seen(looked: &Looked, refusal: Refusal) -> Vec<String> {
    let found = judge::findings(looked.record, refusal.number());
    lines(&found, Subject::Record(looked.size))
}

/// That a file does not look like an SCP-ECG record, if it lacks the letters that each has.
pub fn foreign(record: &[u8]) -> Option<String> {
    let words =
        "it does not look like an SCP-ECG record: bytes 17 to 22 are not the letters SCPECG";
    (!judge::has_letters(record)).then(|| words.to_string())
}

/// The library's refusal, explained by what the independent implementation found. Where the two do not agree, that comes
/// first.
fn explained(refusal: Refusal, found: &[Finding], subject: Subject) -> Vec<String> {
    if refusal == Refusal::ROOM {
        return vec![ROOM.to_string()];
    }
    let judged = found.first().map_or(0, |finding| finding.row);
    let mut lines: Vec<String> = disagreement(refusal.number(), judged).into_iter().collect();
    lines.extend(self::lines(found, subject));
    lines
}

/// The words for where the library and the independent implementation answer different numbers, 0 being accepted.
fn disagreement(library: u8, judged: u8) -> Option<String> {
    let answer = match judged {
        0 => "accepts it".to_string(),
        number => format!("refuses it with number {number}"),
    };
    (library != judged).then(|| {
        format!(
            "DISAGREEMENT: the proved library refuses this with number {library}, and the independent implementation {answer}. \
             One of the two is wrong: please report it, with this file"
        )
    })
}

fn lines(found: &[Finding], subject: Subject) -> Vec<String> {
    found.iter().map(|finding| line(finding, subject)).collect()
}

/// A finding as a line: the part it is in, what is wrong, and the byte of the record where it is.
fn line(finding: &Finding, subject: Subject) -> String {
    let words = parted(finding, words(finding, subject));
    match (subject, finding.offset) {
        (Subject::Record(_), Some(offset)) => {
            let byte = text::parted(&format!("byte {offset}"));
            format!("{words} ({byte})")
        }
        _ => words,
    }
}

/// The words with the thousands of their numbers parted; not where they show prefixes bit by bit.
fn parted(finding: &Finding, words: String) -> String {
    match finding.fault {
        Fault::Code(_)
        | Fault::Number {
            what: What::Tables, ..
        } => words,
        _ => text::parted(&words),
    }
}

/// Says what is wrong, with the part it is in before it.
fn words(finding: &Finding, subject: Subject) -> String {
    let words = match &finding.fault {
        Fault::Number {
            what,
            found,
            expected,
        } => numbers::number(finding, *what, *found, expected),
        Fault::Short { needs, bytes, left } => numbers::short(finding, *needs, *bytes, *left),
        Fault::After { found, most } => numbers::after(finding, *found, *most),
        Fault::Absent => frame::absent(finding),
        Fault::Frame(fault) => frame::words(finding, fault, subject),
        Fault::Field(fault) => fields::words(finding, fault),
        Fault::Code(fault) => tables::words(fault),
        Fault::Lead(fault) => leads::words(finding, fault),
        Fault::Stream(fault) => streams::words(finding, fault),
    };
    format!("{}{words}", prefix(finding, subject))
}

/// The part that a finding is in, where its own words do not name it.
fn prefix(finding: &Finding, subject: Subject) -> String {
    let named = |lead: usize| match subject {
        Subject::Job(making) => {
            let id = making.ids.get(lead - 1);
            let name = id.map_or_else(String::new, |&id| format!(", {}", names::lead(id)));
            format!("lead {lead}{name}: ")
        }
        Subject::Record(_) => format!("lead {lead}: "),
    };
    match finding.part {
        Part::Structure { table, place } => format!("table {table}, structure {place}: "),
        Part::Qrs(place) => format!("QRS {place}: "),
        Part::Lead(lead) | Part::Sample { lead, .. } => match (&finding.fault, finding.section) {
            (Fault::Stream(_), Some(section)) => format!("Section {section}, {}", named(lead)),
            _ => named(lead),
        },
        Part::Whole | Part::Pointer(_) | Part::Field(_) | Part::Table(_) => String::new(),
    }
}

#[cfg(test)]
mod tests;
