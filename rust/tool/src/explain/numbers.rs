//! Numbers outside their bounds, and data that are too short or too long.

use std::ops::RangeInclusive;

use judge::{Finding, Needs, Part, What};

use super::subject::{section, tag};
use crate::text::counted;

/// A number outside its bounds.
pub fn number(finding: &Finding, what: What, found: i64, expected: &RangeInclusive<i64>) -> String {
    let (subject, bounds) = (subject(finding, what), bounds(expected));
    match what {
        What::PointerId if *expected.end() > *expected.start() => {
            format!("{subject} {found}, not over {}", expected.start() - 1)
        }
        What::Tables => format!("{subject} {found}, {bounds} or 19999"),
        What::Step | What::Interval => format!("{subject} {found}"),
        What::Leads if finding.section.is_none() => format!("there are {found} leads, {bounds}"),
        What::Samples => format!("it has {found} samples, {bounds}"),
        What::LastSample => format!("{subject} {found}, over 32 bits"),
        What::HeaderLength => format!("{subject} {found}, its pointer {}", expected.start()),
        What::OwnLength => format!("{subject} {found}, its header {}", expected.start()),
        What::Structures => format!("{subject} {found} structures, {bounds}"),
        What::PrefixBits | What::RemainderBits => format!("{subject} {found} bits, {bounds}"),
        What::BeatSamples => format!("{subject} {found} samples, {bounds}"),
        What::StreamBytes | What::RecordBytes => format!("{subject} {found} bytes, {bounds}"),
        _ => format!("{subject} {found}, {bounds}"),
    }
}

/// The number's name and its verb.
fn subject(finding: &Finding, what: What) -> String {
    let section = section(finding);
    let part = match finding.part {
        Part::Pointer(place) | Part::Table(place) => place,
        _ => 0,
    };
    match what {
        What::HeaderId => format!("{section}'s header has ID"),
        What::HeaderLength => format!("{section}'s header has length"),
        What::SectionLength => format!("{section} has length"),
        What::PointerId => format!("pointer {part} has ID"),
        What::OwnIndex => "Section 0's pointer to itself says index".to_string(),
        What::OwnLength => "Section 0's pointer to itself says length".to_string(),
        What::FieldLength => format!("tag {} has length", tag(finding)),
        What::Structures => format!("table {part} has"),
        _ => plain(finding, what),
    }
}

/// The same of a number whose name says it all.
fn plain(finding: &Finding, what: What) -> String {
    let words = match what {
        What::Tables => "the number of tables is",
        What::PrefixBits => "the prefix has",
        What::RemainderBits => "the remainder has",
        What::Mode => "the mode is",
        What::Leads => "the number of leads is",
        What::FirstSample => "its first sample has number",
        What::LastSample => "its last sample has number",
        What::Bimodal => "the bimodal byte is",
        What::BeatSamples => "the beat has",
        What::Fiducial => "the beat's fiducial is",
        What::Qrs => "the number of QRS is",
        What::ListLength => "the number of a lead's numbers is",
        What::SamplesLent => "the number of samples is",
        What::StreamBytes => "its shortest stream has",
        What::RecordBytes => "the record would have",
        What::Step => "step is",
        What::Interval => "interval is",
        _ => "order is",
    };
    match (what, finding.section) {
        (What::Step | What::Interval | What::Order, Some(id)) => format!("Section {id}'s {words}"),
        (What::Step | What::Interval | What::Order, None) => format!("the {words}"),
        _ => words.to_string(),
    }
}

/// Says which bounds a number is outside of.
pub fn bounds(expected: &RangeInclusive<i64>) -> String {
    match (*expected.start(), *expected.end()) {
        (least, most) if least == most => format!("not {least}"),
        (least, i64::MAX) => format!("under {least}"),
        (0, 1) => "not 0 or 1".to_string(),
        (0, most) if most > 2 => format!("over {most}"),
        (least, most) => format!("not {least} to {most}"),
    }
}

/// Data that end too early.
pub fn short(finding: &Finding, needs: Needs, bytes: usize, left: usize) -> String {
    let section = section(finding);
    let there = counted(left, "byte");
    let have = format!("{section} has {there} of data");
    let table = match finding.part {
        Part::Table(table) => table,
        _ => 0,
    };
    match needs {
        Needs::Head => format!("{have}; it must start with {bytes} bytes of numbers"),
        Needs::ByteCounts(leads) => {
            let leads = counted(leads, "lead");
            format!("{have}; the byte counts of {leads} end at {bytes}")
        }
        Needs::Leads(leads) => format!("{have}; {} take {bytes}", counted(leads, "lead")),
        Needs::Qrs(count) => format!("{have}; {count} QRS end at {bytes}"),
        Needs::Structures(count) => {
            let structures = counted(count, "structure");
            format!("the data end inside table {table}, which has {structures}")
        }
        Needs::Table => format!("the data end before table {table}"),
        Needs::Field => {
            let tag = tag(finding);
            format!("tag {tag} has length {bytes}, with {there} left")
        }
        Needs::Section => format!("{section}'s length is {bytes}, with {there} left"),
    }
}

/// More bytes than may follow the end.
pub fn after(finding: &Finding, found: usize, most: usize) -> String {
    let what = match (finding.section, finding.part) {
        (Some(1), _) => "the end mark",
        (Some(2), _) => "the code tables",
        _ => "the last lead",
    };
    let bytes = counted(found, "byte");
    match most {
        0 => format!("{bytes} after {what}, where none may be"),
        _ => format!("{bytes} after {what}, where at most {most} may be"),
    }
}
