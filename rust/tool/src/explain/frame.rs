//! Rows 1 to 5: the record's length, Section 0, the sections' places and headers, the checks.

use judge::{row, Finding, FrameFault};

use super::subject::{section, Subject};
use crate::input::Size;
use crate::names;
use crate::text::hex;

/// The fewest bytes that a record has.
const RECORD_MIN: u64 = 142;

pub fn words(finding: &Finding, fault: &FrameFault, subject: Subject) -> String {
    let name = section(finding);
    match *fault {
        FrameFault::Size { field, .. } => match subject {
            Subject::Record(size) => length(size, field),
            Subject::Job(_) => String::new(),
        },
        FrameFault::Check { stored, computed } => check(finding, stored, computed),
        FrameFault::Letters(found) => {
            format!("bytes 17 to 22 are {}, not the letters SCPECG", hex(&found))
        }
        FrameFault::PointersLength(length) => {
            format!("{name}'s length is {length}, not 16 plus 10 for each of 12 to 64 pointers")
        }
        FrameFault::InSection0 { start, end } => match start {
            7.. => format!("{name} starts inside Section 0, which ends at byte {end}"),
            _ => {
                format!("{name} starts at byte {start}, before Section 0, which ends at byte {end}")
            }
        },
        FrameFault::PastEnd { start, end, size } => {
            format!("{name} (bytes {start} to {end}) ends after the record's last byte, {size}")
        }
        FrameFault::Overlap {
            own: (start, end),
            section,
            other: (first, last),
        } => format!(
            "{name} (bytes {start} to {end}) overlaps Section {section} (bytes {first} to {last})"
        ),
        FrameFault::OddLength(length) => format!("{name} has length {length}, which is odd"),
    }
}

/// Row 1: the length and the size field.
fn length(size: Size, field: Option<u32>) -> String {
    let most = scp::RECORD_MAX as u64;
    let outside = match size {
        Size::Exactly(bytes) if bytes < RECORD_MIN => format!(", under {RECORD_MIN}"),
        Size::Exactly(bytes) if bytes > most => format!(", over {most}"),
        _ => String::new(),
    };
    match field {
        Some(field) => format!("the length is {size}{outside}; the size field says {field}"),
        None => format!("the length is {size}{outside}; there is no size field (bytes 3 to 6)"),
    }
}

/// A CRC that is not that of its bytes.
fn check(finding: &Finding, stored: u16, computed: u16) -> String {
    let words = format!("the CRC stored is 0x{stored:04X}, and the bytes give 0x{computed:04X}");
    match finding.section {
        Some(id) => format!("{}, {}: {words}", section(finding), names::section(id)),
        None => words,
    }
}

/// A section that is not there.
pub fn absent(finding: &Finding) -> String {
    let name = section(finding);
    match (finding.row, finding.section) {
        (row::SECTIONS_3_TO_6, Some(3)) => "Section 6 is present without Section 3".to_string(),
        (row::SECTIONS_3_TO_6, _) => {
            format!("{name} is absent; the reference beat that was subtracted needs it")
        }
        _ => format!("{name} is absent"),
    }
}
