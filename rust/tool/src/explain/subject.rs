//! The subject of findings, and the parts of it that their words name.

use judge::{Finding, Part};

use crate::input::Size;
use crate::making::Making;

/// The subject of findings: a record of this size, or a job.
#[derive(Clone, Copy)]
pub enum Subject<'a> {
    Record(Size),
    Job(&'a Making),
}

/// The section that a finding is in, as a sentence has it.
pub fn section(finding: &Finding) -> String {
    let id = finding.section.unwrap_or_default();
    format!("Section {id}")
}

/// The tag of the field that a finding is in.
pub fn tag(finding: &Finding) -> u8 {
    match finding.part {
        Part::Field(tag) => tag,
        _ => 0,
    }
}
