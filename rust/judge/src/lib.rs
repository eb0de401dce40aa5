//! An independent reading of document 01, as of document 02 change it, and of Q-13's
//! index, to compare the proved library with.
//!
//! Each call judges the bytes it is given by itself and answers what the rules say, or the number
//! of the refusal. A refusal can be explained: [`lead_findings`], [`job_findings`] and
//! [`findings`] answer all that breaks the rule, and where it is. The algorithms are the
//! plainest that stay linear; [`make`] has records to judge, sound and damaged. Places in bytes
//! count from 0, leads, occurrences and the offsets of findings from 1.

#![forbid(unsafe_code)]

mod beat;
mod bounds;
mod check;
mod differences;
mod encoding;
mod finding;
mod header;
mod index;
mod judging;
mod leads;
pub mod make;
mod numbers;
mod opening;
mod reading;
mod record;
mod refused;
pub mod row;
mod stored;
mod stream;
mod tables;
#[cfg(test)]
mod vectors;
mod writing;

pub use check::crc;
pub use encoding::{encode_lead, Coded};
pub use finding::{
    CodeFault, Fault, FieldFault, Finding, FrameFault, LeadFault, Needs, Part, StreamFault, What,
    ZoneFault,
};
pub use header::{same_identifier, walk_step, Step};
pub use index::{built_index, index_add, index_entry, index_find, index_merge, index_step};
pub use index::{IndexEntry, IndexStep};
pub use judging::{breaks, findings};
pub use opening::{field, open, walk_start};
pub use reading::{lead, lead_findings, read_lead, Entry, Lead, Reader};
pub use record::{has_letters, Pointer};
pub use refused::Refused;
pub use writing::{job_findings, write_record, Writing};
