//! Row 6: the fields of Section 1.

use judge::{FieldFault, Finding};

use super::subject::tag;
use crate::text::counted;

pub fn words(finding: &Finding, fault: &FieldFault) -> String {
    let tag = tag(finding);
    match *fault {
        FieldFault::NoEndMark { left: 0 } => "there is no end mark".to_string(),
        FieldFault::NoEndMark { left } => {
            let left = counted(left, "byte");
            format!("there is no end mark, and {left} left, too few for a field")
        }
        FieldFault::Times(0) => format!("there is no tag {tag}"),
        FieldFault::Times(times) => format!("tag {tag} occurs {times} times, not once"),
        FieldFault::Nul { place: None, .. } => format!("tag {tag} has no NUL at its end"),
        FieldFault::Nul {
            place: Some(place),
            length,
        } => format!("tag {tag} has a NUL as byte {place} of {length}"),
    }
}
