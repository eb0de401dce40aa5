//! The answers as JSON: docs/output.schema.json says their shape.

mod about;
mod fields;
mod index;
mod leads;
mod pointers;
mod report;
mod summary;

use serde::Serialize;

pub use about::{unread, About};
pub use fields::{Field, Header};
pub use index::{Extended, Filed, Indexed};
pub use leads::{bits_in_hundredths, Counted, Lead, Rhythm};
pub use pointers::{Pointer, Pointers};
pub use report::{Report, Rule};
pub use summary::Summary;

/// An object in one line.
pub fn line(told: &impl Serialize) -> String {
    // Numbers, strings and lists of them: there is nothing that could fail.
    serde_json::to_string(told).expect("it can be told in JSON")
}

/// An object in several lines.
pub fn text(told: &impl Serialize) -> String {
    serde_json::to_string_pretty(told).expect("it can be told in JSON")
}
