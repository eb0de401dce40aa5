//! An index: its entries, how many there are, and what was added.

use std::path::Path;

use serde::Serialize;

use super::about::Name;
use crate::filed::{self, Extent};
use crate::reading::{Reading, Value};
use crate::text::hex;

/// The tag of the patient identifier.
const IDENTIFIER: u8 = 2;

/// An entry.
#[derive(Serialize)]
pub struct Filed {
    /// Its bytes in hex.
    identifier: String,
    /// Its text, if it has any.
    #[serde(flatten)]
    text: Option<Value>,
    date: String,
    #[serde(skip_serializing_if = "Option::is_none")]
    remark: Option<&'static str>,
    lead_count: u8,
}

impl From<&filed::Filed<'_>> for Filed {
    fn from(filed: &filed::Filed) -> Filed {
        Filed {
            identifier: hex(filed.identifier),
            text: Reading::of(IDENTIFIER, filed.identifier).value,
            date: filed.date.told(),
            remark: filed.date.remark(),
            lead_count: filed.leads,
        }
    }
}

/// The content that `index check` shows of an index.
#[derive(Serialize)]
pub struct Extended {
    entries: usize,
    identifiers: usize,
    #[serde(skip_serializing_if = "Option::is_none")]
    first_date: Option<String>,
    #[serde(skip_serializing_if = "Option::is_none")]
    last_date: Option<String>,
}

impl From<&Extent> for Extended {
    fn from(extent: &Extent) -> Extended {
        let dates = extent.dates.map(|(from, to)| (from.told(), to.told()));
        let (first_date, last_date) = dates.unzip();
        Extended {
            entries: extent.entries,
            identifiers: extent.identifiers,
            first_date,
            last_date,
        }
    }
}

/// The index that records were added to, beside the summary of the records.
#[derive(Serialize)]
pub struct Indexed {
    #[serde(flatten)]
    name: Name,
    bytes: usize,
    added: usize,
    entries: usize,
}

impl Indexed {
    /// An index of this many bytes and entries, of which so many were added.
    pub fn new(file: &Path, bytes: usize, added: usize, entries: usize) -> Indexed {
        Indexed {
            name: Name::of(file),
            bytes,
            added,
            entries,
        }
    }
}
