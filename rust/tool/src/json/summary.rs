//! The summary of many files.

use std::collections::BTreeMap;

use serde::Serialize;

use super::about::Name;
use super::index::Indexed;
use crate::refused;
use crate::tally::{self, Tally};

/// How many files fared how, as the last line of many.
#[derive(Serialize)]
pub struct Summary {
    summary: Counts,
    /// The index that they were added to, if that is what was done.
    #[serde(skip_serializing_if = "Option::is_none")]
    index: Option<Indexed>,
    #[serde(skip_serializing_if = "Option::is_none")]
    note: Option<&'static str>,
}

#[derive(Serialize)]
struct Counts {
    files: usize,
    accepted: usize,
    refused: usize,
    unread: usize,
    interrupted: bool,
    passed_over: PassedOver,
    by_number: BTreeMap<u8, usize>,
    /// Absent where no record had a structure compared.
    #[serde(skip_serializing_if = "Option::is_none")]
    busiest: Option<Busiest>,
}

/// Entries of folders that were passed over.
#[derive(Serialize)]
struct PassedOver {
    links: usize,
    special_files: usize,
}

/// The record that the most structures were compared for.
#[derive(Serialize)]
struct Busiest {
    #[serde(flatten)]
    name: Name,
    compared: usize,
}

impl From<&tally::Busiest> for Busiest {
    fn from(busiest: &tally::Busiest) -> Busiest {
        Busiest {
            name: Name::of(&busiest.file),
            compared: busiest.compared,
        }
    }
}

impl Summary {
    /// The summary of these.
    pub fn new(tally: &Tally) -> Summary {
        Summary {
            summary: Counts {
                files: tally.files(),
                accepted: tally.accepted,
                refused: tally.refused(),
                unread: tally.not_read,
                interrupted: tally.is_interrupted,
                passed_over: PassedOver {
                    links: tally.links,
                    special_files: tally.special_files,
                },
                by_number: tally.by_number().collect(),
                busiest: tally.busiest.as_ref().map(Busiest::from),
            },
            index: None,
            note: (tally.refused() > 0).then_some(refused::NOTE),
        }
    }

    /// The same with the index that they were added to.
    pub fn with(mut self, index: Indexed) -> Summary {
        self.index = Some(index);
        self
    }
}
