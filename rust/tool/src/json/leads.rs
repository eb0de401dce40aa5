//! The leads of a record: how many, what it says of each, their samples, and how many structures were compared for them.

use scp::Entry;
use serde::Serialize;
use serde_json::value::{to_raw_value, RawValue};

use super::about::Decision;
use crate::names;
use crate::refused::Refused;
use crate::verdict::Verdict;

/// The content that `check` shows of a record that was accepted.
#[derive(Serialize)]
pub struct Counted {
    lead_count: usize,
    /// The structures compared, over all leads.
    compared: usize,
}

impl Counted {
    /// How many leads a record has, and how many structures were compared for them, if it was accepted.
    pub fn of(verdict: Verdict) -> Option<Counted> {
        match verdict {
            Verdict::Accepted { leads, compared } => Some(Counted {
                lead_count: leads,
                compared,
            }),
            Verdict::Refused { .. } => None,
        }
    }
}

/// The content that `leads` and `samples` show: what all leads have in common, and the leads.
#[derive(Serialize)]
pub struct Rhythm {
    flags: u8,
    reference_beat_subtracted: bool,
    step_nanovolts: u16,
    interval_microseconds: u16,
    difference_order: u8,
    leads: Vec<Lead>,
}

impl Rhythm {
    /// These leads, of which the first says what all have in common.
    pub fn new(first: &Entry, leads: Vec<Lead>) -> Rhythm {
        Rhythm {
            flags: first.flags,
            reference_beat_subtracted: first.had_beat_subtracted(),
            step_nanovolts: first.step,
            interval_microseconds: first.interval,
            difference_order: first.order,
            leads,
        }
    }
}

/// A lead.
#[derive(Serialize)]
pub struct Lead {
    place: usize,
    id: u8,
    name: String,
    first_sample: u32,
    last_sample: u32,
    count: usize,
    bytes: usize,
    bits_a_sample: f64,
    /// Absent where the lead's stream was not read.
    #[serde(flatten)]
    decision: Option<Decision>,
    /// The structures compared, where the stream was read and the lead is not refused.
    #[serde(skip_serializing_if = "Option::is_none")]
    compared: Option<u32>,
    /// In one line, however many there are.
    #[serde(skip_serializing_if = "Option::is_none")]
    samples: Option<Box<RawValue>>,
}

impl Lead {
    /// The lead at a place, its stream unread.
    pub fn new(place: usize, entry: &Entry) -> Lead {
        Lead {
            place,
            id: entry.id,
            name: names::lead(entry.id),
            first_sample: entry.first,
            last_sample: entry.last,
            count: entry.count(),
            bytes: entry.bytes,
            bits_a_sample: bits_in_hundredths(entry) as f64 / 100.0,
            decision: None,
            compared: None,
            samples: None,
        }
    }

    /// The same with how many structures were compared in reading its stream, or with its refusal.
    pub fn answered(mut self, answer: Result<u32, &Refused>) -> Lead {
        self.decision = Some(Decision::of(answer.err()));
        self.compared = answer.ok();
        self
    }

    /// The same with its samples.
    pub fn with(mut self, samples: &[i16]) -> Lead {
        self.samples = to_raw_value(samples).ok();
        self
    }
}

/// How many bits of its stream a sample takes, in hundredths, rounded.
pub fn bits_in_hundredths(entry: &Entry) -> usize {
    let count = entry.count();
    (100 * 8 * entry.bytes + count / 2) / count
}
