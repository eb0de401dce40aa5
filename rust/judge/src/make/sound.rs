//! Records that meet the rules.

use super::draft::{Draft, Holds, Wish};
use super::rhythm::MadeLead;
use super::rng::Rng;
use crate::beat::beat_count;

/// A sound record with the leads that it must be read to.
#[derive(Clone, Debug)]
pub struct Made {
    pub record: Vec<u8>,
    pub flags: u8,
    pub step: u16,
    pub interval: u16,
    /// The difference order of Section 6.
    pub order: u8,
    /// None where Section 3 or 6 is absent.
    pub leads: Vec<MadeLead>,
    /// The work space that reading needs, in numbers of 16 bits.
    pub work: usize,
}

/// A record that meets the rules.
pub fn record(rng: &mut Rng) -> Vec<u8> {
    Draft::new(rng, Wish::default()).plan.lay_out()
}

/// A record that meets the rules, with what it holds.
pub fn made(rng: &mut Rng) -> Made {
    let draft = Draft::new(rng, Wish::default());
    let record = draft.plan.lay_out();
    match draft.rhythm {
        Some(rhythm) if draft.holds != Holds::NoStreams => Made {
            record,
            flags: rhythm.flags,
            step: rhythm.step,
            interval: rhythm.interval,
            order: rhythm.order,
            leads: rhythm.leads,
            work: rhythm
                .beat
                .map_or(0, |beat| beat_count(beat.length, rhythm.interval)),
        },
        _ => Made {
            record,
            flags: 0,
            step: 0,
            interval: 0,
            order: 0,
            leads: Vec::new(),
            work: 0,
        },
    }
}
