//! The inputs: sound records, records damaged in one rule, blind changes, bytes of no meaning, and the extremes.

use std::fmt;

use judge::make::{self, Rng};

use crate::beaten::beaten;
use crate::extremes;

/// A kind of input.
#[derive(Clone, Copy, Debug, PartialEq, Eq)]
pub enum Kind {
    /// A record that meets all rules.
    Sound,
    /// A record with a reference beat whose zones lie across leads of different spans; now and then with a fault in a
    /// stream.
    Beaten,
    /// A record that breaks the rule of this row, 1 to 14; for row 11, which is of the room lent, a sound one.
    Damaged(u8),
    /// A record that breaks several rules.
    Several,
    /// A record with changes that know nothing of the rules.
    Blind,
    /// Bytes of no meaning, of any length from 0.
    Noise,
    /// A record at the ends of the rules: the one at this place.
    Extreme(usize),
}

/// One input in this many is an extreme, as it takes its time.
const EXTREME: u64 = 1024;

impl Kind {
    /// The kind of the input with this number: all take turns.
    pub fn of(number: u64) -> Kind {
        if number % EXTREME == EXTREME - 1 {
            return Kind::Extreme((number / EXTREME) as usize % extremes::COUNT);
        }
        match number % 28 {
            0..=4 => Kind::Sound,
            5..=8 => Kind::Beaten,
            turn @ 9..=22 => Kind::Damaged(turn as u8 - 8),
            23 | 24 => Kind::Several,
            25 | 26 => Kind::Blind,
            _ => Kind::Noise,
        }
    }

    /// The name that it is counted by.
    pub fn name(self) -> &'static str {
        match self {
            Kind::Sound => "sound",
            Kind::Beaten => "beaten",
            Kind::Damaged(_) => "damaged",
            Kind::Several => "damaged in several ways",
            Kind::Blind => "blind",
            Kind::Noise => "noise",
            Kind::Extreme(_) => "extreme",
        }
    }
}

impl fmt::Display for Kind {
    fn fmt(&self, f: &mut fmt::Formatter<'_>) -> fmt::Result {
        match self {
            Kind::Damaged(row) => write!(f, "damaged for row {row}"),
            Kind::Extreme(place) => write!(f, "extreme: {}", extremes::nth(*place).name),
            kind => f.write_str(kind.name()),
        }
    }
}

/// An input of a kind.
pub fn make(kind: Kind, rng: &mut Rng) -> Vec<u8> {
    match kind {
        Kind::Sound => make::record(rng),
        Kind::Beaten => beaten(rng),
        Kind::Damaged(row) => make::aimed(rng, row),
        Kind::Several => make::several(rng),
        Kind::Blind => make::blind(rng),
        Kind::Noise => make::noise(rng),
        Kind::Extreme(place) => extremes::nth(place).record,
    }
}
