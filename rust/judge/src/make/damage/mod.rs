//! Damage of every kind: aimed at a row of the table, at several at once, or blind.

mod blind;
mod frame;
mod section_1;
mod section_2;
mod sections_3_to_6;
mod streams;

pub use blind::{blind, noise};
pub use section_1::broken_data as broken_section_1;
pub use section_2::broken_data as broken_section_2;

use super::draft::{Coding, Draft, Holds, Wish};
use super::plan::{mend, mend_check};
use super::record;
use super::rng::Rng;

/// The rows aimed at, those with many rules more often.
const ROWS: [u8; 24] = [
    1, 2, 3, 3, 4, 4, 5, 6, 6, 7, 7, 7, 8, 8, 8, 8, 9, 10, 12, 12, 13, 13, 14, 14,
];

/// Damage of any kind.
pub fn damaged(rng: &mut Rng) -> Vec<u8> {
    match rng.below(16) {
        0 | 1 => blind(rng),
        2 => noise(rng),
        3 | 4 => several(rng),
        _ => {
            let row = rng.pick(&ROWS);
            aimed(rng, row)
        }
    }
}

/// A record damaged so that some call gives the number of this row, 1 to 14; now and then it meets
/// another, or none. Row 10 takes a record without leads to read and row 11 a sound one.
pub fn aimed(rng: &mut Rng, row: u8) -> Vec<u8> {
    let wish = match row {
        1..=5 => return aimed_at_frame(rng, row),
        7 => Wish::coded(Coding::Own),
        8 => Wish::holding(rng.pick(&[Holds::Leads, Holds::Beat, Holds::Beat, Holds::NoStreams])),
        10 => Wish::holding(rng.pick(&[Holds::Nothing, Holds::NoStreams])),
        9 | 12 | 14 => Wish::holding(rng.pick(&[Holds::Leads, Holds::Beat])),
        13 => Wish {
            coding: Some(rng.pick(&[Coding::TwoBytes, Coding::Default])),
            holds: Some(rng.pick(&[Holds::Leads, Holds::Beat, Holds::Beat])),
        },
        _ => Wish::default(),
    };
    let mut draft = Draft::new(rng, wish);
    damage_sections(rng, &mut draft, row);
    draft.plan.lay_out()
}

/// Rows 1 to 5, with the checks right where they are not what is aimed at.
fn aimed_at_frame(rng: &mut Rng, row: u8) -> Vec<u8> {
    let mut bytes = match row {
        3 if rng.coin() => frame::broken_pointers(rng),
        4 if rng.one_in(6) => frame::odd_section(rng),
        _ => {
            let mut bytes = record(rng);
            damage_frame(rng, &mut bytes, row);
            bytes
        }
    };
    match row {
        2 => {}
        5 => mend_check(&mut bytes),
        _ => mend(&mut bytes),
    }
    bytes
}

/// Several rows at once, of which the smallest decides.
pub fn several(rng: &mut Rng) -> Vec<u8> {
    let mut draft = Draft::new(rng, Wish::default());
    for row in [14, 13, 12, 9, 8, 7, 6] {
        if rng.one_in(3) {
            damage_sections(rng, &mut draft, row);
        }
    }
    let mut bytes = draft.plan.lay_out();
    if rng.coin() {
        let row = rng.within(1..=5) as u8;
        damage_frame(rng, &mut bytes, row);
    }
    match rng.below(4) {
        0 => {}
        1 => mend_check(&mut bytes),
        _ => mend(&mut bytes),
    }
    bytes
}

/// Breaks a rule of this row where the record has what it needs.
fn damage_sections(rng: &mut Rng, draft: &mut Draft, row: u8) {
    match row {
        6 => section_1::damage(rng, draft),
        7 => section_2::damage(rng, draft),
        8 => sections_3_to_6::damage(rng, draft),
        9 => sections_3_to_6::disagree(rng, draft),
        12 => streams::run_out(rng, draft),
        13 => streams::overflow(rng, draft),
        14 => streams::leave_over(rng, draft),
        _ => {}
    }
}

/// Breaks a rule of this row in the bytes of a sound record, its checks left as they are.
fn damage_frame(rng: &mut Rng, bytes: &mut Vec<u8>, row: u8) {
    match row {
        1 => frame::wrong_size(rng, bytes),
        2 => frame::wrong_check(rng, bytes),
        3 => frame::broken_section_0(rng, bytes),
        4 => frame::broken_place(rng, bytes),
        _ => frame::wrong_section_check(rng, bytes),
    }
}
