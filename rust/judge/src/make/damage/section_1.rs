//! Row 6: each rule of Section 1's data.

use crate::make::draft::Draft;
use crate::make::rng::Rng;
use crate::make::section_1::{data, fields, identifier, open_data, Field};

/// Tags that must occur exactly once.
const ONCE: [u8; 4] = [2, 14, 25, 26];

pub fn damage(rng: &mut Rng, draft: &mut Draft) {
    let broken = broken_data(rng);
    draft.plan.replace(rng, 1, broken);
}

/// Section 1's data with one rule broken.
pub fn broken_data(rng: &mut Rng) -> Vec<u8> {
    let mut fields = fields(rng);
    let tag = rng.pick(&ONCE);
    match rng.below(8) {
        0 => return broken_end(rng, &fields),
        1 => end_with_bytes(rng, &mut fields),
        2 => fields.retain(|field| field.0 != tag),
        3 => stand_again(rng, &mut fields, tag),
        4 => set_bytes(&mut fields, 25, rng.bytes_within(5..=8)),
        5 => set_bytes(&mut fields, rng.pick(&[25, 26]), rng.bytes_within(0..=2)),
        6 => set_bytes(&mut fields, 26, rng.bytes_within(4..=6)),
        _ => set_bytes(&mut fields, 2, broken_identifier(rng)),
    }
    data(&fields)
}

fn set_bytes(fields: &mut [Field], tag: u8, bytes: Vec<u8>) {
    if let Some(field) = fields.iter_mut().find(|field| field.0 == tag) {
        field.1 = bytes;
    }
}

/// Tag 255 with a length that is not 0.
fn end_with_bytes(rng: &mut Rng, fields: &mut Vec<Field>) {
    let at = rng.below(fields.len() + 1);
    fields.insert(at, (255, rng.bytes_within(1..=300)));
}

fn stand_again(rng: &mut Rng, fields: &mut Vec<Field>, tag: u8) {
    let again = fields.iter().find(|field| field.0 == tag).cloned();
    let at = rng.below(fields.len() + 1);
    fields.splice(at..at, again);
}

fn broken_identifier(rng: &mut Rng) -> Vec<u8> {
    let mut bytes = identifier(rng);
    let last = bytes.len() - 1;
    match rng.below(6) {
        0 => bytes.clear(),
        1 => bytes = vec![0],
        2 => bytes[rng.below(last)] = 0,
        3 => bytes[last] = 1,
        4 => bytes.push(rng.pick(&[0, 1])),
        _ => {
            let length = rng.pick(&[64, 64, 65, 300]);
            bytes = [vec![b'7'; length], vec![0]].concat();
        }
    }
    bytes
}

/// No end mark, a cut one, one with a length, or too much after it.
fn broken_end(rng: &mut Rng, fields: &[Field]) -> Vec<u8> {
    let mut data = open_data(fields);
    match rng.below(8) {
        0 => data.clear(),
        1 => {}
        2 => data.push(255),
        3 => data.extend([255, 0]),
        4 => data.extend([255, 0, 1]),
        5 => data.extend([255, 1, 0, 0, 255, 0, 0]),
        6 => data.extend([9, 9, 9, 255, 0, 0]),
        _ => {
            data.extend([255, 0, 0]);
            let count = rng.pick(&[2, 2, 3, 9]);
            data.extend(rng.bytes(count));
        }
    }
    data
}
