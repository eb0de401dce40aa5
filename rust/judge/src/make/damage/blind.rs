//! Changes that know nothing of the rules.

use crate::make::plan::{mend, mend_check, mend_size};
use crate::make::rng::Rng;
use crate::make::sound::record;

/// Bytes of no meaning, of any length from 0 on; some have the size and check of a record.
pub fn noise(rng: &mut Rng) -> Vec<u8> {
    let length = match rng.below(4) {
        0 => rng.below(16),
        1 | 2 => rng.below(400),
        _ => rng.small(20_000),
    };
    let mut bytes = rng.bytes(length);
    if rng.coin() {
        mend_size(&mut bytes);
        mend_check(&mut bytes);
    }
    bytes
}

/// A sound record with a few changes anywhere, at times with size and checks made right again.
pub fn blind(rng: &mut Rng) -> Vec<u8> {
    let mut bytes = record(rng);
    for _ in 0..=rng.small(6) {
        change(rng, &mut bytes);
    }
    if !rng.one_in(3) {
        mend_size(&mut bytes);
    }
    if !rng.one_in(3) {
        mend(&mut bytes);
    }
    bytes
}

fn change(rng: &mut Rng, bytes: &mut Vec<u8>) {
    let length = bytes.len();
    match rng.below(12) {
        0 => bytes.truncate(rng.below(length + 1)),
        1 => bytes.truncate(length - length.min(rng.small(20))),
        2 => bytes.extend(rng.bytes_within(1..=20)),
        3 => splice(rng, bytes),
        _ if length == 0 => {}
        _ => {
            let reach = if rng.coin() { length } else { length.min(400) };
            let at = rng.below(reach);
            bytes[at] = changed(rng, bytes[at]);
        }
    }
}

fn changed(rng: &mut Rng, byte: u8) -> u8 {
    match rng.below(4) {
        0 => byte ^ rng.bit(8) as u8,
        1 => rng.pick(&[0, 1, 2, 127, 128, 255]),
        2 => byte.wrapping_add(rng.pick(&[1, 255])),
        _ => rng.byte(),
    }
}

/// A part of the bytes copied over another part, pushed in, or taken out.
fn splice(rng: &mut Rng, bytes: &mut Vec<u8>) {
    let from = rng.below(bytes.len() + 1);
    let to = bytes.len().min(from + rng.small(200));
    let part = bytes[from..to].to_vec();
    let at = rng.below(bytes.len() + 1);
    let end = bytes.len().min(at + part.len());
    match rng.below(3) {
        0 => bytes.splice(at..end, part),
        1 => bytes.splice(at..at, part),
        _ => bytes.splice(at..end, Vec::new()),
    };
}
