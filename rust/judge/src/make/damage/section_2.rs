//! Row 7: each rule and bound of Section 2.

use crate::make::draft::Draft;
use crate::make::plan::put_two;
use crate::make::rng::Rng;
use crate::make::tables::{data, default_data, rows, Row};

pub fn damage(rng: &mut Rng, draft: &mut Draft) {
    let broken = broken_data(rng);
    draft.plan.replace(rng, 2, broken);
}

/// Section 2's data with one rule broken.
pub fn broken_data(rng: &mut Rng) -> Vec<u8> {
    let mut tables = rows(rng);
    match rng.below(5) {
        0 => return broken_frame(rng, data(&tables)),
        1 => break_number_of_structures(rng, &mut tables),
        3 => tables = tables.iter().cycle().take(9).cloned().collect(),
        2 => break_prefixes(rng, &mut tables),
        _ => {
            let number = tables.len();
            let at = rng.below(number);
            let structure = rng.below(tables[at].len());
            break_row(rng, &mut tables[at][structure], number);
        }
    }
    data(&tables)
}

/// Wrong numbers of tables, data cut or too long, and none at all.
fn broken_frame(rng: &mut Rng, mut data: Vec<u8>) -> Vec<u8> {
    let number = u16::from_le_bytes([data[0], data[1]]);
    match rng.below(6) {
        0 => {
            let near = rng.pick(&[number + 1, number << 8, 19_998, 20_000]);
            put_two(&mut data, 0, rng.pick(&[0, 9, 256, 65_535, near]));
        }
        1 => put_two(&mut data, 0, 19_999),
        2 => data = [default_data(), rng.bytes_within(2..=20)].concat(),
        3 => data.truncate(2 * rng.below(data.len() / 2)),
        4 => data.extend(rng.bytes_within(2..=3)),
        _ => data.clear(),
    }
    data
}

fn break_number_of_structures(rng: &mut Rng, tables: &mut [Vec<Row>]) {
    let at = rng.below(tables.len());
    let table = &mut tables[at];
    if rng.coin() {
        table.clear();
    } else {
        let row = table[0];
        let long = |code| Row {
            prefix_bits: 32,
            code_bits: 32,
            base_code: code,
            ..row
        };
        *table = (0..rng.within(65..=70) as u32).map(long).collect();
    }
}

/// One prefix that equals another, begins it, or goes on from it.
fn break_prefixes(rng: &mut Rng, tables: &mut [Vec<Row>]) {
    let at = rng.below(tables.len());
    let table = &mut tables[at];
    let of = table[rng.below(table.len())];
    let bits = match rng.below(3) {
        0 => of.prefix_bits,
        1 => rng.within(1..=of.prefix_bits.into()) as u8,
        _ => rng.within(of.prefix_bits.into()..=32) as u8,
    };
    let kept = of.base_code & (u32::MAX >> (32 - of.prefix_bits.min(bits)));
    let more = rng.four() & (u32::MAX >> (32 - bits));
    let more = (u64::from(more) >> of.prefix_bits << of.prefix_bits) as u32;
    let clash = Row {
        prefix_bits: bits,
        code_bits: bits,
        mode: 1,
        base_value: rng.two() as i16,
        base_code: kept | more,
    };
    let place = rng.below(table.len() + 1);
    table.insert(place, clash);
}

/// One field of a structure out of its rule.
fn break_row(rng: &mut Rng, row: &mut Row, tables: usize) {
    match rng.below(8) {
        0 => (row.prefix_bits, row.base_code) = (0, 0),
        1 => {
            row.prefix_bits = rng.pick(&[33, 33, 34, 255]);
            row.code_bits = row.prefix_bits;
        }
        2 => row.code_bits = rng.below(row.prefix_bits.into()) as u8,
        3 => {
            row.mode = 1;
            row.code_bits = row.prefix_bits + rng.pick(&[17, 17, 18, 200]);
        }
        4 => row.mode = rng.pick(&[2, 2, 3, 255]),
        5 => {
            row.mode = 0;
            row.base_value = 1;
            row.code_bits = row.prefix_bits + rng.within(1..=16) as u8;
        }
        6 => {
            row.mode = 0;
            row.code_bits = row.prefix_bits;
            row.base_value = rng.pick(&[0, 0, -1, tables as i16 + 1, 256, i16::MIN]);
        }
        _ => {
            row.prefix_bits = row.prefix_bits.min(31);
            row.base_code |= 1 << rng.within(row.prefix_bits.into()..=31);
        }
    }
}
