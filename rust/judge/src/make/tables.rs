//! Section 2's data for made records: prefix-free tables of values, remainders and switches.

use super::rng::Rng;
use crate::bounds;
use crate::encoding::tables_to_write;
use crate::tables::{Meaning, Structure, Tables, DEFAULT};

/// A structure as it is stored, before its bytes.
#[derive(Clone, Copy, Debug)]
pub struct Row {
    pub prefix_bits: u8,
    pub code_bits: u8,
    pub mode: u8,
    pub base_value: i16,
    pub base_code: u32,
}

/// The data that name the default table.
pub fn default_data() -> Vec<u8> {
    DEFAULT.to_le_bytes().to_vec()
}

/// The data that hold these tables.
pub fn data(tables: &[Vec<Row>]) -> Vec<u8> {
    let mut data = (tables.len() as u16).to_le_bytes().to_vec();
    for table in tables {
        data.extend((table.len() as u16).to_le_bytes());
        for row in table {
            data.extend([row.prefix_bits, row.code_bits, row.mode]);
            data.extend(row.base_value.to_le_bytes());
            data.extend(row.base_code.to_le_bytes());
        }
    }
    data
}

/// How large tables are.
#[derive(Clone, Copy, PartialEq, Eq)]
enum Kind {
    Any,
    /// As many structures as may be.
    Full,
    /// Few structures and few values, so that many streams are equally short.
    Narrow,
}

/// Tables that keep the rules, with a value to be reached from table 1; at times as many and as
/// large as may be.
pub fn rows(rng: &mut Rng) -> Vec<Vec<Row>> {
    let kind = match rng.below(60) {
        0 => Kind::Full,
        1..=12 => Kind::Narrow,
        _ => Kind::Any,
    };
    let number = match kind == Kind::Full || rng.one_in(20) {
        true => *bounds::TABLES.end(),
        false => 1 + rng.small(7),
    };
    let mut tables: Vec<Vec<Row>> = (0..number).map(|_| table(rng, number, kind)).collect();
    let read = tables_to_write(&data(&tables)).ok().flatten();
    if !read.is_some_and(|tables| alive(&tables)[0]) {
        let first = &mut tables[0][0];
        first.mode = 1;
        first.base_value = rng.pick(&[0, 1, -1]);
    }
    tables
}

fn table(rng: &mut Rng, tables: usize, kind: Kind) -> Vec<Row> {
    let count = match kind {
        Kind::Any => 1 + rng.small(63),
        Kind::Full => *bounds::STRUCTURES.end(),
        Kind::Narrow => rng.within(2..=8),
    };
    let prefixes = prefixes(rng, count);
    let mut rows: Vec<Row> = prefixes
        .into_iter()
        .map(|(bits, prefix)| row(rng, bits, prefix, tables))
        .collect();
    if kind == Kind::Narrow {
        for row in rows.iter_mut().filter(|row| row.mode == 1) {
            row.base_value = rng.pick(&[-1, 0, 0, 1]);
        }
    }
    rows
}

/// `count` prefixes, with their lengths and the first bit on top, of which none begins another:
/// leaves of a tree grown by splitting, some of them left out.
fn prefixes(rng: &mut Rng, count: usize) -> Vec<(u32, u32)> {
    let deep = rng.one_in(4);
    let unused = rng.pick(&[0, 0, 1]) * rng.small(30);
    let mut leaves = vec![(0, 0)];
    while leaves.len() < (count + unused).max(2) {
        let open: Vec<usize> = (0..leaves.len()).filter(|&at| leaves[at].0 < 32).collect();
        let at = match deep {
            true => open[open.len() - 1],
            false => rng.pick(&open),
        };
        let (bits, prefix) = leaves[at];
        let below = [(bits + 1, prefix), (bits + 1, prefix | 1 << (31 - bits))];
        let chosen = rng.below(2);
        leaves[at] = below[chosen];
        leaves.push(below[1 - chosen]);
    }
    rng.shuffle(&mut leaves);
    leaves.truncate(count);
    leaves
}

fn row(rng: &mut Rng, bits: u32, prefix: u32, tables: usize) -> Row {
    let row = Row {
        prefix_bits: bits as u8,
        code_bits: bits as u8,
        mode: 1,
        base_value: rng.two() as i16,
        base_code: prefix.reverse_bits(),
    };
    match rng.below(8) {
        0 => row,
        1 | 2 => {
            let remainder = rng.pick(&[1, 2, 4, 7, 8, 8, 12, 15, 16, 16]);
            Row {
                code_bits: row.code_bits + remainder,
                ..row
            }
        }
        3 => Row {
            mode: 0,
            base_value: rng.within(1..=tables) as i16,
            ..row
        },
        _ => Row {
            base_value: rng.below(17) as i16 - 8,
            ..row
        },
    }
}

/// For each table, whether some codes lead from it to a value.
pub fn alive(tables: &Tables) -> Vec<bool> {
    let mut alive = vec![false; tables.len()];
    let lives = |alive: &[bool], structure: &Structure| match structure.meaning {
        Meaning::Switch(table) => alive[table - 1],
        _ => true,
    };
    for _ in 0..tables.len() {
        for (at, table) in tables.iter().enumerate() {
            alive[at] = table.iter().any(|structure| lives(&alive, structure));
        }
    }
    alive
}
