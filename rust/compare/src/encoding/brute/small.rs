//! Tables of few short codes, few values, and the samples that have them as their differences.

use judge::make::Rng;

use crate::rhythm::{remainder, switch, value, Code};

/// Two to four tables of two to six short codes, some of them left out; at least one is a switch.
pub fn small_tables(rng: &mut Rng) -> Vec<Vec<Code>> {
    let number = rng.within(2..=4);
    let narrow = !rng.one_in(4);
    let mut tables: Vec<Vec<Code>> = (0..number)
        .map(|_| {
            let prefixes = short_prefixes(rng);
            let code = |prefix| small_code(prefix, number, narrow, rng);
            prefixes.into_iter().map(code).collect()
        })
        .collect();
    if !tables.iter().flatten().any(|code| code.mode == 0) {
        let first = &mut tables[0][0];
        *first = switch(first.prefix.clone(), rng.within(1..=number) as i16);
    }
    tables
}

/// Prefixes of up to four bits of which none begins another, in any order.
fn short_prefixes(rng: &mut Rng) -> Vec<String> {
    let count = rng.within(2..=6);
    let mut leaves = vec!["0".to_string(), "1".to_string()];
    while leaves.len() < count {
        let at = rng.below(leaves.len());
        if leaves[at].len() < 4 {
            let leaf = leaves.swap_remove(at);
            leaves.extend([format!("{leaf}0"), format!("{leaf}1")]);
        }
    }
    rng.shuffle(&mut leaves);
    if rng.one_in(4) {
        leaves.pop();
    }
    leaves
}

/// A switch to any table, a value of one to three bits after the prefix, or a small value.
fn small_code(prefix: String, tables: usize, narrow: bool, rng: &mut Rng) -> Code {
    match rng.below(10) {
        0..=3 => switch(prefix, rng.within(1..=tables) as i16),
        4 => remainder(prefix, rng.within(1..=3) as u8),
        _ if narrow => value(prefix, rng.below(2) as i16),
        _ => value(prefix, rng.below(5) as i16 - 2),
    }
}

/// One to five small values: mostly some that the tables can give, one after another.
pub fn small_values(tables: &[Vec<Code>], rng: &mut Rng) -> Vec<i32> {
    let count = rng.within(1..=5);
    if rng.one_in(4) {
        return (0..count).map(|_| rng.below(6) as i32 - 2).collect();
    }
    let mut values = Vec::new();
    let mut table = 1;
    for _ in 0..40 {
        let codes = &tables[table - 1];
        let code = &codes[rng.below(codes.len())];
        match (code.mode, code.remainder) {
            (0, _) => table = code.base as usize,
            (_, 0) => values.push(code.base.into()),
            (_, bits) => values.push(rng.below(1 << bits) as i32 - (1 << (bits - 1))),
        }
        if values.len() == count {
            break;
        }
    }
    match values.is_empty() {
        true => vec![0],
        false => values,
    }
}

/// The samples whose differences are these values.
pub fn samples_of(values: &[i32], order: u8) -> Vec<i16> {
    let mut samples: Vec<i32> = Vec::new();
    for value in values {
        let before = match (order, &samples[..]) {
            (1, [.., last]) => *last,
            (2, [.., before, last]) => 2 * last - before,
            _ => 0,
        };
        samples.push(before + value);
    }
    samples.into_iter().map(|sample| sample as i16).collect()
}

#[cfg(test)]
mod tests {
    use super::samples_of;

    #[test]
    fn samples_are_sums() {
        assert_eq!(samples_of(&[3, -1, 2], 0), [3, -1, 2]);
        assert_eq!(samples_of(&[3, -1, 2], 1), [3, 2, 4]);
        assert_eq!(samples_of(&[3, -1, 2], 2), [3, -1, -3]);
    }
}
