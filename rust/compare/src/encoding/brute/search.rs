//! All bit streams, bit by bit, all of one length before any longer one.

use std::collections::{BTreeMap, BTreeSet};

use crate::rhythm::Code;

/// The first of the streams that read to some values, shorter ones first and then smaller ones.
#[derive(Clone, Debug)]
pub struct Found {
    pub bits: usize,
    /// Its bits, the last of them lowest.
    pub stream: u128,
    /// How many streams of this length there are.
    pub ways: u64,
    /// Whether it switches tables.
    pub switches: bool,
}

impl Found {
    pub fn bytes(&self) -> Vec<u8> {
        let bytes = (self.stream << (128 - self.bits)).to_be_bytes();
        bytes[..self.bits.div_ceil(8)].to_vec()
    }
}

/// The state of a reader after some bits: the values it has, its table, and the bits of a code that is not whole yet.
#[derive(Clone, Copy, Debug, PartialEq, Eq, PartialOrd, Ord)]
struct State {
    values: usize,
    table: usize,
    bits: usize,
    begun: u32,
}

/// The streams of one length that leave a reader in a state: the smallest of them, and how many there are.
#[derive(Clone, Copy)]
struct Streams {
    smallest: u128,
    switches: bool,
    ways: u64,
}

/// The effect of a bit on a reader.
enum Step {
    /// It goes on, with a switch just taken or not.
    On(State, bool),
    /// The bits match no code, or are another value.
    Dead,
}

/// All bit streams, as a reader meets them.
pub struct Search<'a> {
    tables: &'a [Vec<Code>],
    values: &'a [i32],
}

impl<'a> Search<'a> {
    pub fn new(tables: &'a [Vec<Code>], values: &'a [i32]) -> Search<'a> {
        Search { tables, values }
    }

    /// Takes all states that streams of 0, 1, 2 .. bits lead to. A state that was met by a shorter stream is not taken again,
    /// as all that can follow it has followed that one; so there is an end, and with no state left no stream there is.
    pub fn run(&self) -> Option<Found> {
        let start = State {
            values: 0,
            table: 1,
            bits: 0,
            begun: 0,
        };
        let nothing = Streams {
            smallest: 0,
            switches: false,
            ways: 1,
        };
        let mut met = BTreeSet::from([start]);
        let mut level = BTreeMap::from([(start, nothing)]);
        for bits in 0.. {
            if let Some(found) = self.found(bits, &level) {
                return Some(found);
            }
            if level.is_empty() {
                return None;
            }
            level = self.next(&level, &met);
            met.extend(level.keys());
        }
        None
    }

    /// The smallest of the streams that are now read to all values, in whatever table.
    fn found(&self, bits: usize, level: &BTreeMap<State, Streams>) -> Option<Found> {
        let whole = level
            .iter()
            .filter(|(state, _)| state.values == self.values.len());
        let ways = whole.clone().map(|(_, streams)| streams.ways).sum();
        let (_, first) = whole.min_by_key(|(_, streams)| streams.smallest)?;
        Some(Found {
            bits,
            stream: first.smallest,
            ways,
            switches: first.switches,
        })
    }

    /// The states after one bit more.
    fn next(
        &self,
        level: &BTreeMap<State, Streams>,
        met: &BTreeSet<State>,
    ) -> BTreeMap<State, Streams> {
        let mut next: BTreeMap<State, Streams> = BTreeMap::new();
        for (state, streams) in level {
            for bit in 0..2 {
                let Step::On(to, switched) = self.step(*state, bit) else {
                    continue;
                };
                if met.contains(&to) {
                    continue;
                }
                let mut more = Streams {
                    smallest: streams.smallest << 1 | u128::from(bit),
                    switches: streams.switches || switched,
                    ways: streams.ways,
                };
                if let Some(other) = next.get(&to) {
                    let ways = more.ways + other.ways;
                    if other.smallest < more.smallest {
                        more = *other;
                    }
                    more.ways = ways;
                }
                next.insert(to, more);
            }
        }
        next
    }

    /// The effect of the next bit on a reader: the reading rule, bit by bit.
    fn step(&self, state: State, bit: u32) -> Step {
        let bits = state.bits + 1;
        let begun = state.begun << 1 | bit;
        let read = format!("{begun:0bits$b}");
        let within = Step::On(
            State {
                bits,
                begun,
                ..state
            },
            false,
        );
        for code in &self.tables[state.table - 1] {
            if code.prefix.len() > bits {
                if code.prefix.starts_with(&read) {
                    return within;
                }
                continue;
            }
            let Some(after) = read.strip_prefix(&code.prefix) else {
                continue;
            };
            if after.len() < usize::from(code.remainder) {
                return within;
            }
            return self.whole(state, code, after);
        }
        Step::Dead
    }

    /// The effect of a whole code on a reader, with these bits after its prefix.
    fn whole(&self, state: State, code: &Code, after: &str) -> Step {
        let fresh = State {
            bits: 0,
            begun: 0,
            ..state
        };
        if code.mode == 0 {
            let table = code.base as usize;
            return Step::On(State { table, ..fresh }, true);
        }
        let value = match after {
            "" => code.base.into(),
            bits => twos_complement(bits),
        };
        match self.values.get(state.values) == Some(&value) {
            true => Step::On(
                State {
                    values: state.values + 1,
                    ..fresh
                },
                false,
            ),
            false => Step::Dead,
        }
    }
}

/// The number that bits are in two's complement.
fn twos_complement(bits: &str) -> i32 {
    let sum = bits
        .bytes()
        .fold(0, |sum, bit| 2 * sum + i32::from(bit == b'1'));
    match bits.starts_with('1') {
        true => sum - (1 << bits.len()),
        false => sum,
    }
}

#[cfg(test)]
mod tests {
    use super::{twos_complement, Search};
    use crate::rhythm::{remainder, switch, value};

    #[test]
    fn numbers_in_twos_complement() {
        assert_eq!(
            ["0", "1", "01", "10", "111"].map(twos_complement),
            [0, -1, 1, -2, -1]
        );
    }

    #[test]
    fn streams_that_can_be_told_by_hand() {
        // 1 is 111 here, and 0 after a switch; from there 0 is 11, and 10 leads back
        let tables = [
            vec![
                value("0", 0),
                value("111", 1),
                switch("10", 2),
                switch("110", 1),
            ],
            vec![value("0", 1), switch("10", 1), value("11", 0)],
        ];
        let found = |values: &[i32]| {
            let found = Search::new(&tables, values).run()?;
            Some((
                format!("{:0bits$b}", found.stream, bits = found.bits),
                found.ways,
            ))
        };
        assert_eq!(found(&[0]), Some(("0".into(), 1)));
        assert_eq!(found(&[1]), Some(("100".into(), 2)), "not 111");
        assert_eq!(found(&[1, 1]), Some(("1000".into(), 1)));
        assert_eq!(found(&[1, 0]), Some(("1110".into(), 1)));
        assert_eq!(found(&[2]), None);
        let signed = [vec![remainder("0", 2), switch("1", 1)]];
        let found = Search::new(&signed, &[-2, 1]).run().unwrap();
        assert_eq!(
            (found.bits, found.stream, found.switches),
            (6, 0b010001, false)
        );
        assert_eq!(found.bytes(), [0b0100_0100]);
    }
}
