//! Encoding a lead: the shortest stream, and of equally short ones the smallest: rows 15 to 17
//! (01, Refusal numbers; Examples to hold against).

use crate::bounds;
use crate::differences::differences;
use crate::finding::Finding;
use crate::judging::number;
use crate::numbers::Bytes;
use crate::refused::Refused;
use crate::row;
use crate::stream::Put;
use crate::tables::{tables, Meaning, Structure, Tables};

/// An encoded lead.
#[derive(Clone, Debug, PartialEq, Eq)]
pub struct Coded {
    pub bytes: Vec<u8>,
    pub bits: u32,
    /// Whether the work space lent is zeros; otherwise it is untouched.
    pub work_cleared: bool,
}

/// Encodes one lead by the data of a Section 2, empty for none, with `work_len` bytes of work space
/// and room for `out_len` bytes. It is refused with the first that applies of 17, 7, 11 for work
/// space, 15, 16, 11 for output.
pub fn encode_lead(
    section2: &[u8],
    samples: &[i16],
    order: u8,
    work_len: usize,
    out_len: usize,
) -> Result<Coded, Refused> {
    if !bounds::SAMPLES.contains(&samples.len()) || !bounds::ORDERS.contains(&order) {
        return Err(Refused::untouched(row::WRITER_BOUNDS));
    }
    let tables = tables_to_write(section2).map_err(|found| Refused::untouched(number(&found)))?;
    if work_len < work_needed(&tables, samples.len()) {
        return Err(Refused::untouched(row::ROOM));
    }
    let work_cleared = tables.is_some();
    let coded = encoded(&tables, samples, order, out_len);
    let (bytes, bits) = coded.map_err(|number| Refused {
        number,
        work_cleared,
    })?;
    Ok(Coded {
        bytes,
        bits,
        work_cleared,
    })
}

fn encoded(
    tables: &Option<Tables>,
    samples: &[i16],
    order: u8,
    out_len: usize,
) -> Result<(Vec<u8>, u32), u8> {
    let stream = stream(tables.as_ref(), samples, order).ok_or(row::NO_STREAM)?;
    let bits = stream.bits() as u32;
    let bytes = stream.bytes();
    if bytes.len() > bounds::STREAM {
        return Err(row::TOO_LONG);
    }
    if bytes.len() > out_len {
        return Err(row::ROOM);
    }
    Ok((bytes, bits))
}

/// The tables of a Section 2 to be written, without a spare byte; none of empty data. Refused with
/// 7.
pub fn tables_to_write(section2: &[u8]) -> Result<Option<Tables>, Vec<Finding>> {
    match section2 {
        [] => Ok(None),
        data => tables(Bytes::new(data), 0).map(Some),
    }
}

/// The work space asked for, in bytes: one for each table at each sample of the longest lead.
pub fn work_needed(tables: &Option<Tables>, longest: usize) -> usize {
    longest * tables.as_ref().map_or(0, Vec::len)
}

/// The stream the writer gives for these samples, of any length; `None` if none reads to them.
pub fn stream(tables: Option<&Tables>, samples: &[i16], order: u8) -> Option<Put> {
    let values = differences(order, samples);
    match tables {
        Some(tables) => shortest(tables, &values),
        None => two_bytes_each(&values),
    }
}

/// The place, from 0, of the first of these values that no codes reach from table 1 on, by the
/// values before it; `None` if all are reached.
pub fn first_unreached(tables: Option<&Tables>, values: &[i32]) -> Option<usize> {
    let Some(tables) = tables else {
        return values
            .iter()
            .position(|&value| i16::try_from(value).is_err());
    };
    let mut current = vec![false; tables.len()];
    current[0] = true;
    values.iter().position(|&value| {
        switch_on(tables, &mut current);
        let gives = |table: &Vec<Structure>| table.iter().any(|code| code.gives(value));
        for (is_current, table) in current.iter_mut().zip(tables) {
            *is_current &= gives(table);
        }
        !current.contains(&true)
    })
}

/// Adds the tables that switches lead to.
fn switch_on(tables: &Tables, current: &mut [bool]) {
    let mut open: Vec<usize> = (0..tables.len()).filter(|&at| current[at]).collect();
    while let Some(at) = open.pop() {
        for code in &tables[at] {
            match code.meaning {
                Meaning::Switch(to) if !current[to - 1] => {
                    current[to - 1] = true;
                    open.push(to - 1);
                }
                _ => {}
            }
        }
    }
}

fn two_bytes_each(values: &[i32]) -> Option<Put> {
    let mut put = Put::default();
    for &value in values {
        let value = i16::try_from(value).ok()?;
        put.top_bits(u32::from(value.swap_bytes() as u16) << 16, 16);
    }
    Some(put)
}

/// The least bits that codes take from each table on; `None` where no codes do.
type Least = Vec<Option<u32>>;

/// Goes on from table 1 with the smallest of the codes that lead to the least bits. Prefixes of a
/// table differ within the shorter one, so no other stream of these bits is smaller.
fn shortest(tables: &Tables, values: &[i32]) -> Option<Put> {
    let least = least_bits(tables, values);
    let mut put = Put::default();
    let mut table = 1;
    for (&value, pair) in values.iter().zip(least.windows(2)) {
        loop {
            let keeps = |code: &&Structure| {
                let rest = rest(code, value, table, &pair[0], &pair[1]);
                rest.is_some_and(|rest| Some(rest + code.code_bits()) == pair[0][table - 1])
            };
            let codes = tables[table - 1].iter().filter(keeps);
            let code = codes.min_by_key(|code| code.prefix)?;
            put.code(code, value);
            match code.meaning {
                Meaning::Switch(next) => table = next,
                _ => break,
            }
        }
    }
    Some(put)
}

/// For each value, and at last for none, the least bits of codes for it and all after it.
fn least_bits(tables: &Tables, values: &[i32]) -> Vec<Least> {
    let mut all = vec![vec![Some(0); tables.len()]];
    for &value in values.iter().rev() {
        let after = &all[all.len() - 1];
        all.push(least_before(tables, value, after));
    }
    all.reverse();
    all
}

/// The least bits with one more value in front: by codes of the value itself, then by switches to
/// tables that do better, until nothing changes.
fn least_before(tables: &Tables, value: i32, after: &Least) -> Least {
    let mut least = vec![None; tables.len()];
    loop {
        let next: Least = (1..=tables.len())
            .map(|table| {
                let ways = tables[table - 1].iter().filter_map(|code| {
                    let rest = rest(code, value, table, &least, after)?;
                    Some(rest + code.code_bits())
                });
                ways.min()
            })
            .collect();
        if next == least {
            return least;
        }
        least = next;
    }
}

/// The least bits after this code of this table, where the value is still to come: `before` if the
/// code is a switch, else `after`, if the code gives the value.
fn rest(code: &Structure, value: i32, table: usize, before: &Least, after: &Least) -> Option<u32> {
    match code.meaning {
        Meaning::Switch(next) => before[next - 1],
        _ if code.gives(value) => after[table - 1],
        _ => None,
    }
}

#[cfg(test)]
mod tests {
    use super::{encode_lead, first_unreached, shortest, stream};
    use crate::make::Rng;
    use crate::refused::Refused;
    use crate::row;
    use crate::stream::Values;
    use crate::tables::{Meaning, Structure, Tables};
    use crate::vectors::{examples, section_2, tables_named};

    #[test]
    fn streams_of_the_writer() {
        for example in examples().iter().filter(|example| example.kind != "read") {
            let put = shortest(&example.tables, &example.values);
            let bits = put.as_ref().map_or(0, |put| put.bits());
            assert_eq!(put.is_some(), example.kind == "shortest");
            assert_eq!(bits, example.bits);
            assert_eq!(put.map_or(Vec::new(), |put| put.bytes()), example.bytes);
        }
    }

    #[test]
    fn p6_p7_shortest() {
        let tables = tables_named("example");
        let bits = |values: &[i32]| shortest(&tables, values).map(|put| put.bits());
        let values = [
            1, 2, -1, 0, 3, 0, 4, 1, 0, -2, 0, 15, -1, 0, 13, 0, 1, -2, -1, 1,
        ];
        assert_eq!(bits(&values), Some(87));
        assert_eq!(bits(&[15]), Some(12));
        assert_eq!(bits(&[15, 15]), Some(22));
    }

    #[test]
    fn p9_has_no_stream() {
        let samples = [-32768, 32767, -32768];
        for section2 in [section_2("default"), vec![0x1F, 0x4E], Vec::new()] {
            let refused = encode_lead(&section2, &samples, 2, 3, 100);
            let work_cleared = !section2.is_empty();
            assert_eq!(
                refused,
                Err(Refused {
                    number: row::NO_STREAM,
                    work_cleared
                })
            );
        }
    }

    #[test]
    fn p1_in_two_bytes_each() {
        let samples = [10, 12, 13, 15, 18, 22, 20, 15];
        let coded = encode_lead(&[], &samples, 1, 0, 16).expect("it is encoded");
        let bytes = [10, 0, 2, 0, 1, 0, 2, 0, 3, 0, 4, 0, 254, 255, 251, 255];
        assert_eq!(
            (coded.bytes, coded.bits, coded.work_cleared),
            (bytes.to_vec(), 128, false)
        );
    }

    #[track_caller]
    fn refuses(number: u8, work_cleared: bool, call: (&[u8], usize, u8, usize, usize)) {
        let (section2, count, order, work_len, out_len) = call;
        let result = encode_lead(section2, &vec![1; count], order, work_len, out_len);
        assert_eq!(
            result,
            Err(Refused {
                number,
                work_cleared
            })
        );
    }

    #[test]
    fn refusals_in_their_order() {
        let default = [0x1F, 0x4E];
        let example = section_2("example");
        refuses(row::WRITER_BOUNDS, false, (&[], 0, 0, 0, 0));
        refuses(row::WRITER_BOUNDS, false, (&[1], 65_537, 0, 0, 0));
        refuses(row::WRITER_BOUNDS, false, (&[1], 1, 3, 0, 0));
        refuses(row::SECTION_2, false, (&[1], 1, 2, 0, 0));
        refuses(row::SECTION_2, false, (&[0x1F, 0x4E, 0], 1, 2, 0, 0));
        refuses(row::ROOM, false, (&default, 5, 0, 4, 100));
        refuses(row::ROOM, false, (&example, 5, 0, 9, 100));
        refuses(row::ROOM, true, (&example, 5, 0, 10, 1));
        refuses(row::TOO_LONG, false, (&[], 32_768, 0, 0, 0));
        refuses(row::ROOM, false, (&[], 32_767, 0, 0, 65_533));
    }

    #[test]
    fn length_bound() {
        let wide = |count: usize| encode_lead(&[0x1F, 0x4E], &vec![200; count], 0, count, 70_000);
        assert_eq!(wide(20_164).map(|coded| coded.bytes.len()), Ok(65_533));
        assert_eq!(
            wide(20_165).map_err(|refused| refused.number),
            Err(row::TOO_LONG)
        );
    }

    /// Up to three tables of few and short codes; at times some bits match nothing.
    fn small_tables(rng: &mut Rng) -> Tables {
        let number = rng.within(1..=3);
        let sets: [&[&str]; 5] = [
            &["0", "10", "11"],
            &["1", "01", "000", "001"],
            &["00", "01", "10", "11"],
            &["0", "100", "101", "110"],
            &["11", "10", "0100", "0101", "00"],
        ];
        let mut table = || {
            let prefixes = rng.pick(&sets);
            let used = rng.within(1..=prefixes.len());
            prefixes[..used]
                .iter()
                .map(|prefix| small_code(rng, prefix, number))
                .collect()
        };
        (0..number).map(|_| table()).collect()
    }

    fn small_code(rng: &mut Rng, prefix: &str, tables: usize) -> Structure {
        let bits = u32::from_str_radix(prefix, 2).expect("bits");
        Structure {
            prefix_bits: prefix.len() as u32,
            prefix: bits << (32 - prefix.len()),
            meaning: match rng.below(5) {
                0 | 1 => Meaning::Switch(rng.within(1..=tables)),
                2 => Meaning::Remainder(rng.within(1..=3) as u32),
                _ => Meaning::Value(rng.below(4) as i16 - 1),
            },
        }
    }

    /// The first stream of at most `most` bits, shorter ones first and then smaller ones, that
    /// reads to the values and has nothing left over.
    fn found(tables: &Tables, values: &[i32], most: usize) -> Option<(usize, Vec<u8>)> {
        for bits in 0..=most {
            for number in 0..1u32 << bits {
                let bytes = (u64::from(number) << (32 - bits)).to_be_bytes()[4..].to_vec();
                let mut read = Values::new(&bytes, Some(tables));
                let same = values.iter().all(|&value| read.next() == Ok(value));
                if same && read.bits_left() == 32 - bits {
                    return Some((bits, bytes[..bits.div_ceil(8)].to_vec()));
                }
            }
        }
        None
    }

    #[test]
    fn shortest_of_all_streams() {
        const MOST: usize = 13;
        let (mut there, mut none) = (0, 0);
        for seed in 0..1_500 {
            let rng = &mut Rng::new(seed);
            let tables = small_tables(rng);
            let values: Vec<i32> = (0..rng.within(1..=4))
                .map(|_| rng.below(4) as i32 - 1)
                .collect();
            let put = shortest(&tables, &values);
            assert_eq!(
                first_unreached(Some(&tables), &values).is_none(),
                put.is_some()
            );
            match found(&tables, &values, MOST) {
                Some((bits, bytes)) => {
                    let put = put.expect("a stream was found");
                    assert_eq!((put.bits(), put.bytes()), (bits, bytes), "seed {seed}");
                    there += 1;
                }
                None => {
                    assert!(put.is_none_or(|put| put.bits() > MOST), "seed {seed}");
                    none += 1;
                }
            }
        }
        assert!(there > 300 && none > 300, "{there} and {none}");
    }

    #[test]
    fn samples_come_back() {
        for seed in 0..300 {
            let rng = &mut Rng::new(seed);
            let order = rng.below(3) as u8;
            let samples: Vec<i16> = (0..rng.within(1..=50))
                .map(|_| rng.two() as i16 >> 3)
                .collect();
            for tables in [None, Some(tables_named("default"))] {
                let put = stream(tables.as_ref(), &samples, order).expect("16-bit remainders do");
                let bytes = put.bytes();
                let read =
                    crate::reading::read_stream(&bytes, tables.as_ref(), order, samples.len());
                assert_eq!(read.expect("it reads").samples, samples);
            }
        }
    }
}
