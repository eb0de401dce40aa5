//! The shortest stream by brute force: for tables of few short codes and for few values, all streams are looked at.
//!
//! It is done twice, and neither looks for a cheapest way as the library and the judge do. [`Search`] goes through all bit
//! streams bit by bit, all of one length before any longer one, and keeps of equally long ones that leave a reader in the
//! same state the smallest; it knows of each such set of tables whether there is a stream at all. [`first_of_all`] counts
//! through the streams of up to some bits, as numbers, and has the judge read each of them from its start.

mod counts;
mod search;
mod small;

use judge::make::Rng;
use judge::{row, Coded, Reader, Refused};

use super::Job;
use crate::answers::Difference;
use crate::rhythm::{self, Code};
pub use counts::Counts;
use search::{Found, Search};
use small::{samples_of, small_tables, small_values};

/// Leads to encode by each set of tables.
const LEADS: usize = 2;
/// All streams of up to this many bits are tried, one after another.
const COUNTED: usize = 10;
/// Once in [`FAR`] sets, all of up to this many.
const COUNTED_FAR: usize = 15;
const FAR: u64 = 64;

/// Has the library encode leads by this many sets of tables that the seed fixes, and compares each answer with all streams.
pub fn run(seed: u64, sets: u64) -> Result<Counts, Difference> {
    let mut counts = Counts::default();
    for number in 0..sets {
        let rng = &mut Rng::new(seed.wrapping_add(number.wrapping_mul(0x1_0000_0001)));
        let tables = small_tables(rng);
        let data = rhythm::tables(&tables);
        let most = if number % FAR == 0 {
            COUNTED_FAR
        } else {
            COUNTED
        };
        counts.set(&tables);
        let mut tied = false;
        for _ in 0..LEADS {
            let values = small_values(&tables, rng);
            let found =
                check(&tables, &data, &values, most, rng, &mut counts).map_err(|words| {
                    format!("seed {seed}, set {number}, values {values:?}: {words}; {tables:?}")
                })?;
            tied |= found.is_some_and(|found| found.ways > 1);
        }
        counts.tied_sets += u64::from(tied);
    }
    Ok(counts)
}

/// Encodes values by the library and holds the stream to all streams.
fn check(
    tables: &[Vec<Code>],
    data: &[u8],
    values: &[i32],
    most: usize,
    rng: &mut Rng,
    counts: &mut Counts,
) -> Result<Option<Found>, Difference> {
    let found = Search::new(tables, values).run();
    encode(data, values, values.len() * tables.len(), &found, rng)?;
    let reader = Reader::new(data).map_err(|number| format!("the judge refuses: {number}"))?;
    let counted = first_of_all(&reader, values, most, &mut counts.read);
    let searched = found.as_ref().filter(|found| found.bits <= most);
    if counted != searched.map(|found| (found.bits, found.stream)) {
        return Err(format!("by counting {counted:?}, bit by bit {found:?}"));
    }
    counts.lead(&found, counted.is_some());
    Ok(found)
}

/// Encodes values by the library, with this work space, and holds the stream to the one that was found.
fn encode(
    data: &[u8],
    values: &[i32],
    work: usize,
    found: &Option<Found>,
    rng: &mut Rng,
) -> Result<(), Difference> {
    let order = rng.below(3) as u8;
    let samples = samples_of(values, order);
    let job = Job {
        section2: data,
        samples: &samples,
        order,
    };
    let expected = match found {
        None => Err(Refused {
            number: row::NO_STREAM,
            work_cleared: true,
        }),
        Some(found) => Ok(Coded {
            bytes: found.bytes(),
            bits: found.bits as u32,
            work_cleared: true,
        }),
    };
    let out = expected.as_ref().map_or(0, |coded| coded.bytes.len());
    job.by_library((work, out), &expected, rng)?;
    match &expected {
        Ok(coded) => job.read_back(&coded.bytes),
        Err(_) => Ok(()),
    }
}

/// The first stream of up to `most` bits that the judge reads to these values with nothing left, shorter ones first and
/// then smaller ones: its bits, and the stream as a number. Each stream is read with zeros after it, and is the one if all
/// of them are left.
fn first_of_all(
    reader: &Reader,
    values: &[i32],
    most: usize,
    read: &mut u64,
) -> Option<(usize, u128)> {
    for bits in 0..=most {
        for number in 0..1u64 << bits {
            *read += 1;
            let stream = (number << (32 - bits)) as u32;
            if reader.bits_after(&stream.to_be_bytes(), values) == Some(32 - bits) {
                return Some((bits, number.into()));
            }
        }
    }
    None
}
