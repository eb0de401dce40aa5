//! Holds the proved library against the judge, an independent implementation of the same rules.
//!
//! Inputs are made by the judge's generator from a seed ([`inputs`]), or laid out by hand at the edges of the rules
//! ([`edges`]) and at their ends ([`extremes`]); every call is made by both on each of them, in memory with guards around
//! it ([`calls`], [`encoding`], [`writing`], [`index`]); and every answer is counted ([`tally`], [`writing::counts`]). On tiny
//! leads the encoder is held against all streams that there are ([`encoding::brute`]); what is written is read back; an index
//! to which records were added one by one is held against the one that is built afresh from them, and against the one that is
//! merged from indexes of runs of them.

mod answers;
mod beaten;
pub mod calls;
mod draft;
pub mod edges;
pub mod encoding;
pub mod extremes;
mod guarded;
pub mod index;
pub mod inputs;
pub mod largest;
mod leads;
mod lent;
pub mod rhythm;
pub mod samples;
pub mod tally;
pub mod writing;

use judge::make::{self, Rng};

use inputs::Kind;
use tally::Tally;

/// One input in this many comes with a lead to encode.
const LEADS: u64 = 4;
/// One input in this many comes with records to build an index from, and with indexes to merge.
const INDEXES: u64 = 8;

/// Compares on `count` inputs that the seed fixes, on leads to encode, on records to build indexes from and on indexes to
/// merge. The counts, or what differs first and on which input.
pub fn run(seed: u64, count: u64) -> Result<Tally, String> {
    let mut tally = Tally::default();
    for number in 0..count {
        let mut rng = Rng::new(seed.wrapping_add(number.wrapping_mul(0x1_0000_0001)));
        let kind = Kind::of(number);
        let input = inputs::make(kind, &mut rng);
        tally.input(kind);
        calls::compare(&input, &mut rng, &mut tally)
            .map_err(|difference| format!("seed {seed}, input {number} ({kind}): {difference}"))?;
        if number % LEADS == 0 {
            let lead = make::to_encode(&mut rng);
            encoding::compare(&lead, &mut rng, &mut tally).map_err(|difference| {
                format!("seed {seed}, lead to encode with input {number}: {difference}")
            })?;
        }
        if number % INDEXES == 0 {
            let records = make::to_index(&mut rng);
            index::build(&records, &mut rng, &mut tally).map_err(|difference| {
                format!("seed {seed}, index to build with input {number}: {difference}")
            })?;
            index::merging::compare(&mut rng, &mut tally).map_err(|difference| {
                format!("seed {seed}, indexes to merge with input {number}: {difference}")
            })?;
        }
    }
    Ok(tally)
}
