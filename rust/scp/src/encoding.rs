//! Encoding a lead: the shortest stream that is read to its samples.

use crate::leads::SAMPLES_MAX;
use crate::raw;
use crate::Refusal;

/// The most tables that Section 2 has: this many bytes of work space for each sample are always enough.
pub const TABLES_MAX: usize = 8;

/// The most bytes that a lead's stream has: so much room for one is always enough.
pub const STREAM_MAX: usize = 65_535;

/// How long a stream is.
#[derive(Clone, Copy, Debug, PartialEq, Eq)]
pub struct Coded {
    /// How many bytes it has.
    pub bytes: usize,
    /// How many bits its codes take; the others of its last byte are 0.
    pub bits: usize,
}

/// Codes 1 to 65,536 samples by differences of order 0, 1 or 2: of all streams that are read to them, starting in table 1,
/// the one of the fewest bits, and of those equally short the one that is smaller at the first differing bit. `section2` is
/// Section 2's data with no spare byte; empty data mean none, and two bytes for each value.
///
/// The stream is at the start of `out`, and no other bytes of it are changed. Work space is needed where there is a
/// Section 2, a byte for each sample times each table; all that was lent is zeros once the search has begun, and untouched
/// otherwise.
///
/// Refused with the first that applies of 17, 7, 11 for work space, 15, 16 and 11 for output; `out` is then as it was.
pub fn encode_lead(
    section2: &[u8],
    samples: &[i16],
    order: u8,
    work: &mut [u8],
    out: &mut [u8],
) -> Result<Coded, Refusal> {
    let coded = raw::encode_lead(section2, samples, order, work, out);
    let answer = Coded {
        bytes: coded.bytes as usize,
        bits: coded.bits as usize,
    };
    Refusal::or(coded.refusal, answer)
}

/// Codes samples into room that is made for them: the stream, and how many bits its codes take. Refused as [`encode_lead`]
/// is, but for 11.
pub fn shortest(section2: &[u8], samples: &[i16], order: u8) -> Result<(Vec<u8>, usize), Refusal> {
    let tables = if section2.is_empty() { 0 } else { TABLES_MAX };
    let mut work = vec![0; samples.len().min(SAMPLES_MAX) * tables];
    let mut stream = vec![0; STREAM_MAX];
    let coded = encode_lead(section2, samples, order, &mut work, &mut stream)?;
    stream.truncate(coded.bytes);
    Ok((stream, coded.bits))
}
