//! Streams of random codes, at times put in the shortest form or padded, with the samples they
//! decode to.

use super::rng::Rng;
use super::tables::alive;
use crate::bounds;
use crate::differences::foreseen;
use crate::encoding;
use crate::stream::{Put, Values};
use crate::tables::{Meaning, Structure, Tables};

/// How a stream is drawn.
pub struct Draw<'a> {
    pub tables: Option<&'a Tables>,
    pub order: u8,
    /// The samples wanted; fewer are made where no code goes on.
    pub count: usize,
    /// Whether short codes and small values are favoured, as a long lead needs.
    pub calm: bool,
}

/// A drawn lead.
pub struct Drawn {
    pub samples: Vec<i16>,
    pub stream: Vec<u8>,
}

/// Draws a stream; `added` is what the lead gets from the beat, sample by sample, and the sums keep
/// to 16 bits too.
pub fn draw(rng: &mut Rng, how: &Draw, added: &[i16]) -> Drawn {
    let mut drawn = match how.tables {
        Some(tables) => draw_codes(rng, how, tables, added),
        None => draw_two_bytes(rng, how, added),
    };
    if rng.one_in(4) {
        if let Some(shortest) = encoding::stream(how.tables, &drawn.samples, how.order) {
            drawn.stream = shortest.bytes();
        }
    }
    pad(rng, &mut drawn.stream);
    drawn
}

/// At times one more byte, of any value, which is ignored (01, row 14; Q-1): often to an even number
/// of bytes, as some carts pad; now and then to an odd one, as a stream without tables gets it.
fn pad(rng: &mut Rng, stream: &mut Vec<u8>) {
    let is_padded = match stream.len() % 2 {
        1 => rng.coin(),
        _ => rng.one_in(4),
    };
    if is_padded && stream.len() < bounds::STREAM {
        stream.push(rng.byte());
    }
}

/// The numbers to which the next value is added.
struct Next {
    before: i32,
    added: i32,
}

impl Next {
    fn new(how: &Draw, samples: &[i16], added: &[i16]) -> Self {
        Next {
            before: foreseen(how.order, samples),
            added: added.get(samples.len()).copied().unwrap_or(0).into(),
        }
    }

    fn sample(&self, value: i32) -> Option<i16> {
        let sample = i16::try_from(self.before + value).ok()?;
        i16::try_from(i32::from(sample) + self.added).ok()?;
        Some(sample)
    }

    /// A value of `bits` bits: any, the least or the most, one that brings the sum to a limit of 16
    /// bits, or a small one.
    fn draw(&self, rng: &mut Rng, bits: u32, calm: bool) -> i32 {
        let sum = self.before + self.added;
        let value = match rng.below(16) {
            _ if calm => rng.below(7) as i32 - 3,
            0 => i32::MIN,
            1 => i32::MAX,
            2 => i32::from(i16::MAX) - sum,
            3 => i32::from(i16::MIN) - sum,
            4 | 5 => rng.four() as i32 >> (32 - bits),
            _ => rng.small(300) as i32 - rng.small(300) as i32,
        };
        clamped(value, bits)
    }

    /// The value of `bits` bits that brings the sample nearest to 0.
    fn toward_0(&self, bits: u32) -> i32 {
        clamped(-self.before, bits)
    }
}

/// The nearest value of `bits` bits.
fn clamped(value: i32, bits: u32) -> i32 {
    let half = 1i32 << (bits - 1);
    value.clamp(-half, half - 1)
}

fn draw_two_bytes(rng: &mut Rng, how: &Draw, added: &[i16]) -> Drawn {
    let (mut samples, mut stream) = (Vec::new(), Vec::new());
    while samples.len() < how.count.min(bounds::STREAM / 2) {
        let next = Next::new(how, &samples, added);
        let values = [
            next.draw(rng, 16, how.calm),
            next.draw(rng, 4, true),
            next.toward_0(16),
        ];
        let fitting = |value: i32| Some((value as i16, next.sample(value)?));
        let Some((value, sample)) = values.into_iter().find_map(fitting) else {
            break;
        };
        samples.push(sample);
        stream.extend(value.to_le_bytes());
    }
    Drawn { samples, stream }
}

fn draw_codes(rng: &mut Rng, how: &Draw, tables: &Tables, added: &[i16]) -> Drawn {
    let coder = Coder {
        tables,
        alive: alive(tables),
        calm: how.calm,
    };
    let mut samples = Vec::new();
    let mut put = Put::default();
    let mut table = 1;
    while samples.len() < how.count {
        let next = Next::new(how, &samples, added);
        let Some(codes) = coder.draw(rng, table, &next) else {
            break;
        };
        if put.bits() + codes.bits() > bounds::STREAM * 8 {
            break;
        }
        for code in &codes.codes {
            put.code(code, codes.value);
        }
        table = codes.table;
        samples.push(codes.sample);
    }
    let bits = put.bits();
    let mut stream = put.bytes();
    if rng.coin() {
        fill_up(rng, &mut stream, bits);
    }
    Drawn { samples, stream }
}

/// The codes of one value, switches first, and the table they end in.
struct Codes {
    codes: Vec<Structure>,
    value: i32,
    sample: i16,
    table: usize,
}

impl Codes {
    fn bits(&self) -> usize {
        self.codes
            .iter()
            .map(|code| code.code_bits() as usize)
            .sum()
    }
}

struct Coder<'a> {
    tables: &'a Tables,
    /// Whether codes lead from a table to a value.
    alive: Vec<bool>,
    calm: bool,
}

impl Coder<'_> {
    /// Codes at random until one gives a value that fits; none if too many did not.
    fn draw(&self, rng: &mut Rng, mut table: usize, next: &Next) -> Option<Codes> {
        let mut codes = Vec::new();
        for attempt in 0..60 {
            let hard = attempt > 20;
            let code = self.code(rng, table);
            let value = match code.meaning {
                Meaning::Value(value) => value.into(),
                Meaning::Remainder(bits) if hard => next.toward_0(bits),
                Meaning::Remainder(bits) => next.draw(rng, bits, self.calm),
                Meaning::Switch(to) => {
                    if self.alive[to - 1] && (hard || rng.coin()) {
                        codes.push(code);
                        table = to;
                    }
                    continue;
                }
            };
            if let Some(sample) = next.sample(value) {
                codes.push(code);
                return Some(Codes {
                    codes,
                    value,
                    sample,
                    table,
                });
            }
        }
        None
    }

    /// Any code of the table, or the shortest of some.
    fn code(&self, rng: &mut Rng, table: usize) -> Structure {
        let codes = &self.tables[table - 1];
        let tries = if self.calm { 4 } else { 1 };
        let mut code = rng.pick(codes);
        for _ in 1..tries {
            let other = rng.pick(codes);
            if other.code_bits() < code.code_bits() {
                code = other;
            }
        }
        code
    }
}

/// Sets the unused bits of the last byte to anything.
fn fill_up(rng: &mut Rng, stream: &mut [u8], bits: usize) {
    let unused = stream.len() * 8 - bits;
    if let Some(last) = stream.last_mut() {
        *last |= rng.byte() & ((1u32 << unused) - 1) as u8;
    }
}

/// The bits that are left of a stream after so many values; `None` if it has fewer values.
pub fn left_over(stream: &[u8], tables: Option<&Tables>, count: usize) -> Option<usize> {
    let mut values = Values::new(stream, tables);
    let is_read = (0..count).all(|_| values.next().is_ok());
    is_read.then(|| values.bits_left())
}

#[cfg(test)]
mod tests {
    use super::{draw, left_over, Draw};
    use crate::make::rng::Rng;
    use crate::reading::MOST_LEFT_OVER;
    use crate::tables::Tables;
    use crate::vectors::tables_named;

    /// How often so many bits are left over of a drawn stream.
    fn drawn_left_over(tables: Option<&Tables>) -> Vec<usize> {
        let mut counts = vec![0; MOST_LEFT_OVER + 1];
        for seed in 0..2_000 {
            let rng = &mut Rng::new(seed);
            let how = Draw {
                tables,
                order: rng.below(3) as u8,
                count: 1 + rng.small(50),
                calm: rng.coin(),
            };
            let drawn = draw(rng, &how, &[]);
            let left = left_over(&drawn.stream, tables, drawn.samples.len());
            counts[left.expect("it has its samples")] += 1;
        }
        counts
    }

    #[test]
    fn padded_streams_are_drawn_often() {
        for tables in ["default", "example"].map(tables_named) {
            let counts = drawn_left_over(Some(&tables));
            assert!(counts.iter().all(|&count| count > 20), "{counts:?}");
        }
        let counts = drawn_left_over(None);
        assert!(counts[0] > 200 && counts[8] > 200, "{counts:?}");
    }
}
