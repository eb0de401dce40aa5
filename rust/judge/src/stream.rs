//! A lead's bits: taken from a stream value by value, and put into one (01, Code tables; Leads and
//! samples).

use crate::tables::{Meaning, Structure, Tables};

/// The bits of a stream that are not taken yet, the most significant bit of a byte first.
#[derive(Clone, Copy, Debug)]
pub struct Bits<'a> {
    bytes: &'a [u8],
    taken: usize,
}

impl<'a> Bits<'a> {
    pub fn new(bytes: &'a [u8]) -> Self {
        Bits { bytes, taken: 0 }
    }

    pub fn left(&self) -> usize {
        self.bits() - self.taken
    }

    /// The next 32 bits, the first on top, filled up with zeros past the end.
    fn next_32(&self) -> u32 {
        let first = self.taken / 8;
        let byte = |at: usize| u64::from(self.bytes.get(at).copied().unwrap_or(0));
        let five = (first..first + 5).fold(0, |sum, at| sum << 8 | byte(at));
        (five >> (8 - self.taken % 8)) as u32
    }

    fn skip(&mut self, count: u32) {
        self.taken += count as usize;
    }

    /// The next 1 to 16 bits as a number in two's complement.
    fn signed(&mut self, count: u32) -> Option<i32> {
        if self.left() < count as usize {
            return None;
        }
        let value = self.next_32() as i32 >> (32 - count);
        self.skip(count);
        Some(value)
    }

    /// The meaning of the next code of this table, which has this number, and how many structures
    /// were compared: the place of the one that matches, from 1 (02, Q-6).
    fn code(&mut self, table: &[Structure], number: usize) -> Result<(Meaning, usize), NoValue> {
        let (next, left) = (self.next_32(), self.left());
        let mut codes = table.iter().zip(1..);
        match codes.find(|(code, _)| code.matches(next, left)) {
            Some((code, place)) => {
                self.skip(code.prefix_bits);
                Ok((code.meaning, place))
            }
            None if table.iter().any(|code| code.goes_on(next, left)) => Err(self.ends()),
            None => Err(NoValue::NoCode {
                table: number,
                bit: self.taken + 1,
                bits: self.bits(),
            }),
        }
    }

    /// All bits, taken and left.
    pub fn bits(&self) -> usize {
        self.bytes.len() * 8
    }

    /// That the stream ends in the code that starts here.
    fn ends(&self) -> NoValue {
        NoValue::Ends {
            bit: self.taken + 1,
            bits: self.bits(),
        }
    }
}

/// Why there is no next value. Bits count from 1.
#[derive(Clone, Copy, Debug, PartialEq, Eq)]
pub enum NoValue {
    /// No code of this table starts at this bit.
    NoCode {
        table: usize,
        bit: usize,
        bits: usize,
    },
    /// The stream ends in the code that starts at this bit, or before it.
    Ends { bit: usize, bits: usize },
}

/// Reads values one after another, by tables or, without Section 2, of two signed bytes each.
#[derive(Clone, Copy, Debug)]
pub struct Values<'a> {
    bits: Bits<'a>,
    tables: Option<&'a Tables>,
    /// The current table, counted from 1.
    table: usize,
    compared: usize,
}

impl<'a> Values<'a> {
    /// From the start of a stream, in table 1.
    pub fn new(stream: &'a [u8], tables: Option<&'a Tables>) -> Self {
        Values {
            bits: Bits::new(stream),
            tables,
            table: 1,
            compared: 0,
        }
    }

    /// The next value, if the bits make a whole code.
    pub fn next(&mut self) -> Result<i32, NoValue> {
        match self.tables {
            Some(tables) => self.next_by(tables),
            None => self.next_two_bytes(),
        }
    }

    pub fn bits_left(&self) -> usize {
        self.bits.left()
    }

    /// All bits of the stream.
    pub fn bits(&self) -> usize {
        self.bits.bits()
    }

    /// The structures compared for all codes so far, switches included; 0 without Section 2 (02,
    ///
    pub fn compared(&self) -> usize {
        self.compared
    }

    /// Takes codes until one is a value; switches change the table on the way.
    fn next_by(&mut self, tables: &Tables) -> Result<i32, NoValue> {
        loop {
            let table = self.table.checked_sub(1).and_then(|at| tables.get(at));
            let ends = self.bits.ends();
            let codes = table.map_or(&[][..], Vec::as_slice);
            let (meaning, place) = self.bits.code(codes, self.table)?;
            self.compared += place;
            match meaning {
                Meaning::Value(value) => return Ok(value.into()),
                Meaning::Remainder(bits) => return self.bits.signed(bits).ok_or(ends),
                Meaning::Switch(table) => self.table = table,
            }
        }
    }

    fn next_two_bytes(&mut self) -> Result<i32, NoValue> {
        let ends = self.bits.ends();
        let pair = self.bits.signed(8).zip(self.bits.signed(8));
        let (lower, upper) = pair.ok_or(ends)?;
        Ok(upper << 8 | lower & 0xFF)
    }
}

/// A stream as it is put together.
#[derive(Clone, Debug, Default)]
pub struct Put {
    bytes: Vec<u8>,
    bits: usize,
}

impl Put {
    pub fn bits(&self) -> usize {
        self.bits
    }

    /// The stream, its last byte filled up with zeros.
    pub fn bytes(self) -> Vec<u8> {
        self.bytes
    }

    /// The code of this structure, with the value in its remainder if it has one.
    pub fn code(&mut self, structure: &Structure, value: i32) {
        self.top_bits(structure.prefix, structure.prefix_bits);
        if let Meaning::Remainder(bits) = structure.meaning {
            self.top_bits((value as u32) << (32 - bits), bits);
        }
    }

    /// The top `count` bits, 1 to 32.
    pub fn top_bits(&mut self, from: u32, count: u32) {
        for place in 0..count {
            let bit = from >> (31 - place) & 1;
            if self.bits == 8 * self.bytes.len() {
                self.bytes.push(0);
            }
            if let Some(last) = self.bytes.last_mut() {
                *last |= (bit as u8) << (7 - self.bits % 8);
            }
            self.bits += 1;
        }
    }
}

#[cfg(test)]
mod tests {
    use super::{NoValue, Put, Values};
    use crate::tables::default_table;
    use crate::vectors::{examples, hex, tables_named};

    #[test]
    fn streams_read_to_their_values() {
        for example in examples().iter().filter(|example| example.kind != "none") {
            let mut values = Values::new(&example.bytes, Some(&example.tables));
            for &value in &example.values {
                assert_eq!(values.next(), Ok(value));
            }
            assert_eq!(values.bits_left(), example.bytes.len() * 8 - example.bits);
        }
    }

    #[test]
    fn p3_first_64_bits() {
        let mut put = Put::default();
        for value in [14, 18, 0, -4, -9, -1, 5] {
            let codes = default_table();
            let code = codes.iter().find(|code| code.gives(value)).expect("a code");
            put.code(code, value);
        }
        assert_eq!(put.bits(), 71);
        let first = [0xFF, 0x83, 0xBF, 0xE1, 0x27, 0xBF, 0xF7, 0xBD];
        assert_eq!(put.bytes()[..8], first);
    }

    /// The places of P5's codes, value by value. With the eleventh value is the switch to table 2,
    /// at place 6, and with the sixteenth the one back, at place 5.
    #[test]
    fn p5_structures_compared() {
        let (tables, stream) = (
            tables_named("example"),
            hex("99 5E 06 F0 48 DE 80 FD 01 BD 36 C0"),
        );
        let read = [
            1, 2, -1, 0, 3, 0, 4, 1, 0, -2, 0, 15, -1, 0, 13, 0, 1, -2, -1, 1,
        ];
        let [there, back] = [6 + 2, 5 + 1];
        let places = [
            2, 4, 3, 1, 7, 1, 7, 2, 1, 5, there, 1, 4, 2, 1, back, 2, 5, 3, 2,
        ];
        let mut values = Values::new(&stream, Some(&tables));
        let mut sum = 0;
        for (value, place) in read.into_iter().zip(places) {
            assert_eq!(values.next(), Ok(value));
            sum += place;
            assert_eq!(values.compared(), sum);
        }
        assert_eq!((sum, values.bits() - values.bits_left()), (67, 92));
    }

    /// 0 is the first structure, k the one of place 2k and -k that of 2k + 1; remainders are last.
    #[test]
    fn structures_compared_in_the_default_table() {
        let tables = vec![default_table()];
        let near = (1..=8).flat_map(|k| [(k, 2 * k as usize), (-k, 2 * k as usize + 1)]);
        let far = [
            (0, 1),
            (9, 18),
            (-9, 18),
            (127, 18),
            (-128, 18),
            (128, 19),
            (-129, 19),
            (-32_768, 19),
        ];
        for (value, place) in near.chain(far) {
            let mut codes = tables[0].iter();
            let mut put = Put::default();
            put.code(codes.find(|code| code.gives(value)).expect("a code"), value);
            let bytes = put.bytes();
            let mut values = Values::new(&bytes, Some(&tables));
            assert_eq!((values.next(), values.compared()), (Ok(value), place));
        }
    }

    #[test]
    fn remainders_are_signed_and_nothing_is_added() {
        let tables = tables_named("example");
        let value = |bytes: &[u8]| Values::new(bytes, Some(&tables)).next().ok();
        assert_eq!(value(&[0xF0, 0xD0]), Some(13));
        assert_eq!(value(&[0xFF, 0xF0]), Some(-1));
        assert_eq!(value(&[0xF8, 0x00]), Some(-128));
    }

    #[test]
    fn codes_that_match_nothing_or_run_out() {
        let tables = tables_named("example");
        let value = |bytes: &[u8]| Values::new(bytes, Some(&tables)).next().ok();
        assert_eq!(value(&[]), None);
        assert_eq!(value(&[0xFF]), None, "cut in the remainder");
        assert_eq!(value(&[0xEF, 0xDF]), None, "switches to the end");
        let one = vec![vec![tables[0][4]]];
        assert_eq!(Values::new(&[0x80], Some(&one)).next().ok(), None);
    }

    #[test]
    fn two_signed_bytes_without_section_2() {
        let mut values = Values::new(&[0xE8, 0x03, 0x18, 0xFC, 0x00, 0x80, 0xFF], None);
        assert_eq!(values.next(), Ok(1000));
        assert_eq!(values.next(), Ok(-1000));
        assert_eq!(values.next(), Ok(-32_768));
        assert_eq!(values.next(), Err(NoValue::Ends { bit: 49, bits: 56 }));
        assert_eq!(values.compared(), 0);
    }
}
