//! Section 2: code tables and the default table: row 7 (01, Code tables).

use crate::bounds;
use crate::finding::{self, CodeFault, Fault, Finding, Findings, Needs, Part, Spot, What};
use crate::numbers::Bytes;
use crate::record::data_of;
use crate::row;

/// The number of tables that means the default table alone.
pub const DEFAULT: u16 = 19_999;
/// Section 2 may end in this many spare bytes.
pub const SPARE: usize = 1;
/// Bytes of a structure.
const STRUCTURE: usize = 9;
/// The most bits of a prefix and of a remainder.
const PREFIX_MAX: i64 = 32;
const REMAINDER_MAX: i64 = 16;

/// The meaning of a matched prefix, and what follows it.
#[derive(Clone, Copy, Debug, PartialEq, Eq)]
pub enum Meaning {
    /// The code is this value.
    Value(i16),
    /// This many bits follow, 1 to 16, and are the value in two's complement.
    Remainder(u32),
    /// Codes go on in this table, counted from 1.
    Switch(usize),
}

/// A code structure.
#[derive(Clone, Copy, Debug, PartialEq, Eq)]
pub struct Structure {
    /// 1 to 32.
    pub prefix_bits: u32,
    /// The prefix with its first bit on top and zeros below it.
    pub prefix: u32,
    pub meaning: Meaning,
}

/// The tables of a Section 2, table 1 first.
pub type Tables = Vec<Vec<Structure>>;

/// A code structure as stored.
#[derive(Clone, Copy, Debug)]
struct Raw {
    prefix_bits: u8,
    code_bits: u8,
    mode: u8,
    base_value: i16,
    base_code: u32,
}

/// Row 7: Section 2, where it is present, with at most one spare byte.
pub fn section_2(record: &[u8]) -> Vec<Finding> {
    let judged = data_of(record, 2).map(|data| tables(data, SPARE));
    judged.and_then(Result::err).unwrap_or_default()
}

/// The tables that these data give, if they keep the rules and have at most this many spare bytes.
pub fn tables(mut data: Bytes, most_spare: usize) -> Result<Tables, Vec<Finding>> {
    let mut found = Findings::new(row::SECTION_2, Some(2));
    let tables = all(&mut data, &mut found);
    if tables.is_some() {
        let (after, most) = (data.left(), most_spare);
        let mut spot = found.at(Part::Whole, data.offset());
        spot.hold(after <= most, Fault::After { found: after, most });
    }
    found.or(tables)
}

/// All tables; `None` where the data end before them, or cannot be read on.
fn all(data: &mut Bytes, found: &mut Findings) -> Option<Tables> {
    let left = data.left();
    let mut spot = found.at(Part::Whole, data.offset());
    let Some(number) = data.two() else {
        spot.short(Needs::Head, 2, left);
        return None;
    };
    if number == DEFAULT {
        return Some(vec![default_table()]);
    }
    if !spot.number(What::Tables, number, finding::bounds(&bounds::TABLES)) {
        return None;
    }
    let number = usize::from(number);
    let tables = (1..=number).map(|own| table(data, own, number, found));
    tables.collect()
}

/// A table out of `tables`; `None` where the data end in it, or cannot be read on.
fn table(
    data: &mut Bytes,
    own: usize,
    tables: usize,
    found: &mut Findings,
) -> Option<Vec<Structure>> {
    let left = data.left();
    let mut spot = found.at(Part::Table(own), data.offset());
    let Some(number) = data.two() else {
        spot.short(Needs::Table, 2, left);
        return None;
    };
    if !spot.number(
        What::Structures,
        number,
        finding::bounds(&bounds::STRUCTURES),
    ) {
        return None;
    }
    let (number, left) = (usize::from(number), data.left());
    let Some(mut rows) = data.part(STRUCTURE * number) else {
        spot.short(Needs::Structures(number), STRUCTURE * number, left);
        return None;
    };
    let mut met: Vec<Raw> = Vec::new();
    let mut table = Vec::new();
    for place in 1..=number {
        let mut spot = found.at(Part::Structure { table: own, place }, rows.offset());
        let raw = raw(&mut rows)?;
        table.extend(structure(&raw, tables, &mut spot));
        prefixes(&raw, &met, &mut spot);
        met.push(raw);
    }
    Some(table)
}

/// The next 9 bytes.
fn raw(data: &mut Bytes) -> Option<Raw> {
    Some(Raw {
        prefix_bits: data.byte()?,
        code_bits: data.byte()?,
        mode: data.byte()?,
        base_value: data.two_signed()?,
        base_code: data.four()?,
    })
}

/// A structure by itself.
fn structure(raw: &Raw, tables: usize, spot: &mut Spot) -> Option<Structure> {
    let (prefix_bits, code_bits, code) = (raw.prefix_bits, raw.code_bits, raw.base_code);
    if spot.number(What::PrefixBits, prefix_bits, 1..=PREFIX_MAX) {
        let fits = u64::from(code) >> prefix_bits == 0;
        spot.hold(fits, CodeFault::BaseCode { code, prefix_bits });
    }
    let remainder = code_bits.checked_sub(prefix_bits);
    match remainder {
        Some(bits) => {
            spot.number(What::RemainderBits, bits, 0..=REMAINDER_MAX);
        }
        None => spot.push(CodeFault::ShortCode {
            code_bits,
            prefix_bits,
        }),
    }
    if spot.number(What::Mode, raw.mode, 0..=1) && raw.mode == 0 {
        switch(raw, remainder, tables, spot);
    }
    Some(Structure {
        prefix_bits: prefix_bits.into(),
        prefix: code.reverse_bits(),
        meaning: match (raw.mode, remainder?) {
            (0, _) => Meaning::Switch(usize::try_from(raw.base_value).ok()?),
            (_, 0) => Meaning::Value(raw.base_value),
            (_, bits) => Meaning::Remainder(bits.into()),
        },
    })
}

/// A switch has no remainder and leads to a table that exists.
fn switch(raw: &Raw, remainder: Option<u8>, tables: usize, spot: &mut Spot) {
    if let Some(bits @ 1..) = remainder {
        spot.push(CodeFault::SwitchRemainder(bits));
    }
    let table = raw.base_value;
    let exists = usize::try_from(table).is_ok_and(|table| (1..=tables).contains(&table));
    spot.hold(exists, CodeFault::SwitchTo { table, tables });
}

/// No prefix begins another of its table or equals it.
fn prefixes(raw: &Raw, before: &[Raw], spot: &mut Spot) {
    for (at, other) in before.iter().enumerate() {
        if raw.agrees(other) {
            spot.push(CodeFault::Prefixes {
                own: raw.prefix(),
                place: at + 1,
                other: other.prefix(),
            });
        }
    }
}

impl Raw {
    /// Whether two prefixes are the same within the shorter of the two; not if one has no bits.
    fn agrees(&self, other: &Raw) -> bool {
        let shorter = self.prefix_bits.min(other.prefix_bits);
        let mask = (1u64 << shorter.min(32)) - 1;
        shorter > 0 && u64::from(self.base_code ^ other.base_code) & mask == 0
    }

    /// The prefix in the order of the stream.
    fn prefix(&self) -> String {
        let bit = |place| match self.base_code >> place & 1 {
            1 => '1',
            _ => '0',
        };
        (0..self.prefix_bits.min(32)).map(bit).collect()
    }
}

impl Structure {
    /// Whether the prefix and these bits differ within the shorter of the two.
    fn differs_within(&self, bits: u32, count: u32) -> bool {
        let shorter = self.prefix_bits.min(count);
        u64::from(self.prefix ^ bits) >> (32 - shorter) != 0
    }

    /// Whether a stream that goes on with these bits, `left` of them, starts with the prefix.
    pub fn matches(&self, next: u32, left: usize) -> bool {
        left >= self.prefix_bits as usize && !self.differs_within(next, self.prefix_bits)
    }

    /// Whether a stream that ends after `left` more bits could have gone on with the prefix.
    pub fn goes_on(&self, next: u32, left: usize) -> bool {
        left < self.prefix_bits as usize && (left == 0 || !self.differs_within(next, left as u32))
    }

    /// The bits of the whole code.
    pub fn code_bits(&self) -> u32 {
        match self.meaning {
            Meaning::Remainder(bits) => self.prefix_bits + bits,
            _ => self.prefix_bits,
        }
    }

    /// Whether the code can give this value.
    pub fn gives(&self, value: i32) -> bool {
        match self.meaning {
            Meaning::Value(own) => i32::from(own) == value,
            Meaning::Remainder(bits) => {
                let half = 1i32 << (bits - 1);
                (-half..half).contains(&value)
            }
            Meaning::Switch(_) => false,
        }
    }
}

/// The default table: 0, then 1, -1 up to 8, -8, then remainders of 8 and of 16 bits.
pub fn default_table() -> Vec<Structure> {
    let mut table = vec![spelled("0", Meaning::Value(0))];
    for k in 1..=8i16 {
        let ones = "1".repeat(k as usize);
        table.push(spelled(&format!("{ones}00"), Meaning::Value(k)));
        table.push(spelled(&format!("{ones}01"), Meaning::Value(-k)));
    }
    table.push(spelled("1111111110", Meaning::Remainder(8)));
    table.push(spelled("1111111111", Meaning::Remainder(16)));
    table
}

/// A structure with its prefix as it is in a stream.
fn spelled(prefix: &str, meaning: Meaning) -> Structure {
    let bits = prefix.bytes().zip((0..32).rev());
    Structure {
        prefix_bits: prefix.len() as u32,
        prefix: bits.fold(0, |sum, (bit, place)| {
            sum | (u32::from(bit == b'1') << place)
        }),
        meaning,
    }
}

#[cfg(test)]
mod tests {
    use super::{default_table, tables, Meaning, Structure, Tables};
    use crate::numbers::Bytes;
    use crate::vectors::{section_2, tables_named};

    fn tables_of(data: &[u8], most_spare: usize) -> Option<Tables> {
        tables(Bytes::new(data), most_spare).ok()
    }

    #[test]
    fn default_table_is_the_one_written_out() {
        let table = default_table();
        assert_eq!(table.len(), 19);
        let tables = vec![table];
        assert_eq!(tables_named("default"), tables);
        assert_eq!(tables_of(&[0x1F, 0x4E], 0), Some(tables));
    }

    #[test]
    fn default_table_matches_every_ten_bits() {
        let filled: u32 = default_table()
            .iter()
            .map(|code| 1024 >> code.prefix_bits)
            .sum();
        assert_eq!(filled, 1024);
    }

    #[test]
    fn p4_stored_code_11_of_4_bits() {
        let code = tables_named("example")[0][4];
        let expected = Structure {
            prefix_bits: 4,
            prefix: 0b1101 << 28,
            meaning: Meaning::Value(-2),
        };
        assert_eq!(code, expected);
    }

    /// One table of these structures, each of its 9 bytes.
    fn one_table(structures: &[[u8; 9]]) -> Vec<u8> {
        let count = structures.len() as u8;
        [vec![1, 0, count, 0], structures.concat()].concat()
    }

    #[test]
    fn structures_at_the_edges() {
        let hold = |structure: [u8; 9]| tables_of(&one_table(&[structure]), 0).is_some();
        assert!(hold([32, 48, 1, 0, 0, 255, 255, 255, 255]));
        assert!(hold([1, 17, 1, 9, 9, 1, 0, 0, 0]));
        assert!(
            hold([1, 1, 0, 1, 0, 0, 0, 0, 0]),
            "a switch to its own table"
        );
        assert!(!hold([0, 16, 1, 0, 0, 0, 0, 0, 0]), "no prefix");
        assert!(!hold([33, 33, 1, 0, 0, 0, 0, 0, 0]), "long prefix");
        assert!(
            !hold([2, 1, 1, 0, 0, 0, 0, 0, 0]),
            "code shorter than its prefix"
        );
        assert!(!hold([1, 18, 1, 0, 0, 0, 0, 0, 0]), "long remainder");
        assert!(!hold([1, 1, 2, 0, 0, 0, 0, 0, 0]), "mode");
        assert!(
            !hold([1, 2, 0, 1, 0, 0, 0, 0, 0]),
            "switch with a remainder"
        );
        assert!(!hold([1, 1, 0, 0, 0, 0, 0, 0, 0]), "switch to table 0");
        assert!(!hold([1, 1, 0, 2, 0, 0, 0, 0, 0]), "switch to no table");
        assert!(
            !hold([1, 1, 0, 255, 255, 0, 0, 0, 0]),
            "switch to a negative table"
        );
        assert!(!hold([1, 1, 1, 0, 0, 2, 0, 0, 0]), "bit above the prefix");
        assert!(
            !hold([31, 31, 1, 0, 0, 0, 0, 0, 128]),
            "bit above a long prefix"
        );
    }

    #[test]
    fn no_prefix_begins_another() {
        let hold = |one: [u8; 9], other: [u8; 9]| {
            let there = tables_of(&one_table(&[one, other]), 0).is_some();
            assert_eq!(there, tables_of(&one_table(&[other, one]), 0).is_some());
            there
        };
        let one = [2, 2, 1, 0, 0, 1, 0, 0, 0];
        assert!(hold(one, [2, 2, 1, 0, 0, 2, 0, 0, 0]));
        assert!(hold(one, [1, 1, 1, 0, 0, 0, 0, 0, 0]));
        assert!(!hold(one, one));
        assert!(!hold(one, [3, 3, 1, 0, 0, 5, 0, 0, 0]));
        assert!(!hold(one, [1, 1, 1, 0, 0, 1, 0, 0, 0]));
        assert!(!hold(one, [32, 32, 1, 0, 0, 1, 0, 0, 0]));
    }

    #[test]
    fn frames() {
        let example = section_2("example");
        let hold = |data: &[u8], spare| tables_of(data, spare).is_some();
        assert!(hold(&[example.clone(), vec![7]].concat(), 1));
        assert!(!hold(&[example.clone(), vec![7]].concat(), 0));
        assert!(!hold(&[example.clone(), vec![7, 7]].concat(), 1));
        assert!(!hold(&example[..113], 1));
        assert!(!hold(&[0x1F, 0x4E, 0, 0], 1));
        assert!(!hold(&[], 1));
        assert!(!hold(&[0, 0], 1), "no table");
        assert!(!hold(&[1, 0, 0, 0], 1), "no structure");
        assert!(!hold(&[9, 0], 1), "too many tables");
    }
}
