//! The work in plain Rust, where the judge's code is not what one would measure against.

use std::ops::Range;

/// A code of the default table: its bits, first bit highest, and how many there are.
#[derive(Clone, Copy)]
struct Code {
    bits: u64,
    count: u32,
}

/// CRC-CCITT by a table of what eight steps make of each byte.
pub struct Crc {
    steps: [u16; 256],
}

impl Crc {
    /// Makes the table.
    pub fn new() -> Crc {
        let eight_steps = |byte: u16| {
            (0..8).fold(byte << 8, |sum, _| match sum & 0x8000 {
                0 => sum << 1,
                _ => sum << 1 ^ 0x1021,
            })
        };
        Crc {
            steps: std::array::from_fn(|byte| eight_steps(byte as u16)),
        }
    }

    /// The check of these bytes.
    pub fn of(&self, bytes: &[u8]) -> u16 {
        bytes.iter().fold(0xFFFF, |sum, byte| {
            sum << 8 ^ self.steps[usize::from((sum >> 8) as u8 ^ byte)]
        })
    }
}

/// A greedy encoder by one table: for each difference it takes the shortest code that gives it. It never switches.
pub struct Greedy {
    /// The values that have a code of their own, from -[`OWN`] to [`OWN`].
    own: [Code; 2 * OWN as usize + 1],
}

/// The largest value with a code of its own in the default table.
const OWN: i32 = 8;

impl Greedy {
    /// By the default table.
    pub fn new() -> Greedy {
        let own = |value: i32| match value.unsigned_abs() {
            0 => Code { bits: 0, count: 1 },
            ones => Code {
                bits: ((1 << ones) - 1) << 2 | u64::from(value < 0),
                count: ones + 2,
            },
        };
        Greedy {
            own: std::array::from_fn(|at| own(at as i32 - OWN)),
        }
    }

    /// The code of a value; `None` if it has none.
    #[inline]
    fn code(&self, value: i32) -> Option<Code> {
        match value {
            _ if value.abs() <= OWN => Some(self.own[(value + OWN) as usize]),
            -128..=127 => Some(Code {
                bits: 0x3FE << 8 | (value as u64 & 0xFF),
                count: 18,
            }),
            -32_768..=32_767 => Some(Code {
                bits: 0x3FF << 16 | (value as u64 & 0xFFFF),
                count: 26,
            }),
            _ => None,
        }
    }

    /// Writes the codes of the differences of order 2 to the output, and answers how many bytes and bits they take; `None`
    /// where a value has no code or there is no more room.
    pub fn encode(&self, samples: &[i16], out: &mut [u8]) -> Option<(usize, usize)> {
        let (mut bytes, mut bits) = (0, 0);
        let (mut held, mut count) = (0u64, 0);
        let (mut before, mut last) = (0, 0);
        for (place, &sample) in samples.iter().enumerate() {
            let sample = i32::from(sample);
            let foreseen = if place < 2 { 0 } else { 2 * last - before };
            (before, last) = (last, sample);
            let code = self.code(sample - foreseen)?;
            held = held << code.count | code.bits;
            count += code.count;
            bits += code.count as usize;
            while count >= 8 {
                count -= 8;
                *out.get_mut(bytes)? = (held >> count) as u8;
                bytes += 1;
            }
        }
        if count > 0 {
            *out.get_mut(bytes)? = (held << (8 - count)) as u8;
            bytes += 1;
        }
        Some((bytes, bits))
    }
}

/// An entry of an index.
#[derive(Clone, Debug, PartialEq, Eq)]
pub struct Entry<'a> {
    pub identifier: &'a [u8],
    /// Year, month and day, in the bits that they have in an entry: a later date is a greater number.
    pub date: u32,
    pub leads: u8,
}

/// The bytes of an entry before its identifier.
const FIXED: usize = 5;

/// A date as entries have it.
pub fn date(year: u16, month: u8, day: u8) -> u32 {
    u32::from(year) << 9 | u32::from(month) << 5 | u32::from(day)
}

impl<'a> Entry<'a> {
    /// The entry that these bytes begin with, if it is whole and keeps the rules.
    pub fn first_of(bytes: &'a [u8]) -> Option<Entry<'a>> {
        let entry = Entry::unjudged(bytes)?;
        let (month, day) = (entry.date >> 5 & 0xF, entry.date & 0x1F);
        let is_dated = (1..=12).contains(&month) && day != 0;
        let is_named = !entry.identifier.is_empty() && !entry.identifier.contains(&0);
        let keeps_the_rules =
            is_dated && is_named && entry.leads <= 32 && bytes[FIXED - 1] & 1 == 0;
        keeps_the_rules.then_some(entry)
    }

    /// The entry that these bytes begin with, if it is whole.
    fn unjudged(bytes: &'a [u8]) -> Option<Entry<'a>> {
        let (fixed, rest) = bytes.split_first_chunk::<FIXED>()?;
        let bits = fixed
            .iter()
            .fold(0, |bits, &byte| bits << 8 | u64::from(byte));
        Some(Entry {
            identifier: rest.get(..(bits >> 34) as usize)?,
            date: (bits >> 9) as u32 & 0x1FF_FFFF,
            leads: (bits >> 1) as u8,
        })
    }

    /// The entry of a record that is sound.
    fn of(record: &'a [u8]) -> Option<Entry<'a>> {
        let section_3 = judge::open(record).ok()?[3];
        let (_, identifier) = record[judge::field(record, 2, 1).ok()?].split_last()?;
        let [low, high, month, day] = record[judge::field(record, 25, 1).ok()?] else {
            return None;
        };
        Some(Entry {
            identifier,
            date: date(u16::from_le_bytes([low, high]), month, day),
            leads: match section_3.is_present() {
                true => record[section_3.index as usize - 1 + scp::FIRST_FIELD],
                false => 0,
            },
        })
    }

    /// Its bytes.
    pub fn bytes(&self) -> Vec<u8> {
        let mut bytes = Vec::with_capacity(self.size());
        self.put(&mut bytes);
        bytes
    }

    /// Puts its bytes behind these.
    fn put(&self, bytes: &mut Vec<u8>) {
        let length = self.identifier.len() as u64;
        let bits = length << 34 | u64::from(self.date) << 9 | u64::from(self.leads) << 1;
        bytes.extend_from_slice(&bits.to_be_bytes()[8 - FIXED..]);
        bytes.extend_from_slice(self.identifier);
    }

    fn size(&self) -> usize {
        FIXED + self.identifier.len()
    }

    /// What entries are sorted by.
    fn key(&self) -> (&'a [u8], u32) {
        (self.identifier, self.date)
    }
}

/// Shows the entries of an index with their places, in a loop that judges each; `None` if it is no index.
fn judged<'a>(index: &'a [u8], mut show: impl FnMut(usize, &Entry<'a>)) -> Option<()> {
    let (mut at, mut before) = (0, (&[][..], 0));
    while at < index.len() {
        let entry = Entry::first_of(&index[at..])?;
        if entry.key() < before {
            return None;
        }
        show(at, &entry);
        before = entry.key();
        at += entry.size();
    }
    Some(())
}

/// The part of an index that holds the entries of an identifier; `None` if it is no index.
pub fn index_find(index: &[u8], identifier: &[u8]) -> Option<Range<usize>> {
    let mut part = 0..0;
    judged(index, |at, entry| {
        if entry.identifier == identifier {
            let start = if part.is_empty() { at } else { part.start };
            part = start..at + entry.size();
        }
    })?;
    Some(part)
}

/// Adds a sound record to an index that has room for it, and answers how many bytes are then in use.
pub fn index_add(index: &mut [u8], used: usize, record: &[u8]) -> Option<usize> {
    let new = Entry::of(record)?;
    let mut place = 0;
    judged(&index[..used], |at, entry| {
        if entry.key() <= new.key() {
            place = at + entry.size();
        }
    })?;
    let end = place + new.size();
    index.copy_within(place..used, end);
    index[place..end].copy_from_slice(&new.bytes());
    Some(used + new.size())
}

/// Merges two indexes into the output, and answers how many bytes both have; `None` if either is no index or there is no room.
/// Entries of the first stand before those of the second with the same key.
pub fn index_merge(a: &[u8], b: &[u8], out: &mut [u8]) -> Option<usize> {
    judged(a, |_, _| {})?;
    judged(b, |_, _| {})?;
    let out = out.get_mut(..a.len() + b.len())?;
    let (mut from_a, mut from_b) = (0, 0);
    let mut next = Entry::unjudged(a);
    while let (Some(_), Some(other)) = (&next, Entry::unjudged(&b[from_b..])) {
        let start = from_a;
        while let Some(one) = next.as_ref().filter(|one| one.key() <= other.key()) {
            from_a += one.size();
            next = Entry::unjudged(&a[from_a..]);
        }
        out[start + from_b..from_a + from_b].copy_from_slice(&a[start..from_a]);
        let end = from_b + other.size();
        out[from_a + from_b..from_a + end].copy_from_slice(&b[from_b..end]);
        from_b = end;
    }
    let (rest_of_a, rest_of_b) = out[from_a + from_b..].split_at_mut(a.len() - from_a);
    rest_of_a.copy_from_slice(&a[from_a..]);
    rest_of_b.copy_from_slice(&b[from_b..]);
    Some(out.len())
}

/// The index of entries that come in any order: a stable sort, and one laid out behind the other. `None` if one is no entry.
pub fn index_sorted<'a>(arrivals: impl ExactSizeIterator<Item = &'a [u8]>) -> Option<Vec<u8>> {
    let mut entries = Vec::with_capacity(arrivals.len());
    for arrival in arrivals {
        entries.push(Entry::first_of(arrival)?);
    }
    entries.sort_by_key(Entry::key);
    let mut index = Vec::with_capacity(entries.iter().map(Entry::size).sum());
    entries.iter().for_each(|entry| entry.put(&mut index));
    Some(index)
}

/// The entries of an index by steps, their order not judged.
pub fn index_entries(index: &[u8]) -> impl Iterator<Item = Entry<'_>> {
    let mut rest = index;
    std::iter::from_fn(move || {
        let entry = Entry::first_of(rest)?;
        rest = &rest[entry.size()..];
        Some(entry)
    })
}

#[cfg(test)]
mod tests {
    use super::{date, index_find, index_merge, index_sorted, Crc, Entry, Greedy};

    #[test]
    fn entries_of_an_index() {
        let entry = Entry {
            identifier: b"007",
            date: date(2024, 3, 14),
            leads: 6,
        };
        let bytes = [0x0C, 0x1F, 0xA0, 0xDC, 12, b'0', b'0', b'7'];
        assert_eq!(entry.bytes(), bytes);
        assert_eq!(Entry::first_of(&bytes), Some(entry));
        assert_eq!(Entry::first_of(&bytes[..7]), None);
        let seven = [4, 0x1F, 0xA0, 0xDC, 0, b'7'];
        let index = [&bytes[..], &bytes, &seven].concat();
        assert_eq!(index_find(&index, b"007"), Some(0..16));
        assert_eq!(index_find(&index, b"7"), Some(16..22));
        assert_eq!(index_find(&index, b"8"), Some(0..0));
        assert_eq!(index_find(&[&seven[..], &bytes].concat(), b"7"), None);
    }

    #[test]
    fn indexes_become_one() {
        let entry = |identifier, day, leads| {
            let date = date(2024, 3, day);
            let entry = Entry {
                identifier,
                date,
                leads,
            };
            entry.bytes()
        };
        let [first, second] = [entry(b"1", 1, 3), entry(b"1", 1, 2)];
        let [third, fourth] = [entry(b"1", 2, 1), entry(b"12", 1, 0)];
        let all = [&first[..], &second, &third, &fourth].concat();
        let [odd, even] = [
            [&first[..], &third].concat(),
            [&second[..], &fourth].concat(),
        ];
        let (mut out, length) = ([0; 26], all.len());
        assert_eq!(index_merge(&odd, &even, &mut out), Some(length));
        assert_eq!(out[..length], all);
        assert_eq!(index_merge(&odd, &even, &mut out[1..length]), None);
        assert_eq!(index_merge(&all[12..], &all[..12], &mut out), Some(length));
        assert_eq!(out[..length], all);
        assert_eq!(
            index_merge(&[&third[..], &first].concat(), &[], &mut out),
            None
        );
        let arrivals = [&fourth[..], &first, &third, &second];
        assert_eq!(index_sorted(arrivals.into_iter()), Some(all));
        assert_eq!(index_sorted([&first[1..]].into_iter()), None);
    }

    #[test]
    fn known_check() {
        assert_eq!(Crc::new().of(b"123456789"), 0x29B1);
    }

    #[test]
    fn published_stream() {
        let mut out = [0; 9];
        let coded = Greedy::new().encode(&[14, 18, 22, 22, 13, 3, -2], &mut out);
        assert_eq!(coded, Some((9, 71)));
        assert_eq!(out[..8], [0xFF, 0x83, 0xBF, 0xE1, 0x27, 0xBF, 0xF7, 0xBD]);
        assert_eq!(Greedy::new().encode(&[1], &mut []), None);
        assert_eq!(
            Greedy::new().encode(&[-32768, 32767, -32768], &mut out),
            None
        );
    }
}
