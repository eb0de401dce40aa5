//! Numbers 24 and 26: the date of a record that is to be added to an index, and the index itself.

use std::ops::RangeInclusive;

use super::numbers::bounds;
use crate::filed::Filed;
use crate::reading::RECORDING_DATE;
use crate::text::parted;

/// The bounds of an entry's numbers, and of the date that a record may have to be added.
const MONTHS: RangeInclusive<i64> = 1..=12;
const DAYS: RangeInclusive<i64> = 1..=31;
const LENGTHS: RangeInclusive<i64> = 1..=63;
const LEADS: RangeInclusive<i64> = 0..=32;

/// The bytes of an entry before its identifier.
const HEAD: usize = 5;

/// The numbers of a record's date that are outside their bounds.
pub fn date(record: &[u8]) -> Vec<String> {
    let Ok(field) = scp::field(record, RECORDING_DATE, 1) else {
        return Vec::new();
    };
    let [_, _, month, day] = record[field.clone()] else {
        return Vec::new();
    };
    let numbers = [
        ("month of tag 25", month, MONTHS, field.start + 3),
        ("day of tag 25", day, DAYS, field.start + 4),
    ];
    let outside = numbers.into_iter().filter_map(|(name, number, range, at)| {
        let words = outside(name, number.into(), &range)?;
        let byte = parted(&format!("byte {at}"));
        Some(format!("{words} ({byte})"))
    });
    outside.collect()
}

/// The entries of an index that are out of order, and then why there is no entry where the bytes are no longer entries.
pub fn faults(index: &[u8]) -> Vec<String> {
    let mut lines = Vec::new();
    let mut steps = scp::index_entries(index);
    let mut number = 1;
    let mut before: Option<Filed> = None;
    let mut at = 0;
    while let Some(entry) = steps.next() {
        let filed = Filed::of(index, &entry);
        if let Some(before) = before.filter(|before| before.key() > filed.key()) {
            let words = format!(
                "{} stands behind {}, and belongs before it",
                told(&filed),
                told(&before)
            );
            lines.push(line(number, at, &words));
        }
        before = Some(filed);
        number += 1;
        at = steps.at();
    }
    let broken = broken(&index[at..]);
    lines.extend(broken.iter().map(|words| line(number, at, words)));
    lines
}

/// An entry by what it is sorted by.
fn told(filed: &Filed) -> String {
    format!("{} of {}", filed.quoted(), filed.date.told())
}

/// A line on the entry at a place.
fn line(number: usize, at: usize, words: &str) -> String {
    let (entry, byte) = (format!("entry {number}"), format!("byte {}", at + 1));
    format!("{}: {words} ({})", parted(&entry), parted(&byte))
}

/// The rules that an entry at the start of these bytes breaks.
fn broken(bytes: &[u8]) -> Vec<String> {
    let Some(head) = bytes.first_chunk::<HEAD>() else {
        let left = bytes.len();
        let words =
            format!("the index ends after {left} of the {HEAD} bytes before the identifier");
        return (left > 0).then_some(words).into_iter().collect();
    };
    let head = head.iter().fold(0, |sum, &byte| sum << 8 | i64::from(byte));
    let (length, month, day) = (head >> 34, head >> 14 & 0xF, head >> 9 & 0x1F);
    let numbers = [
        ("identifier's length", length, LENGTHS),
        ("month", month, MONTHS),
        ("day", day, DAYS),
        ("number of leads", head >> 1 & 0xFF, LEADS),
        ("bit before the identifier", head & 1, 0..=0),
    ];
    let numbers = numbers.iter();
    let outside = numbers.filter_map(|(name, number, range)| outside(name, *number, range));
    outside.chain(identifier(&bytes[HEAD..], length)).collect()
}

/// The rule that an identifier of this length breaks at the start of these bytes.
fn identifier(bytes: &[u8], length: i64) -> Option<String> {
    let Some(identifier) = bytes.get(..length as usize) else {
        let left = bytes.len();
        return Some(format!(
            "the index ends after {left} of the identifier's {length} bytes"
        ));
    };
    let nul = identifier.iter().position(|&byte| byte == 0)? + 1;
    Some(format!(
        "the identifier has a NUL as byte {nul} of {length}"
    ))
}

/// The words for a number that is outside its bounds.
fn outside(name: &str, number: i64, range: &RangeInclusive<i64>) -> Option<String> {
    let is_outside = !range.contains(&number);
    is_outside.then(|| format!("the {name} is {number}, {}", bounds(range)))
}

#[cfg(test)]
mod tests {
    use judge::make::{broken_index, index, Rng};

    use super::{date, faults};

    /// An entry of these numbers, whatever they are.
    fn entry(numbers: [u64; 6], identifier: &[u8]) -> Vec<u8> {
        let widths = [6, 16, 4, 5, 8, 1];
        let packed = numbers.iter().zip(widths).fold(0, |sum, (number, width)| {
            assert!(*number < 1 << width);
            sum << width | number
        });
        [&u64::to_be_bytes(packed)[3..], identifier].concat()
    }

    fn sound(identifier: &[u8], year: u64, month: u64, day: u64) -> Vec<u8> {
        entry(
            [identifier.len() as u64, year, month, day, 2, 0],
            identifier,
        )
    }

    /// The words for an entry, where it is the first and where it is the second.
    fn hold(bytes: &[u8], words: &str) {
        assert_eq!(faults(bytes), [format!("entry 1: {words} (byte 1)")]);
        let second = [&sound(b"007", 2024, 3, 14), bytes].concat();
        assert_eq!(faults(&second), [format!("entry 2: {words} (byte 9)")]);
    }

    #[test]
    fn each_number_has_its_words() {
        let head = |month, day, leads, bit| entry([1, 2024, month, day, leads, bit], b"7");
        hold(&head(0, 14, 2, 0), "the month is 0, not 1 to 12");
        hold(&head(13, 14, 2, 0), "the month is 13, not 1 to 12");
        hold(&head(3, 0, 2, 0), "the day is 0, not 1 to 31");
        hold(&head(3, 14, 33, 0), "the number of leads is 33, over 32");
        let bit = "the bit before the identifier is 1, not 0";
        hold(&head(3, 14, 2, 1), bit);
        let many = faults(&head(0, 0, 255, 1));
        assert_eq!(many.len(), 4, "{many:?}");
        assert_eq!(many[3], format!("entry 1: {bit} (byte 1)"));
    }

    #[test]
    fn each_length_has_its_words() {
        let of = |length, identifier| entry([length, 2024, 3, 14, 2, 0], identifier);
        hold(&of(0, b""), "the identifier's length is 0, not 1 to 63");
        let ends = "the index ends after 4 of the identifier's 9 bytes";
        hold(&of(9, b"7890"), ends);
        let nul = "the identifier has a NUL as byte 2 of 3";
        hold(&of(3, b"7\x007"), nul);
        let head = "the index ends after 4 of the 5 bytes before the identifier";
        hold(&of(9, b"")[..4], head);
    }

    #[test]
    fn the_order_has_its_words() {
        let (seven, bond) = (sound(b"7", 2024, 3, 14), sound(b"007", 2023, 12, 31));
        let found = faults(&[&seven[..], &bond, &seven].concat());
        let words =
            "\"007\" of 2023-12-31 stands behind \"7\" of 2024-03-14, and belongs before it";
        assert_eq!(found, [format!("entry 2: {words} (byte 7)")]);
        // the cut is found as well, behind what is out of order
        let cut = [&seven[..], &bond, &[4]].concat();
        assert_eq!(faults(&cut).len(), 2);
    }

    /// A sound index has no faults: the leads are no part of the order, and equal entries are in order.
    #[test]
    fn an_index_has_no_faults() {
        let leads = |leads| entry([3, 2024, 3, 14, leads, 0], b"007");
        let index = [
            leads(9),
            leads(0),
            leads(9),
            sound(b"0071", 1, 1, 1),
            sound(b"7", 0, 2, 31),
        ];
        assert_eq!(faults(&index.concat()), [""; 0]);
        assert_eq!(faults(&[]), [""; 0]);
    }

    /// Something is found exactly where the library refuses; and any bytes may be looked at.
    #[test]
    fn what_is_found_agrees_with_the_verdict() {
        let mut rng = Rng::new(5);
        let mut refused = 0;
        for turn in 0..4000 {
            let bytes = match turn % 4 {
                0 => rng.bytes_within(0..=90),
                1 => index(&mut rng),
                _ => broken_index(&mut rng).bytes,
            };
            let is_refused = scp::index_find(&bytes, bytes.len(), &[]).is_err();
            let found = faults(&bytes);
            assert_eq!(!found.is_empty(), is_refused, "{bytes:?}: {found:?}");
            refused += usize::from(is_refused);
            date(&bytes);
        }
        assert!((1000..3900).contains(&refused), "{refused}");
    }
}
