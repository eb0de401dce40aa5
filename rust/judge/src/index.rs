//! The auditor's index: entries packed into bytes, kept sorted in a lent buffer, found again
//! (02, Q-13), and merged with those of another index.
//!
//! Every call but a step takes all bytes in use apart into entries and judges them. Adding and
//! merging sort all entries and lay them out anew; nothing is moved in place.

use crate::bounds;
use crate::header::{self, steps};
use crate::judging::number;
use crate::leads::number_of_leads;
use crate::numbers::Bytes;
use crate::opening::walk_start;
use crate::record::HEADER;
use crate::row;
use std::ops::{Range, RangeInclusive};

/// How many bits each number before the identifier has, in their order: the identifier's length,
/// the year, the month, the day, the leads, and the bit that is 0.
const WIDTHS: [u32; 6] = [6, 16, 4, 5, 8, 1];
/// The bytes of these numbers.
pub const HEAD: usize = 5;
const MONTHS: RangeInclusive<u8> = 1..=12;
const DAYS: RangeInclusive<u8> = 1..=31;

/// The numbers before an identifier.
pub type Head = [u16; WIDTHS.len()];

/// An entry of the index.
#[derive(Clone, Copy, Debug, PartialEq, Eq)]
pub struct IndexEntry<'a> {
    /// Without its NUL.
    pub identifier: &'a [u8],
    pub year: u16,
    pub month: u8,
    pub day: u8,
    /// 0 without Section 3.
    pub leads: u8,
}

/// An entry at a place of the index: where its identifier starts, and where the next entry does.
#[derive(Clone, Copy, Debug, PartialEq, Eq)]
pub struct IndexStep<'a> {
    pub entry: IndexEntry<'a>,
    pub start: usize,
    pub next: usize,
}

impl<'a> IndexEntry<'a> {
    /// Entries are sorted by this. Bytes are compared one by one from the first, and the end comes
    /// before any byte. The number of leads does not count.
    fn key(&self) -> (&'a [u8], u16, u8, u8) {
        (self.identifier, self.year, self.month, self.day)
    }

    /// Whether some record has this entry: tag 2 has 2 to 64 bytes, and its last is the only NUL.
    fn is_by_the_rules(&self) -> bool {
        !self.identifier.is_empty()
            && !self.identifier.contains(&0)
            && has_date(self.month, self.day)
            && usize::from(self.leads) <= *bounds::LEADS.end()
    }

    fn bytes(&self) -> Vec<u8> {
        let length = self.identifier.len() as u16;
        let (month, day, leads) = (self.month.into(), self.day.into(), self.leads.into());
        let head = packed([length, self.year, month, day, leads, 0]);
        [&head, self.identifier].concat()
    }
}

/// Whether an entry can have this month and this day. February 31 is a date.
fn has_date(month: u8, day: u8) -> bool {
    MONTHS.contains(&month) && DAYS.contains(&day)
}

/// The bytes of these numbers, most significant bit first; each number fits its bits.
pub fn packed(head: Head) -> Vec<u8> {
    let numbers = head.into_iter().zip(WIDTHS);
    let bits = numbers.fold(0, |bits, (number, width)| bits << width | u64::from(number));
    bits.to_be_bytes()[8 - HEAD..].to_vec()
}

/// The numbers in these bytes: the last one has the lowest bits.
pub fn unpacked(head: &[u8]) -> Head {
    let bytes = head.iter();
    let mut bits = bytes.fold(0, |bits, &byte| bits << 8 | u64::from(byte));
    let mut numbers = Head::default();
    for (number, width) in numbers.iter_mut().zip(WIDTHS).rev() {
        *number = (bits % (1 << width)) as u16;
        bits >>= width;
    }
    numbers
}

/// The entry at a place of any bytes; `None` where no whole entry by the rules is.
pub fn index_step(index: &[u8], at: usize) -> Option<IndexStep<'_>> {
    let mut bytes = Bytes::new(index.get(at..)?);
    let [length, year, month, day, leads, zero] = unpacked(bytes.take(HEAD)?);
    let identifier = bytes.take(length.into())?;
    let entry = IndexEntry {
        identifier,
        year,
        month: month as u8,
        day: day as u8,
        leads: leads as u8,
    };
    let next = index.len() - bytes.left();
    (zero == 0 && entry.is_by_the_rules()).then_some(IndexStep {
        entry,
        start: next - identifier.len(),
        next,
    })
}

/// The entries in use; 26 if more is in use than was lent, or no whole entries by the rules in
/// their order.
fn judged(index: &[u8], used: usize) -> Result<Vec<IndexStep<'_>>, u8> {
    let bytes = index.get(..used).ok_or(row::INDEX)?;
    let first = index_step(bytes, 0);
    let steps: Vec<_> = std::iter::successors(first, |step| index_step(bytes, step.next)).collect();
    let end = steps.last().map_or(0, |step| step.next);
    if end == used && steps.is_sorted_by_key(|step| step.entry.key()) {
        Ok(steps)
    } else {
        Err(row::INDEX)
    }
}

/// The entry that a record has: 1 to 6, then 8 for Section 3's own rules, then 24.
pub fn index_entry(record: &[u8]) -> Result<IndexEntry<'_>, u8> {
    let section = &record[walk_start(record)?];
    let shown = |tag| {
        let field = steps(section, HEADER).find(|field| field.tag == tag);
        field.map_or(&[][..], |field| &section[field.start..field.next])
    };
    let leads = number_of_leads(record).map_err(|found| number(&found))?;
    let (identifier, date) = (shown(header::IDENTIFIER), shown(header::DATE));
    let ([identifier @ .., _], &[low, high, month, day]) = (identifier, date) else {
        return Err(row::SECTION_1);
    };
    if !has_date(month, day) {
        return Err(row::DATE);
    }
    Ok(IndexEntry {
        identifier,
        year: u16::from_le_bytes([low, high]),
        month,
        day,
        leads: leads as u8,
    })
}

/// Adds a record to an index of which `used` bytes are in use: the bytes that are in use then. The
/// order is 26, 1 to 6, 8 for Section 3, 24 and 11.
pub fn index_add(index: &[u8], used: usize, record: &[u8]) -> Result<Vec<u8>, u8> {
    let steps = judged(index, used)?;
    let mut entries: Vec<_> = steps.iter().map(|step| step.entry).collect();
    entries.push(index_entry(record)?);
    within(index.len(), laid_out(entries))
}

/// The index of all entries of two, whose bytes are all in use: equal ones of the first come first.
/// The order is 26 and 11.
pub fn index_merge(a: &[u8], b: &[u8], room: usize) -> Result<Vec<u8>, u8> {
    let steps = [judged(a, a.len())?, judged(b, b.len())?].concat();
    let entries = steps.iter().map(|step| step.entry).collect();
    within(room, laid_out(entries))
}

/// These bytes, if there is room for them; else 11.
fn within(room: usize, bytes: Vec<u8>) -> Result<Vec<u8>, u8> {
    if bytes.len() > room {
        return Err(row::ROOM);
    }
    Ok(bytes)
}

/// The index built afresh from records in the order of their arrival. One that is refused has no
/// entry.
pub fn built_index<'a>(records: impl IntoIterator<Item = &'a [u8]>) -> Vec<u8> {
    let entries = records.into_iter().map(index_entry);
    laid_out(entries.filter_map(Result::ok).collect())
}

/// The bytes of these entries, sorted; equal ones stay in the order that they came in.
pub fn laid_out(mut entries: Vec<IndexEntry>) -> Vec<u8> {
    entries.sort_by_key(IndexEntry::key);
    let bytes: Vec<_> = entries.iter().map(IndexEntry::bytes).collect();
    bytes.concat()
}

/// The part of the index with all and only the entries of this identifier, which comes without its
/// NUL; empty if it has none. The only refusal is 26.
pub fn index_find(index: &[u8], used: usize, identifier: &[u8]) -> Result<Range<usize>, u8> {
    let steps = judged(index, used)?;
    let own: Vec<_> = steps
        .iter()
        .filter(|step| step.entry.identifier == identifier)
        .collect();
    match own[..] {
        [] => Ok(0..0),
        [first, ..] => Ok(first.start - HEAD..own[own.len() - 1].next),
    }
}

#[cfg(test)]
mod tests {
    use super::{packed, unpacked};

    #[test]
    fn numbers_by_hand() {
        // 000011 0000011111101000 0011 01110 00001100 0
        let one = [3, 2024, 3, 14, 12, 0];
        assert_eq!(packed(one), [0x0C, 0x1F, 0xA0, 0xDC, 0x18]);
        // 111111 0000000000000000 1100 11111 00100000 1
        let other = [63, 0, 12, 31, 32, 1];
        assert_eq!(packed(other), [0xFC, 0x00, 0x03, 0x3E, 0x41]);
        for head in [one, other] {
            assert_eq!(unpacked(&packed(head)), head);
        }
    }

    #[test]
    fn each_number_has_its_own_bits() {
        let whole = [63, 65_535, 15, 31, 255, 1];
        assert_eq!(packed(whole), [0xFF; 5]);
        for place in 0..whole.len() {
            let mut head = [0; 6];
            head[place] = whole[place];
            assert_eq!(unpacked(&packed(head)), head);
        }
        let year = [0, 65_535, 0, 0, 0, 0];
        assert_eq!(packed(year), [0x03, 0xFF, 0xFC, 0, 0]);
    }
}
