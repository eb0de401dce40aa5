//! The index: an entry for each record, sorted by identifier and then by date, in a buffer that the caller lends.

use std::iter::FusedIterator;
use std::ops::Range;

use crate::fields::part;
use crate::raw;
use crate::Refusal;

/// The bytes of an entry before its identifier.
const FIXED: usize = 5;

/// The most bytes that an identifier has without its NUL.
const IDENTIFIER_MAX: usize = 63;

/// The most bytes that an entry has: so much room beyond what is in use is always enough to add one.
pub const ENTRY_MAX: usize = FIXED + IDENTIFIER_MAX;

/// An entry of an index.
#[derive(Clone, Debug, PartialEq, Eq)]
pub struct IndexEntry {
    /// Which bytes of the index are the identifier's. It has 1 to 63, and no NUL.
    pub identifier: Range<usize>,
    /// The year.
    pub year: u16,
    /// The month, 1 to 12.
    pub month: u8,
    /// The day, 1 to 31.
    pub day: u8,
    /// How many leads the record has, 0 if it has no Section 3.
    pub leads: u8,
}

impl IndexEntry {
    /// The place behind the entry, where the next one is: an entry ends with its identifier.
    pub fn next(&self) -> usize {
        self.identifier.end
    }
}

/// Adds a record to an index of which the first `used` bytes are in use, and answers how many are then. The entry is put
/// behind all that are not greater, and those after it move on. The bytes that are not in use are not changed.
///
/// Refused with the first that applies of 26, 1 to 6, 8 for Section 3, 24 and 11; the index is then as it was.
pub fn index_add(index: &mut [u8], used: usize, record: &[u8]) -> Result<usize, Refusal> {
    let indexed = raw::index_add(index, used, record);
    Refusal::or(indexed.refusal, indexed.used)
}

/// Merges two indexes, all of both in use, and answers how many bytes of the output are then the index of both. Entries of `a`
/// stand before those of `b` that have the same identifier and date. The other bytes of the output are not changed.
///
/// Refused with 26 if either is no index, then with 11 if the output has fewer bytes than both; it is then as it was.
pub fn index_merge(a: &[u8], b: &[u8], out: &mut [u8]) -> Result<usize, Refusal> {
    let merged = raw::index_merge(a, b, out);
    Refusal::or(merged.refusal, merged.used)
}

/// Looks up an identifier, without its NUL, in an index of which the first `used` bytes are in use: the part that holds all
/// of its entries and no others, empty if there are none. Refused with 26.
pub fn index_find<'a>(
    index: &'a [u8],
    used: usize,
    identifier: &[u8],
) -> Result<&'a [u8], Refusal> {
    // SAFETY: both pointers and lengths are those of slices lent for the call, which only reads them.
    let found = unsafe {
        raw::scp_index_find(
            index.as_ptr(),
            index.len(),
            used,
            identifier.as_ptr(),
            identifier.len(),
        )
    };
    Ok(&index[part(found)?])
}

/// Shows the entry that is at `at` in an index of which all bytes are in use, 0 being the place of the first, or `None` at the
/// end and where no whole entry by the rules stands. The order is not judged: any bytes and any place may be given.
pub fn index_step(index: &[u8], at: usize) -> Option<IndexEntry> {
    // SAFETY: the pointer and the length are those of a slice lent for the call, which only reads it.
    let entry = unsafe { raw::scp_index_step(index.as_ptr(), index.len(), at) };
    if entry.more == 0 {
        return None;
    }
    Some(IndexEntry {
        identifier: entry.start..entry.start + entry.length,
        year: entry.year,
        month: entry.month,
        day: entry.day,
        leads: entry.leads,
    })
}

/// Steps over the entries of an index, from its start until there is none. Of bytes that are no index, [`IndexEntries::at`]
/// then says how far there were entries.
pub fn index_entries(index: &[u8]) -> IndexEntries<'_> {
    IndexEntries { index, at: 0 }
}

/// The steps over the entries of an index: see [`index_entries`].
#[derive(Clone, Debug)]
pub struct IndexEntries<'a> {
    index: &'a [u8],
    at: usize,
}

impl IndexEntries<'_> {
    /// The place of the next step: behind all entries shown so far.
    pub fn at(&self) -> usize {
        self.at
    }
}

impl Iterator for IndexEntries<'_> {
    type Item = IndexEntry;

    fn next(&mut self) -> Option<IndexEntry> {
        let entry = index_step(self.index, self.at)?;
        self.at = entry.next();
        Some(entry)
    }
}

// Where there is no entry the place stays as it is, so the steps stay there.
impl FusedIterator for IndexEntries<'_> {}
