//! The calls that judge a record and look at its header: rows 1 to 6 and 10 (01, Header fields and
//! the patient identifier).

use crate::header::steps;
use crate::judging::{number, smallest};
use crate::record::{place_of, pointers, Pointer, HEADER};
use crate::row;
use std::ops::Range;

/// Opens a record: its pointers as stored, or the smallest of 1 to 6 that applies.
pub fn open(record: &[u8]) -> Result<Vec<Pointer>, u8> {
    opens(record)?;
    Ok(pointers(record))
}

/// The part of the record that holds the bytes of a field, or the smallest of 1 to 6 and 10 that
/// applies. Occurrences count from 1.
pub fn field(record: &[u8], tag: u8, occurrence: usize) -> Result<Range<usize>, u8> {
    let section = walk_start(record)?;
    let skipped = occurrence.checked_sub(1).ok_or(row::ABSENT)?;
    let step = steps(&record[section.clone()], HEADER)
        .filter(|step| step.tag == tag)
        .nth(skipped)
        .ok_or(row::ABSENT)?;
    Ok(section.start + step.start..section.start + step.next)
}

/// The place of Section 1, header and all, in the record; the refusals are those of opening.
pub fn walk_start(record: &[u8]) -> Result<Range<usize>, u8> {
    opens(record)?;
    place_of(record, 1).ok_or(row::PLACES)
}

fn opens(record: &[u8]) -> Result<(), u8> {
    smallest(record, row::LENGTH..=row::SECTION_1).map_err(|found| number(&found))
}
