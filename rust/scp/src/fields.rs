//! The fields of Section 1: lookup, identifiers, and the walk.

use std::iter::FusedIterator;
use std::ops::Range;

use crate::raw;
use crate::Refusal;

/// The offset of the first field in a section: just after the section's header.
pub const FIRST_FIELD: usize = 16;

/// A field that a step of the walk shows. Its places count from the start of the section.
#[derive(Clone, Copy, Debug, PartialEq, Eq)]
pub struct Step {
    /// The field's tag.
    pub tag: u8,
    /// Where its bytes start.
    pub start: usize,
    /// How many bytes it has.
    pub length: usize,
    /// Where the next step is to be taken.
    pub next: usize,
}

/// A field of a record.
#[derive(Clone, Debug, PartialEq, Eq)]
pub struct Field {
    /// The field's tag.
    pub tag: u8,
    /// Which bytes of the record are the field's, without its tag and length.
    pub range: Range<usize>,
}

/// Finds a field by its tag and occurrence, from 1: which bytes of the record are the field's, without its tag and
/// length. Refused with the smallest of 1 to 6 and 10 that applies.
pub fn field(record: &[u8], tag: u8, occurrence: usize) -> Result<Range<usize>, Refusal> {
    // SAFETY: the pointer and the length are those of a slice lent for the call, which only reads it.
    part(unsafe { raw::scp_field(record.as_ptr(), record.len(), tag, occurrence) })
}

/// Whether two identifiers are the same: whether all their bytes are equal.
pub fn same_identifier(a: &[u8], b: &[u8]) -> bool {
    // SAFETY: both pointers and lengths are those of slices lent for the call, which only reads them.
    unsafe { raw::scp_same_identifier(a.as_ptr(), a.len(), b.as_ptr(), b.len()) != 0 }
}

/// Finds Section 1: which bytes of the record are the section, its header included. Refused as opening is.
pub fn walk_start(record: &[u8]) -> Result<Range<usize>, Refusal> {
    // SAFETY: the pointer and the length are those of a slice lent for the call, which only reads it.
    part(unsafe { raw::scp_walk_start(record.as_ptr(), record.len()) })
}

/// Shows the field that is at `at` in a section, [`FIRST_FIELD`] being the place of the first, or `None` at the
/// end. The section is not judged: any bytes and any place may be given.
pub fn walk_step(section: &[u8], at: usize) -> Option<Step> {
    // SAFETY: the pointer and the length are those of a slice lent for the call, which only reads it.
    let step = unsafe { raw::scp_walk_step(section.as_ptr(), section.len(), at) };
    if step.more == 0 {
        return None;
    }
    Some(Step {
        tag: step.tag,
        start: step.start,
        length: step.length,
        next: step.next,
    })
}

/// Walks over all fields of a record, in the order they have there. Refused as opening is.
pub fn fields(record: &[u8]) -> Result<Fields<'_>, Refusal> {
    let section = walk_start(record)?;
    Ok(Fields {
        start: section.start,
        section: &record[section],
        at: FIRST_FIELD,
    })
}

/// The walk over the fields of a record: see [`fields`].
#[derive(Clone, Debug)]
pub struct Fields<'a> {
    section: &'a [u8],
    start: usize,
    at: usize,
}

impl Iterator for Fields<'_> {
    type Item = Field;

    fn next(&mut self) -> Option<Field> {
        let step = walk_step(self.section, self.at)?;
        self.at = step.next;
        let start = self.start + step.start;
        Some(Field {
            tag: step.tag,
            range: start..start + step.length,
        })
    }
}

// The end shows nothing and leaves the place as it is, so the walk stays there.
impl FusedIterator for Fields<'_> {}

/// A part that was answered, as a range.
pub(crate) fn part(part: raw::ScpPart) -> Result<Range<usize>, Refusal> {
    Refusal::or(part.refusal, ())?;
    Ok(part.start..part.start + part.length)
}
