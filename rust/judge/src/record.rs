//! The record, Section 0 and the places of the sections: rows 1 to 5 (01, The record).

use crate::bounds;
use crate::check::crc;
use crate::finding::{Fault, Finding, Findings, FrameFault, Needs, Part, What};
use crate::numbers::{four_at, two_at, Bytes};
use crate::row;
use std::ops::Range;

/// Bytes of the head that each section starts with.
pub const HEADER: usize = 16;
/// Bytes before Section 0: the record's check and its size.
pub const BEFORE_SECTION_0: usize = 6;
/// Bytes of a pointer.
pub const POINTER: usize = 10;
/// The letters in the reserved bytes of Section 0.
pub const LETTERS: &[u8; 6] = b"SCPECG";
/// How many IDs come in order, before those that only rise.
const IN_ORDER: usize = 12;
/// Where Section 0 says that it starts, counted from 1.
const OWN_INDEX: i64 = 7;

/// A pointer of Section 0, as stored.
#[derive(Clone, Copy, Debug, PartialEq, Eq)]
pub struct Pointer {
    pub id: u16,
    pub length: u32,
    /// Counted from 1.
    pub index: u32,
}

impl Pointer {
    fn of(bytes: &[u8]) -> Option<Self> {
        let mut bytes = Bytes::new(bytes);
        let (id, length, index) = (bytes.two()?, bytes.four()?, bytes.four()?);
        Some(Pointer { id, length, index })
    }

    /// The length alone tells whether the section is there.
    pub fn is_present(&self) -> bool {
        self.length != 0
    }

    /// The bytes it points at, counted from 0.
    fn place(&self) -> Option<Range<usize>> {
        let start = usize::try_from(self.index).ok()?.checked_sub(1)?;
        let end = start.checked_add(usize::try_from(self.length).ok()?)?;
        Some(start..end)
    }

    /// The first and last byte of a section that is present, counted from 1.
    fn span(&self) -> (u64, u64) {
        let (start, length) = (u64::from(self.index), u64::from(self.length));
        (start, (start + length).saturating_sub(1))
    }

    fn overlaps(&self, other: &Pointer) -> bool {
        let (own, others) = (self.span(), other.span());
        own.0 <= others.1 && others.0 <= own.1
    }
}

/// Row 1: the length is outside its bounds or not the size field's.
pub fn size(record: &[u8]) -> Vec<Finding> {
    let mut found = Findings::new(row::LENGTH, None);
    let (length, field) = (record.len(), four_at(record, 2));
    let is_said = field.and_then(|size| usize::try_from(size).ok()) == Some(length);
    if !bounds::RECORD.contains(&length) || !is_said {
        found
            .of(Part::Whole)
            .push(FrameFault::Size { length, field });
    }
    found.list()
}

/// Row 2: the record's check, over its byte 3 to the end.
pub fn record_check(record: &[u8]) -> Vec<Finding> {
    let mut found = Findings::new(row::RECORD_CHECK, None);
    check(record, &mut found);
    found.list()
}

/// Row 3: Section 0, its check aside.
pub fn section_0(record: &[u8]) -> Vec<Finding> {
    let mut found = Findings::new(row::SECTION_0, Some(0));
    let section = record.get(BEFORE_SECTION_0..).unwrap_or_default();
    header_of_section_0(section, &mut found);
    let pointers = pointers(record);
    ids(&pointers, &mut found);
    if let (Some(own), Some(length)) = (pointers.first(), four_at(section, 4)) {
        let mut spot = found.at(Part::Pointer(1), pointer_offset(0));
        spot.number(What::OwnIndex, own.index, OWN_INDEX..=OWN_INDEX);
        let length = i64::from(length);
        spot.number(What::OwnLength, own.length, length..=length);
    }
    found.list()
}

/// Section 0's ID, letters and length.
fn header_of_section_0(section: &[u8], found: &mut Findings) {
    let Some(header) = section.get(..HEADER) else {
        let mut spot = found.of(Part::Whole);
        return spot.short(Needs::Section, HEADER, section.len());
    };
    let offset = |at| BEFORE_SECTION_0 + at + 1;
    if let Some(id) = two_at(header, 2) {
        let mut spot = found.at(Part::Whole, offset(2));
        spot.number(What::HeaderId, id, 0..=0);
    }
    if let Ok(letters) = header[10..].try_into() {
        let mut spot = found.at(Part::Whole, offset(10));
        spot.hold(letters == *LETTERS, FrameFault::Letters(letters));
    }
    let Some(length) = four_at(header, 4) else {
        return;
    };
    let mut spot = found.at(Part::Whole, offset(4));
    let needs = usize::try_from(length).unwrap_or(usize::MAX);
    if pointer_count(needs).is_none() {
        spot.push(FrameFault::PointersLength(length));
    } else if needs > section.len() {
        spot.short(Needs::Section, needs, section.len());
    }
}

/// IDs 0 to 11 come first; after them each is larger than the one before.
fn ids(pointers: &[Pointer], found: &mut Findings) {
    let mut before = IN_ORDER as i64 - 1;
    for (at, pointer) in pointers.iter().enumerate() {
        let expected = match at {
            0..IN_ORDER => at as i64..=at as i64,
            _ => before + 1..=i64::from(u16::MAX),
        };
        let mut spot = found.at(Part::Pointer(at + 1), pointer_offset(at));
        spot.number(What::PointerId, pointer.id, expected);
        if at >= IN_ORDER {
            before = i64::from(pointer.id).max(IN_ORDER as i64 - 1);
        }
    }
}

/// Row 4: the places, lengths and headers of the other sections, and Section 1 present.
pub fn places(record: &[u8]) -> Vec<Finding> {
    let mut found = Findings::new(row::PLACES, None);
    let pointers = pointers(record);
    let Some((own, others)) = pointers.split_first() else {
        return found.list();
    };
    if others.iter().any(|one| one.id == 1 && !one.is_present()) {
        found.go_to(1);
        found.of(Part::Whole).push(Fault::Absent);
    }
    let present: Vec<_> = others.iter().filter(|one| one.is_present()).collect();
    for (at, pointer) in present.iter().enumerate() {
        found.go_to(pointer.id);
        place(record, pointer, own.span().1, &mut found);
        header(record, pointer, &mut found);
        for other in present[..at].iter().filter(|one| pointer.overlaps(one)) {
            found.of(Part::Whole).push(FrameFault::Overlap {
                own: pointer.span(),
                section: other.id,
                other: other.span(),
            });
        }
    }
    found.list()
}

/// A section's length, and its place after Section 0 and inside the record.
fn place(record: &[u8], pointer: &Pointer, section_0_end: u64, found: &mut Findings) {
    let mut spot = found.of(Part::Whole);
    let length = pointer.length;
    spot.hold(length % 2 == 0, FrameFault::OddLength(length));
    spot.number(What::SectionLength, length, HEADER as i64..=i64::MAX);
    let ((start, end), size) = (pointer.span(), record.len() as u64);
    let early = FrameFault::InSection0 {
        start,
        end: section_0_end,
    };
    spot.hold(start > section_0_end, early);
    spot.hold(end <= size, FrameFault::PastEnd { start, end, size });
}

/// Whether a section's header repeats its pointer.
fn header(record: &[u8], pointer: &Pointer, found: &mut Findings) {
    let Some(start) = pointer.place().map(|place| place.start) else {
        return;
    };
    if let Some(id) = two_at(record, start + 2) {
        let right = i64::from(pointer.id);
        let mut spot = found.at(Part::Whole, start + 3);
        spot.number(What::HeaderId, id, right..=right);
    }
    if let Some(length) = four_at(record, start + 4) {
        let right = i64::from(pointer.length);
        let mut spot = found.at(Part::Whole, start + 5);
        spot.number(What::HeaderLength, length, right..=right);
    }
}

/// Row 5: the check of each present section, Section 0's too.
pub fn section_checks(record: &[u8]) -> Vec<Finding> {
    let mut found = Findings::new(row::SECTION_CHECK, None);
    for pointer in pointers(record).iter().filter(|one| one.is_present()) {
        found.go_to(pointer.id);
        if let Some(section) = pointer.place().and_then(|place| record.get(place)) {
            check(section, &mut found);
        }
    }
    found.list()
}

/// Whether the first two bytes are the CRC over all after them, as they are in records and in
/// sections.
fn check(bytes: &[u8], found: &mut Findings) {
    if let (Some(stored), Some(rest)) = (two_at(bytes, 0), bytes.get(2..)) {
        let computed = crc(rest);
        let fault = FrameFault::Check { stored, computed };
        found.of(Part::Whole).hold(stored == computed, fault);
    }
}

/// The place of the section with this ID, counted from 0; `None` if it is absent.
pub fn place_of(record: &[u8], id: u16) -> Option<Range<usize>> {
    let pointers = pointers(record);
    let mut present = pointers.iter().filter(|one| one.is_present());
    let place = present.find(|pointer| pointer.id == id)?.place()?;
    let is_inside = place.start.checked_add(HEADER)? <= place.end && place.end <= record.len();
    is_inside.then_some(place)
}

/// The bytes after the header of the section with this ID; `None` if it is absent.
pub fn data_of(record: &[u8], id: u16) -> Option<Bytes<'_>> {
    let place = place_of(record, id)?;
    let data = record.get(place.start + HEADER..place.end)?;
    Some(Bytes::at(data, place.start + HEADER + 1))
}

/// How many pointers a Section 0 of this length has, if it can have this length.
fn pointer_count(length: usize) -> Option<usize> {
    let data = length.checked_sub(HEADER)?;
    let count = data / POINTER;
    (data % POINTER == 0 && bounds::POINTERS.contains(&count)).then_some(count)
}

/// The byte that a pointer starts at, counted from 1; the pointer's place counts from 0.
fn pointer_offset(at: usize) -> usize {
    BEFORE_SECTION_0 + HEADER + POINTER * at + 1
}

/// The pointers as stored, as many as Section 0's length has room for and the record holds.
pub fn pointers(record: &[u8]) -> Vec<Pointer> {
    let length = four_at(record, BEFORE_SECTION_0 + 4);
    let count = length
        .and_then(|length| usize::try_from(length).ok())
        .and_then(pointer_count)
        .unwrap_or(0);
    (0..count)
        .map_while(|at| Pointer::of(record.get(pointer_offset(at) - 1..)?))
        .collect()
}

/// Whether the letters of Section 0 are where every record has them.
pub fn has_letters(record: &[u8]) -> bool {
    let at = BEFORE_SECTION_0 + 10;
    record.get(at..at + LETTERS.len()) == Some(LETTERS)
}
