//! A record before it is laid out: its pointers and sections with all free bytes; and the mending
//! of checks.

use super::rng::Rng;
use crate::bounds;
use crate::check::crc;
use crate::numbers::four_at;
use crate::record::{BEFORE_SECTION_0, HEADER, LETTERS, POINTER};
use std::ops::Range;

/// A present section other than Section 0.
#[derive(Clone, Debug)]
pub struct Section {
    pub id: u16,
    /// The two versions and the reserved bytes, none of them judged.
    pub free: [u8; 8],
    pub data: Vec<u8>,
    /// The bytes between the section before and this one.
    pub gap: Vec<u8>,
}

/// A record that can be laid out.
#[derive(Clone, Debug)]
pub struct Plan {
    /// The ID of each pointer, Section 0's too, and the index it has where its section is absent.
    pub pointers: Vec<(u16, u32)>,
    pub versions: [u8; 2],
    /// The bytes after the last pointer in Section 0: none, in a sound record.
    pub after_pointers: Vec<u8>,
    /// In the order of the file.
    pub sections: Vec<Section>,
    /// The bytes after the last section.
    pub after: Vec<u8>,
}

impl Plan {
    /// Twelve to 64 pointers with free indexes, and no section yet.
    pub fn new(rng: &mut Rng) -> Self {
        let more = if rng.one_in(40) { 52 } else { rng.small(52) };
        let mut ids: Vec<u16> = (0..12).collect();
        ids.extend(more_ids(rng, more));
        let index = |rng: &mut Rng| if rng.coin() { 0 } else { rng.four() };
        Plan {
            pointers: ids.into_iter().map(|id| (id, index(rng))).collect(),
            versions: [rng.byte(), rng.byte()],
            after_pointers: Vec::new(),
            sections: Vec::new(),
            after: Vec::new(),
        }
    }

    pub fn has(&self, id: u16) -> bool {
        self.sections.iter().any(|section| section.id == id)
    }

    /// The data of a present section.
    pub fn data(&mut self, id: u16) -> Option<&mut Vec<u8>> {
        self.sections
            .iter_mut()
            .find(|section| section.id == id)
            .map(|section| &mut section.data)
    }

    /// Puts a section at the end of the file, in place of any it had; one more byte makes odd data
    /// even.
    pub fn put(&mut self, rng: &mut Rng, id: u16, data: Vec<u8>) {
        self.remove(id);
        let free = if rng.coin() {
            [13, 13, 0, 0, 0, 0, 0, 0]
        } else {
            rng.number().to_le_bytes()
        };
        self.sections.push(Section {
            id,
            free,
            data,
            gap: Vec::new(),
        });
        self.even(rng, id);
    }

    /// Puts other data into a section, if it is there, where it lies.
    pub fn replace(&mut self, rng: &mut Rng, id: u16, new: Vec<u8>) {
        if let Some(data) = self.data(id) {
            *data = new;
            self.even(rng, id);
        }
    }

    /// One more byte if the section's data are odd.
    fn even(&mut self, rng: &mut Rng, id: u16) {
        let byte = if rng.coin() { 0 } else { rng.byte() };
        if let Some(data) = self.data(id) {
            if data.len() % 2 == 1 {
                data.push(byte);
            }
        }
    }

    pub fn remove(&mut self, id: u16) {
        self.sections.retain(|section| section.id != id);
    }

    /// The bytes it takes.
    pub fn size(&self) -> usize {
        let sections: usize = self
            .sections
            .iter()
            .map(|section| section.gap.len() + HEADER + section.data.len())
            .sum();
        BEFORE_SECTION_0 + self.length_of_section_0() + sections + self.after.len()
    }

    fn length_of_section_0(&self) -> usize {
        HEADER + POINTER * self.pointers.len() + self.after_pointers.len()
    }

    /// The record, with all checks.
    pub fn lay_out(&self) -> Vec<u8> {
        let mut record = self.section_0();
        for section in &self.sections {
            record.extend(&section.gap);
            let start = record.len();
            record.extend([0; 2]);
            record.extend(section.id.to_le_bytes());
            record.extend(((HEADER + section.data.len()) as u32).to_le_bytes());
            record.extend(section.free);
            record.extend(&section.data);
            let length = record.len() - start;
            self.point(&mut record, section.id, start, length);
        }
        record.extend(&self.after);
        mend_size(&mut record);
        mend(&mut record);
        record
    }

    /// All up to the end of Section 0, with all other sections absent.
    fn section_0(&self) -> Vec<u8> {
        let length = self.length_of_section_0();
        let mut record = vec![0; BEFORE_SECTION_0 + 4];
        record.extend((length as u32).to_le_bytes());
        record.extend(self.versions);
        record.extend(LETTERS);
        for (id, index) in &self.pointers {
            record.extend(id.to_le_bytes());
            record.extend([0; 4]);
            record.extend(index.to_le_bytes());
        }
        record.extend(&self.after_pointers);
        self.point(&mut record, 0, BEFORE_SECTION_0, length);
        record
    }

    /// Writes length and index into the pointer with this ID.
    fn point(&self, record: &mut [u8], id: u16, start: usize, length: usize) {
        if let Some(place) = self.pointers.iter().position(|pointer| pointer.0 == id) {
            let at = pointer_at(place);
            put_four(record, at + 2, length as u32);
            put_four(record, at + 6, start as u32 + 1);
        }
    }
}

/// Strictly rising IDs from 12 on, dense or spread.
fn more_ids(rng: &mut Rng, count: usize) -> Vec<u16> {
    let widest = if rng.coin() { 1 } else { 65_000 / count.max(1) };
    let mut id = 11;
    (0..count)
        .map(|_| {
            id += rng.within(1..=widest) as u16;
            id
        })
        .collect()
}

/// Where the pointer at this place, from 0, starts in a record.
pub fn pointer_at(place: usize) -> usize {
    BEFORE_SECTION_0 + HEADER + POINTER * place
}

/// Puts a number of 2 bytes where it fits.
pub fn put_two(bytes: &mut [u8], at: usize, number: u16) {
    if let Some(place) = bytes.get_mut(at..).and_then(|rest| rest.get_mut(..2)) {
        place.copy_from_slice(&number.to_le_bytes());
    }
}

/// Puts a number of 4 bytes where it fits.
pub fn put_four(bytes: &mut [u8], at: usize, number: u32) {
    if let Some(place) = bytes.get_mut(at..).and_then(|rest| rest.get_mut(..4)) {
        place.copy_from_slice(&number.to_le_bytes());
    }
}

/// Makes the size field the record's length.
pub fn mend_size(record: &mut [u8]) {
    let size = record.len() as u32;
    put_four(record, 2, size);
}

/// Makes all checks right: of each section that lies inside the record, then the record's. Any
/// bytes may come in.
pub fn mend(record: &mut [u8]) {
    for place in section_places(record) {
        mend_check(&mut record[place]);
    }
    mend_check(record);
}

/// Makes the CRC over these bytes right; sections and records both start with it.
pub fn mend_check(bytes: &mut [u8]) {
    if bytes.len() >= 2 {
        let check = crc(&bytes[2..]);
        put_two(bytes, 0, check);
    }
}

/// Where sections lie, Section 0 first, as far as they have a header and lie inside the record.
pub fn section_places(record: &[u8]) -> Vec<Range<usize>> {
    let length = four_at(record, BEFORE_SECTION_0 + 4).unwrap_or(0);
    let pointers = (length as usize).saturating_sub(HEADER) / POINTER;
    let own = (BEFORE_SECTION_0 as u32 + 1, length);
    let others = (1..pointers.min(*bounds::POINTERS.end())).filter_map(|place| {
        let at = pointer_at(place);
        Some((four_at(record, at + 6)?, four_at(record, at + 2)?))
    });
    let place = |(index, length): (u32, u32)| {
        let start = (index as usize).checked_sub(1)?;
        let end = start.checked_add(length as usize)?;
        (length as usize >= HEADER && end <= record.len()).then_some(start..end)
    };
    std::iter::once(own)
        .chain(others)
        .filter_map(place)
        .collect()
}
