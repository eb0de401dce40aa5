//! Records laid out by hand, where the judge's generator would leave too much to chance. The checks are the judge's.

use std::ops::Range;

/// Where Section 0 starts, from 0.
pub const SECTION_0: usize = 6;
/// The bytes of a section's header.
pub const HEADER: usize = 16;
/// The bytes of a pointer.
const POINTER: usize = 10;
/// The version that both version bytes of every section hold: 1.3.
pub const VERSION: u8 = 13;

/// A record before it is laid out.
pub struct Draft {
    /// The IDs of the pointers.
    pub ids: Vec<u16>,
    /// Everything after Section 0: sections by their ID, and gaps.
    parts: Vec<(Option<u16>, Vec<u8>)>,
}

impl Default for Draft {
    /// Twelve pointers, and nothing but Section 0.
    fn default() -> Draft {
        Draft {
            ids: (0..12).collect(),
            parts: Vec::new(),
        }
    }
}

impl Draft {
    /// Puts a section after what is there; odd data get a byte more.
    pub fn put(&mut self, id: u16, data: &[u8]) {
        self.parts.push((Some(id), with_header(id, data)));
    }

    /// Puts other data into a section that is there.
    pub fn replace(&mut self, id: u16, data: &[u8]) {
        let old = self.parts.iter_mut().find(|part| part.0 == Some(id));
        old.expect("the section is there").1 = with_header(id, data);
    }

    /// Leaves some bytes free.
    pub fn gap(&mut self, bytes: usize) {
        self.parts.push((None, vec![0xEE; bytes]));
    }

    /// The record's bytes, all checks right.
    pub fn lay_out(&self) -> Vec<u8> {
        let mut record = vec![0; SECTION_0];
        record.extend(with_header(0, &vec![0; POINTER * self.ids.len()]));
        let letters = SECTION_0 + HEADER - 6;
        record[letters..letters + 6].copy_from_slice(b"SCPECG");
        let zero = SECTION_0..record.len();
        for (place, id) in self.ids.iter().enumerate() {
            let at = SECTION_0 + HEADER + POINTER * place;
            record[at..at + 2].copy_from_slice(&id.to_le_bytes());
        }
        point(&mut record, 0, &zero);
        for (id, bytes) in &self.parts {
            let start = record.len();
            record.extend(bytes);
            let part = start..record.len();
            if let Some(id) = id {
                point(&mut record, *id, &part);
            }
        }
        let size = record.len() as u32;
        record[2..6].copy_from_slice(&size.to_le_bytes());
        self.seal(&mut record);
        record
    }

    /// Makes all checks right of this record, or of what a change has made of it: of each section that lies after
    /// Section 0 and inside the record, of Section 0, and of the record.
    pub fn seal(&self, record: &mut [u8]) {
        let zero = SECTION_0..SECTION_0 + HEADER + POINTER * self.ids.len();
        for id in &self.ids {
            let part = section(record, *id);
            if part.start >= zero.end && part.end <= record.len() && part.len() >= 2 {
                seal(&mut record[part]);
            }
        }
        seal(&mut record[zero]);
        seal(record);
    }
}

/// A section's bytes, its check still to be made.
pub fn with_header(id: u16, data: &[u8]) -> Vec<u8> {
    let length = HEADER + data.len() + data.len() % 2;
    let mut section = vec![0; length];
    section[2..4].copy_from_slice(&id.to_le_bytes());
    section[4..8].copy_from_slice(&(length as u32).to_le_bytes());
    section[8..10].fill(VERSION);
    section[HEADER..HEADER + data.len()].copy_from_slice(data);
    section
}

/// The offset of the pointer with an ID.
pub fn pointer_to(record: &[u8], id: u16) -> usize {
    (SECTION_0 + HEADER..)
        .step_by(POINTER)
        .find(|&at| record[at..at + 2] == id.to_le_bytes())
        .expect("the record has a pointer of this ID")
}

/// Makes the pointer with an ID point to a part of the record.
pub fn point(record: &mut [u8], id: u16, part: &Range<usize>) {
    let at = pointer_to(record, id);
    record[at + 2..at + 6].copy_from_slice(&(part.len() as u32).to_le_bytes());
    record[at + 6..at + 10].copy_from_slice(&(part.start as u32 + 1).to_le_bytes());
}

/// The part of the record that a pointer points to; of an absent section an empty one.
pub fn section(record: &[u8], id: u16) -> Range<usize> {
    let at = pointer_to(record, id);
    let number = |at| u32::from_le_bytes([0, 1, 2, 3].map(|k| record[at + k])) as usize;
    let start = number(at + 6).saturating_sub(1);
    start..start + number(at + 2)
}

/// Makes the check of a section or a record, in its first two bytes, over all that follow.
pub fn seal(bytes: &mut [u8]) {
    let check = judge::crc(&bytes[2..]);
    bytes[..2].copy_from_slice(&check.to_le_bytes());
}
