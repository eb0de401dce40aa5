//! The record: its check, opening it, and its rules one by one.

use crate::raw;
use crate::Refusal;

/// The most bytes that a record has.
pub const RECORD_MAX: usize = 1_048_576;

/// A pointer of Section 0, as it is stored.
#[derive(Clone, Copy, Debug, PartialEq, Eq)]
pub struct Pointer {
    /// The section's ID.
    pub id: u16,
    /// The section's length in bytes with its header; 0 if it is absent.
    pub length: u32,
    /// The offset of its first byte in the record, counted from 1. Any number if it is absent.
    pub index: u32,
}

impl Pointer {
    /// Whether the section is in the record.
    pub fn is_present(&self) -> bool {
        self.length != 0
    }
}

/// The check of these bytes (CRC-CCITT).
pub fn crc(bytes: &[u8]) -> u16 {
    // SAFETY: the pointer and the length are those of a slice lent for the call, which only reads it.
    unsafe { raw::scp_crc(bytes.as_ptr(), bytes.len()) }
}

/// Opens a record: each pointer of Section 0 as it is stored, or the smallest of 1 to 6 that applies.
pub fn open(record: &[u8]) -> Result<Vec<Pointer>, Refusal> {
    let mut numbers = [0; raw::POINTERS_ROOM];
    // SAFETY: `record` is lent for the call, which only reads it; `numbers` has the room that the call asks for.
    let opened = unsafe { raw::scp_open(record.as_ptr(), record.len(), numbers.as_mut_ptr()) };
    Refusal::or(opened.refusal, ())?;
    let stored = numbers.chunks_exact(3).take(opened.count as usize);
    Ok(stored.map(pointer).collect())
}

/// Whether a record breaks the rule of a row, 1 to 9, asked alone; of any other row, false. The answer means its row where
/// the rules of all smaller rows are kept.
pub fn breaks(record: &[u8], row: u8) -> bool {
    // SAFETY: the pointer and the length are those of a slice lent for the call, which only reads it.
    unsafe { raw::scp_breaks(record.as_ptr(), record.len(), row) != 0 }
}

/// The pointer that three numbers of the answer make. Its ID was stored in two bytes, so it fits.
fn pointer(numbers: &[u32]) -> Pointer {
    Pointer {
        id: numbers[0] as u16,
        length: numbers[1],
        index: numbers[2],
    }
}
