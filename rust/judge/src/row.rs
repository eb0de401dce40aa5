//! The rows of the table of refusals, by name (01, Refusal numbers), and the numbers that requests
//! add (02).

pub const LENGTH: u8 = 1;
pub const RECORD_CHECK: u8 = 2;
pub const SECTION_0: u8 = 3;
pub const PLACES: u8 = 4;
pub const SECTION_CHECK: u8 = 5;
pub const SECTION_1: u8 = 6;
pub const SECTION_2: u8 = 7;
pub const SECTIONS_3_TO_6: u8 = 8;
/// Bimodal compression, or steps or intervals that differ.
pub const AGREEMENT: u8 = 9;
pub const ABSENT: u8 = 10;
pub const ROOM: u8 = 11;
pub const CODE: u8 = 12;
pub const SAMPLE: u8 = 13;
pub const LEFT_OVER_BITS: u8 = 14;
pub const NO_STREAM: u8 = 15;
pub const TOO_LONG: u8 = 16;
pub const WRITER_BOUNDS: u8 = 17;
/// A date that no entry of the index can have (02, Q-13).
pub const DATE: u8 = 24;
/// Bytes in use that are no index, or more than was lent (02, Q-13).
pub const INDEX: u8 = 26;
