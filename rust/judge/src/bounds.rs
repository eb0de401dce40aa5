//! The numbers that bound the work (01, Numbers that bound the work).

use std::ops::RangeInclusive;

/// Bytes of a record.
pub const RECORD: RangeInclusive<usize> = 142..=1_048_576;
/// Pointers of Section 0.
pub const POINTERS: RangeInclusive<usize> = 12..=64;
/// Tables of Section 2.
pub const TABLES: RangeInclusive<usize> = 1..=8;
/// Structures of a table.
pub const STRUCTURES: RangeInclusive<usize> = 1..=64;
/// Leads of Section 3.
pub const LEADS: RangeInclusive<usize> = 1..=32;
/// Samples of a lead or beat.
pub const SAMPLES: RangeInclusive<usize> = 1..=65_536;
/// QRS of Section 4.
pub const QRS: RangeInclusive<usize> = 0..=1024;
/// Difference orders.
pub const ORDERS: RangeInclusive<u8> = 0..=2;
/// The most bytes of a lead's stream, as its count has 2 bytes.
pub const STREAM: usize = 65_535;
