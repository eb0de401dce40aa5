//! A record judged row by row (01, Refusal numbers).

use crate::finding::Finding;
use crate::{header, leads, record, row, tables};
use std::ops::RangeInclusive;

/// All that breaks the rule of this row, 1 to 9. The answer has a meaning where no smaller row is
/// broken; where one is, it is a guess at what the bytes were meant to be.
pub fn findings(record: &[u8], row: u8) -> Vec<Finding> {
    match row {
        row::LENGTH => record::size(record),
        row::RECORD_CHECK => record::record_check(record),
        row::SECTION_0 => record::section_0(record),
        row::PLACES => record::places(record),
        row::SECTION_CHECK => record::section_checks(record),
        row::SECTION_1 => header::section_1(record),
        row::SECTION_2 => tables::section_2(record),
        row::SECTIONS_3_TO_6 => leads::sections_3_to_6(record),
        row::AGREEMENT => leads::agreement(record),
        _ => Vec::new(),
    }
}

/// Whether the rule of this row is broken.
pub fn breaks(record: &[u8], row: u8) -> bool {
    !findings(record, row).is_empty()
}

/// The findings for the smallest of these rows that is broken.
pub fn smallest(record: &[u8], rows: RangeInclusive<u8>) -> Result<(), Vec<Finding>> {
    for row in rows {
        let found = findings(record, row);
        if !found.is_empty() {
            return Err(found);
        }
    }
    Ok(())
}

/// The number of a refusal for which this was found.
pub fn number(found: &[Finding]) -> u8 {
    found.first().map_or(0, |finding| finding.row)
}
