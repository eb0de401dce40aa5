//! Records to be filed in an index, and the index of them by the judge.

use scp::Job;

use super::record::{put, seal};

/// A date: the year, the month and the day.
pub type Date = (u16, u8, u8);

/// The date of the samples.
pub const SAMPLES: Date = (2024, 3, 14);

/// A record of this patient and date with so many leads, or with neither Section 3 nor Section 6.
pub fn record(identifier: &[u8], (year, month, day): Date, leads: usize) -> Vec<u8> {
    let [low, high] = year.to_le_bytes();
    let mut section1 = vec![2, identifier.len() as u8 + 1, 0];
    section1.extend(identifier);
    section1.extend([0, 14, 0, 0, 25, 4, 0, low, high, month, day]);
    section1.extend([26, 3, 0, 9, 26, 53, 255, 0, 0]);
    let written = leads.max(1);
    let job = Job {
        section1: &section1,
        section2: &[],
        version: 13,
        flags: 0,
        step: 5000,
        interval: 2000,
        order: 0,
        firsts: &vec![1; written],
        counts: &vec![2; written],
        ids: &vec![1; written],
        samples: &vec![7; 2 * written],
    };
    let mut record = scp::written(&job).unwrap();
    if leads == 0 {
        for id in [3, 6] {
            put(&mut record, 6 + 16 + 10 * id + 2, 0);
        }
        seal(&mut record);
    }
    record
}

/// The index of these records, by the judge.
pub fn built<'a>(records: impl IntoIterator<Item = &'a Vec<u8>>) -> Vec<u8> {
    judge::built_index(records.into_iter().map(Vec::as_slice))
}
