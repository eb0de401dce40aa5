//! Opening a record, its check, and reading leads.

use std::hint::black_box;

use compare::encoding::extremes::wave;
use compare::rhythm::{remainder, tables, two_tables, value, DEFAULT_TABLE};
use judge::make::Rng;
use judge::Writing;
use scp::SAMPLES_MAX;

use crate::measure::Table;
use crate::plain::Crc;

/// Section 1's data behind the identifier: a device (no text in it, 7-bit letters, mains of 50 Hz), a date and a time.
const FIELDS: [u8; 58] = [
    14, 42, 0, 0, 0, 0, 0, 0, 0, 0, 0, 0, 0, 0, 0, 0, 0, 13, 0xA0, 0, 0, 1, 0, 0, 0, 0, 0, 0, 0, 0,
    0, 0, 0, 0, 0, 0, 0, 0, 1, 0, 0, 0, 0, 0, 0, // recording device
    25, 4, 0, 0xE9, 7, 3, 14, // date of recording
    26, 3, 0, 9, 26, 53, // time of recording
];
const END_MARK: [u8; 3] = [255, 0, 0];

/// A record of leads of this many samples each, by these tables, for the patient 007.
pub fn record_of(leads: usize, count: usize, section2: &[u8], order: u8) -> Vec<u8> {
    record_for(b"007", leads, count, section2, order)
}

/// The same for the patient with this identifier.
pub fn record_for(
    identifier: &[u8],
    leads: usize,
    count: usize,
    section2: &[u8],
    order: u8,
) -> Vec<u8> {
    let all = wave(leads * count);
    let head = [2, identifier.len() as u8 + 1, 0]; // the identifier's tag, and its length with the NUL
    let written = judge::write_record(
        &Writing {
            section1: &[&head, identifier, &[0], &FIELDS, &END_MARK].concat(),
            section2,
            version: 13,
            flags: 4 | (leads as u8) << 3, // recorded together
            step: 5000,
            interval: 2000,
            order,
            firsts: &vec![1; leads],
            counts: &vec![count as u32; leads],
            ids: &(1..=leads as u8).collect::<Vec<u8>>(),
            samples: &all,
        },
        usize::MAX,
        usize::MAX,
    );
    written.expect("it is sound")
}

/// Opening a record of 12 x 5,000 samples and reading all its leads.
pub fn record(table: &mut Table) {
    const LEADS: usize = 12;
    const COUNT: usize = 5000;
    let record = record_of(LEADS, COUNT, &DEFAULT_TABLE, 2);
    let bytes = record.len();
    let mut out = vec![0; COUNT];
    assert_eq!(
        scp::open(&record).unwrap().len(),
        judge::open(&record).unwrap().len()
    );
    for place in 1..=LEADS {
        assert_same(&record, place, &mut out);
    }
    table.line(
        "open, 12 x 5,000 samples (19999, order 2)",
        (bytes, "MB"),
        || drop(black_box(scp::open(black_box(&record)))),
        || drop(black_box(judge::open(black_box(&record)))),
    );
    table.line(
        "  one lead of it",
        (COUNT, "Msamples"),
        || by_library(&record, LEADS, &mut out),
        || by_judge(&record, LEADS),
    );
    let mut room = vec![0; COUNT];
    table.line(
        "  open, check and all 12 leads",
        (LEADS * COUNT, "Msamples"),
        || {
            drop(black_box(scp::open(black_box(&record))));
            (1..=LEADS).for_each(|place| by_library(&record, place, &mut room));
        },
        || {
            drop(black_box(judge::open(black_box(&record))));
            (1..=LEADS).for_each(|place| by_judge(&record, place));
        },
    );
}

/// The check of 1 MiB.
pub fn crc(table: &mut Table) {
    let bytes = Rng::new(1).bytes(1 << 20);
    let plain = Crc::new();
    assert_eq!(scp::crc(&bytes), plain.of(&bytes));
    table.line(
        "check of 1 MiB, beside a table-driven loop",
        (bytes.len(), "MB"),
        || {
            black_box(scp::crc(black_box(&bytes)));
        },
        || {
            black_box(plain.of(black_box(&bytes)));
        },
    );
}

/// A lead of 60,000 samples by two tables, and by the default table spelled out.
pub fn engine(table: &mut Table) {
    const COUNT: usize = 60_000;
    for (name, section2) in [
        ("60,000 samples by two tables (EC71, C.2.7.3)", two_tables()),
        (
            "60,000 samples by the default table, spelled out",
            spelled_out(),
        ),
        (
            "60,000 samples by the default table (19999)",
            DEFAULT_TABLE.to_vec(),
        ),
    ] {
        let record = record_of(1, COUNT, &section2, 2);
        let mut out = vec![0; COUNT];
        assert_same(&record, 1, &mut out);
        table.line(
            name,
            (COUNT, "Msamples"),
            || by_library(&record, 1, &mut out),
            || by_judge(&record, 1),
        );
    }
}

/// Has the library read a lead.
pub fn by_library(record: &[u8], place: usize, out: &mut [i16]) {
    let lead = scp::read_lead(black_box(record), place, out, &mut []);
    black_box(lead.expect("it is sound"));
}

fn by_judge(record: &[u8], place: usize) {
    let lead = judge::read_lead(black_box(record), place, SAMPLES_MAX, 0);
    black_box(lead.expect("it is sound"));
}

/// Asks that both read a lead to the same samples.
fn assert_same(record: &[u8], place: usize, out: &mut [i16]) {
    let lead = scp::read_lead(record, place, out, &mut []).unwrap();
    let judged = judge::read_lead(record, place, SAMPLES_MAX, 0).unwrap();
    assert!(out[..lead.count] == judged.samples);
}

// ---- tables

/// The default table as a table of the record's own.
pub fn spelled_out() -> Vec<u8> {
    let mut table = vec![value("0", 0)];
    for k in 1..=8 {
        let ones = "1".repeat(k);
        table.push(value(format!("{ones}00"), k as i16));
        table.push(value(format!("{ones}01"), -(k as i16)));
    }
    table.push(remainder("1111111110", 8));
    table.push(remainder("1111111111", 16));
    tables(&[table])
}
