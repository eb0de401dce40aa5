//! Refused input has findings, all of the refusal's row and inside the record; accepted input has none.

use judge::make::{self, Rng};
use judge::{
    findings, job_findings, lead_findings, read_lead, row, write_record, CodeFault, Fault, Finding,
    Part, What,
};

/// Lends room for anything.
const ROOM: usize = usize::MAX;

#[track_caller]
fn agree(number: u8, found: &[Finding], bytes: usize) {
    assert_eq!(found.is_empty(), number == 0, "{number}: {found:?}");
    for finding in found {
        assert_eq!(finding.row, number, "{finding:?}");
        let offset = finding.offset.unwrap_or(1);
        assert!((1..=bytes + 1).contains(&offset), "{finding:?} of {bytes}");
    }
}

#[test]
fn leads_are_refused_for_what_is_found() {
    for seed in 0..2_800 {
        let rng = &mut Rng::new(seed);
        let record = match (seed % 15) as u8 {
            0 => make::several(rng),
            row => make::aimed(rng, row),
        };
        for place in 0..=3 {
            let read = read_lead(&record, place, ROOM, ROOM);
            let number = read.map_or_else(|refused| refused.number, |_| 0);
            agree(number, &lead_findings(&record, place), record.len());
        }
    }
}

#[test]
fn jobs_are_refused_for_what_is_found() {
    let mut refused = 0;
    for seed in 0..600 {
        let call = make::to_write(&mut Rng::new(seed));
        let written = write_record(&call.writing(), ROOM, ROOM);
        let number = written.map_or_else(|refused| refused.number, |_| 0);
        let bytes = call.section1.len().max(call.section2.len());
        agree(number, &job_findings(&call.writing()), bytes);
        refused += u32::from(number != 0);
    }
    assert!(refused > 50, "{refused}");
}

/// A table of two structures in a record that has nothing else wrong: where the second is, and what it has.
#[test]
fn a_finding_says_where_it_stands() {
    let tables = [
        1, 0, 2, 0, 1, 1, 1, 0, 0, 0, 0, 0, 0, 1, 1, 0, 9, 0, 3, 0, 0, 0,
    ];
    let mut call = make::to_write(&mut Rng::new(1));
    (call.section1, call.section2) = (FIELDS.to_vec(), tables.to_vec());
    (call.firsts, call.counts, call.ids) = (vec![1], vec![1], vec![1]);
    (call.samples, call.order, call.step, call.interval) = (vec![0], 0, 1, 1);
    let found = job_findings(&call.writing());
    let part = Part::Structure { table: 1, place: 2 };
    let faults = [
        CodeFault::BaseCode {
            code: 3,
            prefix_bits: 1,
        },
        CodeFault::SwitchTo {
            table: 9,
            tables: 1,
        },
    ];
    let expected = faults.map(|fault| Finding {
        row: row::SECTION_2,
        section: Some(2),
        offset: Some(14),
        part,
        fault: fault.into(),
    });
    assert_eq!(found, expected);
}

const FIELDS: [u8; 24] = [
    2, 2, 0, b'7', 0, 14, 0, 0, 25, 4, 0, 0xE8, 7, 3, 14, 26, 3, 0, 9, 26, 53, 255, 0, 0,
];

#[test]
fn a_number_is_found_with_what_is_expected() {
    let mut call = make::to_write(&mut Rng::new(1));
    (call.ids, call.order) = (Vec::new(), 7);
    let found = job_findings(&call.writing());
    let expected = |what, found, expected| Fault::Number {
        what,
        found,
        expected,
    };
    assert_eq!(found[0].fault, expected(What::Leads, 0, 1..=32));
    let order = expected(What::Order, 7, 0..=2);
    assert!(found.iter().any(|finding| finding.fault == order));
    assert!(findings(&[], row::LENGTH).len() == 1 && findings(&[], 0).is_empty());
}
