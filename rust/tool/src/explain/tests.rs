//! Tests of the explanations: all that is refused is explained, in words that are worth reading.

use judge::make::{aimed, noise, Rng};
use judge::{row, CodeFault, Fault, Finding, FrameFault, Needs, Part, What, ZoneFault};
use scp::Refusal;

use super::{disagreement, explained, found, found_in_adding, line, seen, Looked, Subject};
use crate::input::Size;

fn looked(record: &[u8], place: usize) -> Looked<'_> {
    Looked {
        record,
        size: Size::Exactly(record.len() as u64),
        place,
    }
}

/// A stream has one fault, and its words are those of the refusal.
fn expected(refusal: Refusal) -> &'static str {
    match refusal {
        Refusal::CODE => "no value for",
        Refusal::SAMPLE => "sample",
        Refusal::LEFT_OVER_BITS => "bits are left",
        _ => "",
    }
}

/// Whatever is refused is explained, by something that is wrong with it, and both implementations agree on the number.
#[test]
fn every_refusal_is_explained() {
    let mut rng = Rng::new(1);
    let mut explained = Vec::new();
    let mut explain = |record: &[u8], place, refusal: Refusal| {
        let lines = found(&looked(record, place), refusal);
        assert!(!lines[0].contains("DISAGREEMENT"), "{lines:?}");
        assert!(lines.iter().all(|line| !line.contains('\n')), "{lines:?}");
        let words = expected(refusal);
        assert!(lines[0].contains(words), "{refusal}: {lines:?}");
        explained.push(refusal);
    };
    for turn in 0..3000 {
        let record = match (turn % 15) as u8 {
            0 => noise(&mut rng),
            row => aimed(&mut rng, row),
        };
        if let Err(refusal) = scp::open(&record) {
            explain(&record, 1, refusal);
        }
        let leads = scp::lead(&record, 1).map_or(0, |entry| entry.leads);
        for place in 0..=leads + 1 {
            if let Err(refusal) = scp::samples(&record, place) {
                explain(&record, place, refusal);
            }
        }
    }
    let reading = Refusal::all().filter(|&refusal| refusal <= Refusal::LEFT_OVER_BITS);
    let never: Vec<_> = reading.filter(|one| !explained.contains(one)).collect();
    assert_eq!(never, [Refusal::ROOM]);
}

/// The same where records are added to an index.
#[test]
fn every_refusal_of_adding_is_explained() {
    let mut rng = Rng::new(6);
    let mut explained = Vec::new();
    for turn in 0..1500 {
        let record = match (turn % 15) as u8 {
            0 => noise(&mut rng),
            row => aimed(&mut rng, row),
        };
        let mut index = [0; scp::ENTRY_MAX];
        let Err(refusal) = scp::index_add(&mut index, 0, &record) else {
            continue;
        };
        let lines = found_in_adding(&looked(&record, 1), refusal);
        assert!(!lines[0].contains("DISAGREEMENT"), "{lines:?}");
        let is_date = lines[0].contains(" of tag 25 is ");
        assert_eq!(is_date, refusal == Refusal::DATE, "{lines:?}");
        explained.push(refusal.number());
    }
    explained.sort();
    explained.dedup();
    assert_eq!(explained, [1, 2, 3, 4, 5, 6, 8, 24]);
}

/// No bytes, and no number, upset it.
#[test]
fn any_bytes_may_be_looked_at() {
    let mut rng = Rng::new(2);
    for turn in 0..2800 {
        let mut record = aimed(&mut rng, 1 + (turn % 14) as u8);
        for _ in 0..rng.below(4) {
            let at = rng.below(record.len());
            if let Some(byte) = record.get_mut(at) {
                *byte = rng.byte();
            }
        }
        record.truncate(rng.below(2 * record.len() + 1));
        for place in [0, 1, 2, 33, usize::MAX] {
            found(&looked(&record, place), Refusal::LENGTH);
            found_in_adding(&looked(&record, place), Refusal::LENGTH);
        }
        for refusal in Refusal::all() {
            seen(&looked(&record, 1), refusal);
        }
    }
}

/// Where the two implementations differ, that is the first thing that is said.
#[test]
fn a_disagreement_is_said_first() {
    assert_eq!(disagreement(row::SECTION_2, row::SECTION_2), None);
    let said = disagreement(row::SECTION_2, row::SECTIONS_3_TO_6).unwrap();
    assert!(said.starts_with("DISAGREEMENT: "), "{said}");
    assert!(
        said.contains("number 7") && said.contains("number 8"),
        "{said}"
    );
    let said = disagreement(row::SECTION_2, 0).unwrap();
    assert!(said.contains("accepts it"), "{said}");

    let none = judge::findings(&[], row::LENGTH);
    let subject = Subject::Record(Size::Exactly(0));
    let lines = explained(Refusal::SECTION_1, &none, subject);
    assert_eq!(lines.len(), 2, "{lines:?}");
    assert!(lines[0].contains("number 6"), "{lines:?}");
    assert!(lines[0].contains("number 1."), "{lines:?}");
    assert!(lines[1].starts_with("the length is 0 bytes"), "{lines:?}");
    let lines = explained(Refusal::SECTION_1, &[], subject);
    assert_eq!(lines.len(), 1, "{lines:?}");
    assert!(lines[0].contains("accepts it"), "{lines:?}");
}

/// A finding of a section, in words.
fn told(section: u16, part: Part, fault: impl Into<Fault>) -> String {
    let finding = Finding {
        row: 0,
        section: Some(section),
        offset: None,
        part,
        fault: fault.into(),
    };
    line(&finding, Subject::Record(Size::Exactly(1000)))
}

#[test]
fn places_are_told_in_plain_words() {
    let inside = |start| FrameFault::InSection0 { start, end: 142 };
    assert_eq!(
        told(1, Part::Whole, inside(142)),
        "Section 1 starts inside Section 0, which ends at byte 142"
    );
    assert_eq!(
        told(1, Part::Whole, inside(3)),
        "Section 1 starts at byte 3, before Section 0, which ends at byte 142"
    );
    let past = FrameFault::PastEnd {
        start: 900,
        end: 1001,
        size: 1000,
    };
    assert_eq!(
        told(6, Part::Whole, past),
        "Section 6 (bytes 900 to 1001) ends after the record's last byte, 1000"
    );
}

#[test]
fn code_structures_are_told_in_plain_words() {
    let part = Part::Structure { table: 1, place: 3 };
    let switch = |table, tables| CodeFault::SwitchTo { table, tables };
    let base = |code, prefix_bits| CodeFault::BaseCode { code, prefix_bits };
    let prefixes = |own: &str, other: &str| CodeFault::Prefixes {
        own: own.to_string(),
        place: 2,
        other: other.to_string(),
    };
    for (fault, words) in [
        (
            base(0x1F00_0000, 1),
            "base code 0x1F000000 does not fit its 1-bit prefix",
        ),
        (switch(0, 2), "switches to table 0; only 1 and 2 exist"),
        (switch(9, 8), "switches to table 9; only 1 to 8 exist"),
        (
            prefixes("11111", "11111"),
            "prefix 11111 is that of structure 2, too",
        ),
        (
            prefixes("1", "10"),
            "prefix 1 begins that of structure 2, 10",
        ),
    ] {
        let expected = format!("table 1, structure 3: {words}");
        assert_eq!(told(2, part, fault), expected);
    }
}

#[test]
fn numbers_are_told_with_their_bounds() {
    let number = |section, part, what, found, expected| {
        let fault = Fault::Number {
            what,
            found,
            expected,
        };
        told(section, part, fault)
    };
    for (told, words) in [
        (
            number(2, Part::Whole, What::Tables, 9, 1..=8),
            "the number of tables is 9, not 1 to 8 or 19999",
        ),
        (
            number(6, Part::Whole, What::Order, 3, 0..=2),
            "Section 6's order is 3, not 0 to 2",
        ),
        (
            number(5, Part::Whole, What::Step, 0, 1..=i64::MAX),
            "Section 5's step is 0",
        ),
        (
            number(0, Part::Pointer(14), What::PointerId, 128, 201..=65_535),
            "pointer 14 has ID 128, not over 200",
        ),
        (
            number(3, Part::Lead(2), What::Samples, 65_537, 1..=65_536),
            "lead 2: it has 65,537 samples, not 1 to 65,536",
        ),
        (
            number(7, Part::Whole, What::SectionLength, 14, 16..=i64::MAX),
            "Section 7 has length 14, under 16",
        ),
    ] {
        assert_eq!(told, words);
    }
}

#[test]
fn zones_and_short_data_are_told_in_plain_words() {
    let zone = ZoneFault::OfType {
        qrs_type: 256,
        start: 101,
        end: 300,
    };
    assert_eq!(
        told(4, Part::Qrs(2), zone),
        "QRS 2: type 256 must have zone 0 to 0; it has 101 to 300"
    );
    let short = Fault::Short {
        needs: Needs::Leads(2),
        bytes: 20,
        left: 1,
    };
    assert_eq!(
        told(3, Part::Whole, short),
        "Section 3 has 1 byte of data; 2 leads take 20"
    );
}
