//! The auditor's index, rule by rule (02, Q-13), and merging. Bytes of entries are written out by
//! hand.

use judge::make::{self, mend, mend_size, Rng};
use judge::{built_index, index_add, index_entry, index_find, index_merge, index_step, row};

/// A date that all entries can have: 14 March 2024, as tag 25 has it.
const DATE: [u8; 4] = [0xE8, 0x07, 3, 14];
/// A lead of one sample, ID 1.
const LEAD: [u8; 9] = [1, 0, 0, 0, 1, 0, 0, 0, 1];

/// A record with these sections behind twelve pointers, each with even data.
fn with_sections(sections: &[(u8, &[u8])]) -> Vec<u8> {
    let mut bytes = [&[0; 10][..], &[136, 0, 0, 0, 0, 0], b"SCPECG"].concat();
    for id in 0..12 {
        bytes.extend([id, 0, 0, 0, 0, 0, 0, 0, 0, 0]);
    }
    (bytes[24], bytes[28]) = (136, 7);
    for (id, data) in sections {
        let length = (16 + data.len() as u32).to_le_bytes();
        let index = (bytes.len() as u32 + 1).to_le_bytes();
        let pointer = 22 + 10 * usize::from(*id);
        bytes[pointer + 2..pointer + 10].copy_from_slice(&[length, index].concat());
        bytes.extend([0, 0, *id, 0]);
        bytes.extend([&length[..], &[0; 8], data].concat());
    }
    mend_size(&mut bytes);
    mend(&mut bytes);
    bytes
}

/// Section 1's data.
fn fields(identifier: &[u8], date: [u8; 4]) -> Vec<u8> {
    let length = identifier.len() as u8 + 1;
    let start = [&[2, length, 0], identifier, &[0, 14, 0, 0, 25, 4, 0], &date].concat();
    let mut data = [&start[..], &[26, 3, 0, 9, 26, 53, 255, 0, 0]].concat();
    data.resize(data.len().next_multiple_of(2), 0);
    data
}

/// Section 3's data with this many leads, and this spare byte if it is odd.
fn leads(number: usize) -> Vec<u8> {
    let mut data = [&[number as u8, 0], &LEAD.repeat(number)[..]].concat();
    data.resize(data.len().next_multiple_of(2), 0);
    data
}

/// A record of this identifier, date and number of leads; without Section 3 if that is 0.
fn record(identifier: &[u8], date: [u8; 4], number: usize) -> Vec<u8> {
    let (section_1, section_3) = (fields(identifier, date), leads(number));
    let sections = [(1, &section_1[..]), (3, &section_3)];
    with_sections(&sections[..if number == 0 { 1 } else { 2 }])
}

/// The index of records, added one by one with room to spare; it is what is built afresh.
fn added(records: &[Vec<u8>]) -> Vec<u8> {
    let mut index = Vec::new();
    for record in records {
        let used = index.len();
        index.resize(used + 100, 0xEE);
        index = index_add(&index, used, record).expect("it is added");
    }
    assert_eq!(index, built_index(records.iter().map(Vec::as_slice)));
    index
}

/// The identifiers of an index, in its order.
fn identifiers(index: &[u8]) -> Vec<&[u8]> {
    steps(index).map(|step| step.entry.identifier).collect()
}

fn steps(index: &[u8]) -> impl Iterator<Item = judge::IndexStep<'_>> {
    let first = index_step(index, 0);
    std::iter::successors(first, |step| index_step(index, step.next))
}

/// Of 14 March 2024 with 12 leads: 000011 0000011111101000 0011 01110 00001100 0, then 007.
const OF_007: [u8; 8] = [0x0C, 0x1F, 0xA0, 0xDC, 0x18, b'0', b'0', b'7'];
/// Of 31 December 65535 with 32 leads: 000001 1111111111111111 1100 11111 00100000 0, then 7.
const OF_7: [u8; 6] = [0x07, 0xFF, 0xFF, 0x3E, 0x40, b'7'];

#[test]
fn entries_by_hand() {
    assert_eq!(added(&[record(b"007", DATE, 12)]), OF_007);
    assert_eq!(added(&[record(b"7", [0xFF, 0xFF, 12, 31], 32)]), OF_7);
    // 111111 0000000000000000 0001 00001 00000000 0
    let longest = [&[0xFC, 0x00, 0x00, 0x42, 0x00][..], &[0xFF; 63]].concat();
    assert_eq!(added(&[record(&[0xFF; 63], [0, 0, 1, 1], 0)]), longest);
}

#[test]
fn two_people_007_and_7() {
    let records = [
        record(b"7", [0xFF, 0xFF, 12, 31], 32),
        record(b"007", DATE, 12),
    ];
    let index = added(&records);
    assert_eq!(index, [&OF_007[..], &OF_7].concat());
    let find = |identifier: &[u8]| index_find(&index, 14, identifier);
    assert_eq!(find(b"007"), Ok(0..8));
    assert_eq!(find(b"7"), Ok(8..14));
    // nothing is trimmed, and none of these can be in an index
    for identifier in [&b"07"[..], b"0", b"00", b"0077", b"", b"007\0", &[b'7'; 64]] {
        assert_eq!(find(identifier), Ok(0..0));
    }
}

#[test]
fn identifiers_by_their_bytes() {
    let rising: [&[u8]; 9] = [
        b"\x01",
        b"007",
        b"0070",
        b"01",
        b"7",
        b"7\x01",
        b"77",
        b"\x7F\xFF",
        b"\x80",
    ];
    for turn in 0..rising.len() {
        let mut order = rising;
        order.rotate_left(turn);
        order[1..].reverse();
        let index = added(&order.map(|identifier| record(identifier, DATE, 1)));
        assert_eq!(identifiers(&index), rising);
    }
}

#[test]
fn dates_by_year_month_and_day() {
    let rising = [
        (0, 12, 31),
        (1, 12, 1),
        (255, 2, 31),
        (256, 1, 31),
        (256, 2, 1),
        (256, 12, 1),
        (65_535, 1, 1),
        (65_535, 1, 2),
    ];
    let record = |(year, month, day): (u16, u8, u8)| {
        let [low, high] = year.to_le_bytes();
        record(b"A", [low, high, month, day], 1)
    };
    let mut records = rising.map(record);
    records.reverse();
    records.swap(1, 6);
    let index = added(&records);
    let dates = steps(&index).map(|step| (step.entry.year, step.entry.month, step.entry.day));
    assert_eq!(dates.collect::<Vec<_>>(), rising);
}

#[test]
fn equal_ones_in_the_order_of_arrival() {
    let arrived = [12, 0, 32, 1, 12, 2];
    let mut records = vec![record(b"B", DATE, 7), record(b"A", [0xE8, 7, 3, 15], 8)];
    records.extend(arrived.map(|number| record(b"A", DATE, number)));
    let index = added(&records);
    let leads: Vec<_> = steps(&index).map(|step| step.entry.leads).collect();
    assert_eq!(leads, [12, 0, 32, 1, 12, 2, 8, 7]);
    assert_eq!(index_find(&index, index.len(), b"A"), Ok(0..42));
    assert_eq!(index_find(&index, index.len(), b"B"), Ok(42..48));
}

#[test]
fn dates_that_no_entry_has() {
    let number = |date| index_entry(&record(b"A", date, 1)).err().unwrap_or(0);
    for (month, day) in [(1, 1), (12, 31), (2, 31), (4, 31)] {
        assert_eq!(number([0, 0, month, day]), 0);
        assert_eq!(number([0xFF, 0xFF, month, day]), 0);
    }
    for (month, day) in [
        (0, 1),
        (13, 1),
        (1, 0),
        (1, 32),
        (17, 1),
        (1, 33),
        (255, 255),
    ] {
        assert_eq!(number([0xE8, 7, month, day]), row::DATE);
    }
}

#[test]
fn section_3_by_its_own_rules() {
    let section_1 = fields(b"A", DATE);
    let leads_of = |sections: &[(u8, &[u8])]| {
        let sections = [&[(1, &section_1[..])], sections].concat();
        index_entry(&with_sections(&sections)).map(|entry| entry.leads)
    };
    assert_eq!(leads_of(&[]), Ok(0));
    assert_eq!(leads_of(&[(3, &leads(1))]), Ok(1));
    assert_eq!(leads_of(&[(3, &leads(32))]), Ok(32));
    for number in [0, 33, 255] {
        assert_eq!(leads_of(&[(3, &leads(number))]), Err(8));
    }
    let with = |at: usize, byte| {
        let mut data = leads(1);
        data[at] = byte;
        data
    };
    assert_eq!(leads_of(&[(3, &with(2, 0))]), Err(8), "first sample 0");
    assert_eq!(leads_of(&[(3, &with(2, 2))]), Err(8), "first after last");
    assert_eq!(leads_of(&[(3, &with(8, 1))]), Err(8), "65,537 samples");
    assert_eq!(leads_of(&[(3, &with(0, 2))]), Err(8), "cut");
    let longer = [leads(1), vec![0; 2]].concat();
    assert_eq!(leads_of(&[(3, &longer)]), Err(8), "three spare bytes");
    // what the other sections hold, and which are there, is not asked
    assert_eq!(leads_of(&[(6, &[9; 8])]), Ok(0));
    assert_eq!(leads_of(&[(3, &with(1, 1))]), Ok(1), "bit 0, no beat");
    assert_eq!(leads_of(&[(3, &with(1, 1)), (4, &[9; 2])]), Ok(1));
    assert_eq!(leads_of(&[(2, &[9; 2]), (3, &leads(1))]), Ok(1));
    assert_eq!(leads_of(&[(3, &leads(1)), (6, &[0; 8])]), Ok(1));
}

#[test]
fn refusals_in_their_order() {
    let index = [OF_007, [9; 8]].concat();
    let number = |used, record: &[u8]| index_add(&index, used, record).err().unwrap_or(0);
    let mut section_3 = leads(1);
    section_3[0] = 0;
    let no_date = fields(b"A", [0; 4]);
    let broken = with_sections(&[(1, &no_date), (3, &section_3)]);
    let undated = record(b"A", [0; 4], 1);
    let long = record(b"ABCD", DATE, 1);
    let mut unchecked = broken.clone();
    unchecked[0] ^= 1;
    for used in [7, 9, 17, usize::MAX] {
        for record in [&[][..], &unchecked, &broken, &undated, &long] {
            assert_eq!(number(used, record), row::INDEX);
        }
    }
    assert_eq!(number(8, &[]), row::LENGTH);
    assert_eq!(number(8, &unchecked), row::RECORD_CHECK);
    assert_eq!(number(8, &broken), row::SECTIONS_3_TO_6);
    assert_eq!(number(8, &undated), row::DATE);
    assert_eq!(number(8, &long), row::ROOM);
    assert_eq!(number(8, &record(b"ABC", DATE, 1)), 0);
    assert_eq!(number(0, &long), 0);
}

#[test]
fn room_for_just_the_entry() {
    let (records, mut index) = ([record(b"7", DATE, 0), record(b"007", DATE, 12)], vec![]);
    for record in records {
        let used = index.len();
        let size = 5 + index_entry(&record).expect("an entry").identifier.len();
        index.resize(used + size - 1, 0);
        assert_eq!(index_add(&index, used, &record), Err(row::ROOM));
        index.push(0);
        index = index_add(&index, used, &record).expect("it is added");
        assert_eq!(index.len(), used + size);
    }
}

#[test]
fn bytes_that_are_no_index() {
    let number = |bytes: &[u8]| index_find(bytes, bytes.len(), b"A").err().unwrap_or(0);
    let sound = [&OF_007[..], &OF_7, &OF_7].concat();
    assert_eq!(number(&[]), 0);
    assert_eq!(number(&sound), 0);
    assert_eq!(number(&[&OF_7[..], &OF_007].concat()), row::INDEX);
    assert_eq!(number(&sound[1..]), row::INDEX);
    for used in (0..=sound.len() + 2).chain([usize::MAX]) {
        let whole = [0, 8, 14, 20].contains(&used);
        assert_eq!(index_find(&sound, used, b"A").is_ok(), whole, "{used}");
    }
    // 000011 0000011111101000 0011 01110 00001100 0, changed in one number
    for (head, what) in [
        ([0x0C, 0x1F, 0xA0, 0x1C, 0x18], "month 0"),
        ([0x0C, 0x1F, 0xA3, 0x5C, 0x18], "month 13"),
        ([0x0C, 0x1F, 0xA3, 0xDC, 0x18], "month 15"),
        ([0x0C, 0x1F, 0xA0, 0xC0, 0x18], "day 0"),
        ([0x0C, 0x1F, 0xA0, 0xDC, 0x42], "33 leads"),
        ([0x0C, 0x1F, 0xA0, 0xDD, 0xFE], "255 leads"),
        ([0x0C, 0x1F, 0xA0, 0xDC, 0x19], "the bit 1"),
        ([0x00, 0x1F, 0xA0, 0xDC, 0x18], "no identifier"),
        ([0x08, 0x1F, 0xA0, 0xDC, 0x18], "a byte less"),
        ([0x10, 0x1F, 0xA0, 0xDC, 0x18], "a byte more"),
    ] {
        let bytes = [&head, &OF_007[5..]].concat();
        assert_eq!(number(&bytes), row::INDEX, "{what}");
    }
    assert_eq!(number(&[0x00, 0x1F, 0xA0, 0xDC, 0x18]), row::INDEX);
    for at in 5..8 {
        let mut bytes = OF_007;
        bytes[at] = 0;
        assert_eq!(number(&bytes), row::INDEX, "NUL at {at}");
    }
}

#[test]
fn steps_at_any_place() {
    let bytes = [&OF_007[..], &OF_7, &[0x0C, 0x1F]].concat();
    let step = index_step(&bytes, 8).expect("an entry");
    let (entry, places) = (step.entry, (step.start, step.next));
    assert_eq!((entry.identifier, entry.year), (&b"7"[..], 65_535));
    assert_eq!((entry.month, entry.day, entry.leads), (12, 31, 32));
    assert_eq!(places, (13, 14));
    for at in [14, 15, 16, 17, usize::MAX - 4, usize::MAX] {
        assert_eq!(index_step(&bytes, at), None);
    }
    // the order is not judged, and an entry is whole within what was lent
    let other = [&OF_7[..], &OF_007].concat();
    assert_eq!(identifiers(&other), [&b"7"[..], b"007"]);
    assert_eq!(identifiers(&other[..13]), [b"7"]);
}

#[test]
fn one_by_one_is_built_afresh() {
    let mut entries = 0;
    for seed in 0..400 {
        let rng = &mut Rng::new(seed);
        let records = make::to_index(rng);
        let mut index = Vec::new();
        for record in &records {
            let used = index.len();
            index.resize(used + 68, rng.byte());
            match index_add(&index, used, record) {
                Ok(added) => index = added,
                Err(_) => index.truncate(used),
            }
        }
        assert_eq!(index, built_index(records.iter().map(Vec::as_slice)));
        assert!(steps(&index).all(|step| index.len() >= step.next));
        entries += steps(&index).count();
    }
    assert!(entries > 2_000, "{entries}");
}

#[test]
fn two_are_merged() {
    let both = [&OF_007[..], &OF_7].concat();
    assert_eq!(index_merge(&OF_7, &OF_007, 14), Ok(both.clone()));
    assert_eq!(index_merge(&OF_007, &OF_7, 15), Ok(both.clone()));
    let with_itself = [&OF_007[..], &OF_007, &OF_7, &OF_7].concat();
    assert_eq!(index_merge(&both, &both, 28), Ok(with_itself));
    assert_eq!(index_merge(&both, &[], 14), Ok(both.clone()));
    assert_eq!(index_merge(&[], &both, 14), Ok(both));
    assert_eq!(index_merge(&[], &[], 0), Ok(vec![]));
}

#[test]
fn equal_ones_of_the_first_come_first() {
    let of = |leads: &[usize]| {
        let records = leads.iter().map(|&leads| record(b"A", DATE, leads));
        records.collect::<Vec<_>>()
    };
    let (one, other) = (added(&of(&[12, 0, 3])), added(&of(&[1, 32, 3, 2])));
    let later = added(&[record(b"A", [0xE8, 7, 3, 15], 8), record(b"B", DATE, 7)]);
    let leads = |a: &[u8], b: &[u8]| {
        let merged = index_merge(a, b, 99).expect("both are indexes");
        let leads: Vec<_> = steps(&merged).map(|step| step.entry.leads).collect();
        leads
    };
    assert_eq!(leads(&one, &other), [12, 0, 3, 1, 32, 3, 2]);
    assert_eq!(leads(&other, &one), [1, 32, 3, 2, 12, 0, 3]);
    let other = [other, later].concat();
    assert_eq!(leads(&one, &other), [12, 0, 3, 1, 32, 3, 2, 8, 7]);
    assert_eq!(leads(&other, &one), [1, 32, 3, 2, 12, 0, 3, 8, 7]);
}

#[test]
fn merging_is_refused_in_its_order() {
    let (sound, broken) = ([OF_007, OF_007].concat(), [&OF_7[..], &OF_007].concat());
    for room in [0, 29, 30, 99] {
        assert_eq!(index_merge(&sound, &broken, room), Err(row::INDEX));
        assert_eq!(index_merge(&broken, &sound, room), Err(row::INDEX));
        assert_eq!(index_merge(&broken, &broken, room), Err(row::INDEX));
        assert_eq!(index_merge(&sound, &sound[1..], room), Err(row::INDEX));
        assert_eq!(index_merge(&sound[..15], &[], room), Err(row::INDEX));
    }
    for (room, answer) in [(0, 11), (8, 11), (21, 11), (22, 0), (23, 0)] {
        let number = index_merge(&sound, &OF_7, room).err().unwrap_or(0);
        assert_eq!(number, answer, "room {room}");
    }
}

#[test]
fn runs_merged_are_built_afresh() {
    let mut merges = 0;
    for seed in 0..400 {
        let rng = &mut Rng::new(seed);
        let records = make::to_index(rng);
        let records: Vec<_> = records.iter().map(Vec::as_slice).collect();
        let (mut index, mut left) = (Vec::new(), &records[..]);
        while !left.is_empty() {
            let (run, behind) = left.split_at(rng.within(1..=left.len()));
            let more = built_index(run.iter().copied());
            let room = index.len() + more.len();
            index = index_merge(&index, &more, room).expect("both are indexes");
            (left, merges) = (behind, merges + 1);
        }
        assert_eq!(index, built_index(records));
    }
    assert!(merges > 800, "{merges}");
}

#[test]
fn broken_indexes_are_mostly_refused() {
    let refused = (0..2_000).filter(|&seed| {
        let index = make::broken_index(&mut Rng::new(seed));
        index_find(&index.bytes, index.used, b"007") == Err(row::INDEX)
    });
    let refused = refused.count();
    assert!((1_000..1_900).contains(&refused), "{refused}");
}
