//! Additions and merges at the edges of the index's rules, laid out by hand: on each side of every bound, with all else right.
//! The right answers are written here from the rules.

use judge::row;

use super::entry;
use crate::draft::{seal, section, Draft, HEADER, SECTION_0};

/// A record that is to be added to an index, and the answer: the bytes in use then, or the refusal.
pub struct Edge {
    /// A description in a few words.
    pub name: String,
    /// The index as it is lent.
    pub index: Vec<u8>,
    /// How many bytes of it are said to be in use.
    pub used: usize,
    /// The record's bytes.
    pub record: Vec<u8>,
    /// The answer.
    pub added: Result<Vec<u8>, u8>,
}

/// Edges, as they are collected.
struct Edges(Vec<Edge>);

/// All of them.
pub fn all() -> Vec<Edge> {
    let mut edges = Edges(Vec::new());
    places(&mut edges);
    dates(&mut edges);
    identifiers(&mut edges);
    leads(&mut edges);
    sample_numbers(&mut edges);
    other_sections(&mut edges);
    room(&mut edges);
    in_use(&mut edges);
    order(&mut edges);
    heads(&mut edges);
    lengths(&mut edges);
    refusals(&mut edges);
    edges.0
}

/// 14 March 2024.
const DAY: [u64; 3] = [2024, 3, 14];
/// Bytes behind those in use, more than enough.
const BEHIND: [u8; 80] = [0xEE; 80];

/// The entry of an identifier by the rules.
fn of(identifier: &[u8], [year, month, day]: [u64; 3], leads: u64) -> Vec<u8> {
    let length = identifier.len() as u64;
    entry([length, year, month, day, leads, 0], identifier)
}

/// Section 1's data.
fn fields(identifier: &[u8], [year, month, day]: [u64; 3]) -> Vec<u8> {
    let [low, high] = (year as u16).to_le_bytes();
    let mut data = vec![2, identifier.len() as u8 + 1, 0];
    data.extend(identifier);
    data.extend([0, 14, 0, 0, 25, 4, 0, low, high, month as u8, day as u8]);
    data.extend([26, 3, 0, 9, 26, 53, 255, 0, 0]);
    data
}

/// Section 3's data: this many leads of samples 1 to 500.
fn spans(leads: u64) -> Vec<u8> {
    let mut data = vec![leads as u8, 0];
    for id in 1..=leads as u8 {
        data.extend([1, 0, 0, 0, 0xF4, 1, 0, 0, id]);
    }
    data
}

/// Sections by ID and data.
type Sections<'a> = &'a [(u16, &'a [u8])];

/// A record of an identifier, with these other sections.
fn record(identifier: &[u8], day: [u64; 3], sections: Sections) -> Vec<u8> {
    let mut draft = Draft::default();
    draft.put(1, &fields(identifier, day));
    for (id, data) in sections {
        draft.put(*id, data);
    }
    draft.lay_out()
}

/// A record with this many leads; with no Section 3 if there are none.
fn with_leads(identifier: &[u8], day: [u64; 3], leads: u64) -> Vec<u8> {
    let section_3 = spans(leads);
    let sections: Sections = &[(3, &section_3)];
    record(identifier, day, if leads == 0 { &[] } else { sections })
}

impl Edges {
    /// Adds a record to these entries, with room to spare. All entries are then these.
    fn accepted(
        &mut self,
        name: impl Into<String>,
        entries: &[Vec<u8>],
        record: Vec<u8>,
        then: &[Vec<u8>],
    ) {
        let used = entries.concat().len();
        self.lent(name, entries, used, record, Ok(then.concat()));
    }

    /// Adds a record to these entries, with room to spare, and is refused.
    fn refused(
        &mut self,
        refusal: u8,
        name: impl Into<String>,
        entries: &[Vec<u8>],
        record: Vec<u8>,
    ) {
        let used = entries.concat().len();
        self.lent(name, entries, used, record, Err(refusal));
    }

    /// Adds a record to these entries, with room to spare, of which this many bytes are said to be in use.
    fn lent(
        &mut self,
        name: impl Into<String>,
        entries: &[Vec<u8>],
        used: usize,
        record: Vec<u8>,
        added: Result<Vec<u8>, u8>,
    ) {
        self.0.push(Edge {
            name: name.into(),
            index: [&entries.concat()[..], &BEHIND].concat(),
            used,
            record,
            added,
        });
    }

    /// Lends only this many bytes of the index to the addition that came last.
    fn lend(&mut self, bytes: usize) {
        if let Some(last) = self.0.last_mut() {
            last.index.truncate(bytes);
        }
    }
}

// ---- where an entry goes

fn places(edges: &mut Edges) {
    let there = [
        of(b"7", DAY, 3),
        of(b"7", DAY, 2),
        of(b"7", [2025, 1, 1], 1),
    ];
    let [one, two, later] = there.clone();
    let mut add = |name, identifier: &[u8], day, place: usize| {
        let record = with_leads(identifier, day, 12);
        let mut then = vec![one.clone(), two.clone(), later.clone()];
        then.insert(place, of(identifier, day, 12));
        edges.accepted(name, &there, record, &then);
    };
    add("007 is not 7", b"007", DAY, 0);
    add("equal ones in the order of arrival", b"7", DAY, 2);
    add("a day earlier", b"7", [2024, 3, 13], 0);
    add("a day later", b"7", [2024, 3, 15], 2);
    add("a month earlier, the day later", b"7", [2024, 2, 31], 0);
    add("a month later, the day earlier", b"7", [2024, 4, 1], 2);
    add("a year earlier, the rest later", b"7", [2023, 12, 31], 0);
    add("a year whose first byte is less", b"7", [2048, 1, 1], 3);
    add("equal to the last", b"7", [2025, 1, 1], 3);
    add("longer, of an earlier date", b"70", [0, 1, 1], 3);
    add("the byte before", b"6", [65_535, 12, 31], 0);
    add("the byte after", b"8", [0, 1, 1], 3);
    add("the byte before, and longer", b"6\xFF\xFF", DAY, 0);
    add("a byte of more than 7 bits", b"\x80", DAY, 3);
    let first = of(b"7", DAY, 0);
    let record = with_leads(b"7", DAY, 0);
    edges.accepted("the first entry", &[], record, &[first]);
}

// ---- rows 24 and 6

fn dates(edges: &mut Edges) {
    let there = [of(b"6", DAY, 1)];
    for date in [[0, 1, 1], [65_535, 12, 31], [2023, 2, 31]] {
        let record = with_leads(b"7", date, 1);
        let then = [there[0].clone(), of(b"7", date, 1)];
        edges.accepted(format!("date {date:?}"), &there, record, &then);
    }
    let beside = [(0, 14), (13, 14), (3, 0), (3, 32), (0, 0)];
    // those that an entry's 4 and 5 bits would take for others
    let cut_off = [(16, 14), (17, 14), (3, 33), (3, 46), (255, 255)];
    for (month, day) in beside.into_iter().chain(cut_off) {
        let name = format!("month {month}, day {day}");
        let record = with_leads(b"7", [2024, month, day], 1);
        edges.refused(row::DATE, name, &there, record);
    }
}

fn identifiers(edges: &mut Edges) {
    let longest: &[u8] = &[0xFF; 63];
    for identifier in [&b"\x01"[..], longest] {
        let name = format!("an identifier of {} bytes", identifier.len());
        let record = with_leads(identifier, DAY, 32);
        edges.accepted(name, &[], record, &[of(identifier, DAY, 32)]);
    }
    for identifier in [&[][..], &[7; 64], b"0\x007"] {
        let name = format!("an identifier field of {} bytes", identifier.len() + 1);
        let record = with_leads(identifier, DAY, 1);
        edges.refused(row::SECTION_1, name, &[], record);
    }
}

// ---- row 8 for Section 3

fn leads(edges: &mut Edges) {
    for leads in [0, 1, 31, 32] {
        let record = with_leads(b"7", DAY, leads);
        let then = [of(b"7", DAY, leads)];
        edges.accepted(format!("{leads} leads"), &[], record, &then);
    }
    let mut none = spans(1);
    none[0] = 0;
    let mut cut = spans(2);
    cut.truncate(18);
    let long = [spans(2), vec![0; 2]].concat();
    for (name, data) in [
        ("a Section 3 of 0 leads", none),
        ("a Section 3 of 33 leads", spans(33)),
        ("Section 3 is cut", cut),
        ("Section 3 has two spare bytes", long),
        ("Section 3 has no data", vec![]),
    ] {
        let record = record(b"7", DAY, &[(3, &data)]);
        edges.refused(row::SECTIONS_3_TO_6, name, &[], record);
    }
}

/// The first and last sample of the last of 32 leads.
fn sample_numbers(edges: &mut Edges) {
    let of_last_lead = |first: u32, last: u32| {
        let mut data = spans(32);
        data[281..285].copy_from_slice(&first.to_le_bytes());
        data[285..289].copy_from_slice(&last.to_le_bytes());
        record(b"7", DAY, &[(3, &data)])
    };
    for (first, last) in [(1, 1), (1, 65_536), (u32::MAX, u32::MAX)] {
        let (name, record) = (
            format!("samples {first} to {last}"),
            of_last_lead(first, last),
        );
        edges.accepted(name, &[], record, &[of(b"7", DAY, 32)]);
    }
    for (first, last) in [(0, 1), (2, 1), (1, 65_537), (1, u32::MAX), (0, 0)] {
        let (name, record) = (
            format!("samples {first} to {last}"),
            of_last_lead(first, last),
        );
        edges.refused(row::SECTIONS_3_TO_6, name, &[], record);
    }
}

/// What Sections 2 and 4 to 6 hold, and which of them are there, is not asked (reading b of Q-13).
fn other_sections(edges: &mut Edges) {
    let spans = spans(2);
    let mut beaten = spans.clone();
    beaten[1] = 1;
    let all: [(&str, u64, Sections); 6] = [
        ("Section 6 without 3", 0, &[(6, &[9; 8])]),
        ("a beat without Sections 4 and 5", 2, &[(3, &beaten)]),
        (
            "a beat without Section 5",
            2,
            &[(3, &beaten), (4, &[0; 8]), (6, &[0; 8])],
        ),
        (
            "Section 6 breaks its rules",
            2,
            &[(3, &spans), (6, &[0; 8])],
        ),
        (
            "Section 2 breaks its rules",
            2,
            &[(2, &[0; 8]), (3, &spans)],
        ),
        ("Section 3 alone", 2, &[(3, &spans)]),
    ];
    for (name, leads, sections) in all {
        let record = record(b"7", DAY, sections);
        edges.accepted(name, &[], record, &[of(b"7", DAY, leads)]);
    }
}

// ---- rows 11 and 26

fn room(edges: &mut Edges) {
    let there = [of(b"007", DAY, 1), of(b"7", DAY, 1)];
    let used = there.concat().len();
    for (identifier, place) in [(&b"00"[..], 0), (b"1", 1), (b"7", 2), (&[b'9'; 63], 2)] {
        let record = with_leads(identifier, DAY, 4);
        let mut then = there.to_vec();
        then.insert(place, of(identifier, DAY, 4));
        let enough = then.concat().len();
        for room in [enough, enough + 1] {
            edges.accepted("just enough room, or more", &there, record.clone(), &then);
            edges.lend(room);
        }
        for room in [enough - 1, used + 1, used] {
            edges.refused(row::ROOM, "too little room", &there, record.clone());
            edges.lend(room);
        }
    }
    edges.refused(row::ROOM, "no room at all", &[], with_leads(b"7", DAY, 1));
    edges.lend(0);
}

fn in_use(edges: &mut Edges) {
    let (one, two) = (of(b"007", DAY, 1), of(b"7", DAY, 1));
    let there = [one.clone(), two.clone(), two.clone()];
    let lent = there.concat().len() + BEHIND.len();
    let record = with_leads(b"8", DAY, 4);
    let new = of(b"8", DAY, 4);
    for (used, entries) in [(0, 0), (8, 1), (14, 2), (20, 3)] {
        let then = [&there[..entries].concat()[..], &new].concat();
        let name = format!("{used} bytes in use");
        edges.lent(name, &there, used, record.clone(), Ok(then));
    }
    let wrong = [1, 4, 5, 7, 9, 13, 15, 19, 21, 25, 26, lent, lent + 1];
    for used in wrong.into_iter().chain([usize::MAX - 5, usize::MAX]) {
        let name = format!("{used} bytes in use, which are no entries");
        edges.lent(name, &there, used, record.clone(), Err(row::INDEX));
    }
}

/// Two entries, of which the second is before the first; and two that are equal but for their leads, which do not count.
fn order(edges: &mut Edges) {
    let record = with_leads(b"\x90", DAY, 4);
    let two = |one: &[u8], other: &[u8]| [of(one, DAY, 1), of(other, DAY, 1)];
    let dated = |one, other| [of(b"7", one, 1), of(b"7", other, 1)];
    for (name, [one, other]) in [
        ("identifiers", two(b"7", b"007")),
        ("identifiers of bytes over 7F hex", two(b"\x80", b"\x7F")),
        ("one that begins with the other", two(b"70", b"7")),
        ("identifiers of one length", two(b"71", b"70")),
        ("years", dated([256, 1, 1], [255, 12, 31])),
        ("months", dated([2024, 4, 1], [2024, 3, 31])),
        ("days", dated([2024, 3, 15], DAY)),
    ] {
        let wrong = [one.clone(), other.clone()];
        let name = format!("{name} not in order");
        edges.refused(row::INDEX, name, &wrong, record.clone());
        let right = [other.clone(), one.clone()];
        let then = [other, one, of(b"\x90", DAY, 4)];
        edges.accepted("in order", &right, record.clone(), &then);
    }
    for leads in [[1, 2], [2, 1]] {
        let equal = leads.map(|leads| of(b"7", DAY, leads));
        let then = [equal[0].clone(), equal[1].clone(), of(b"\x90", DAY, 4)];
        let name = format!("equal ones of {leads:?} leads");
        edges.accepted(name, &equal, record.clone(), &then);
    }
}

/// Each number of an entry at its bounds and beyond them, in the first entry and in the last.
fn heads(edges: &mut Edges) {
    let record = with_leads(b"8", DAY, 4);
    let new = of(b"8", DAY, 4);
    let right = [1, 2024, 3, 14, 12, 0];
    let numbers: [(usize, &[u64], &[u64]); 5] = [
        (1, &[0, 1, 255, 256, 65_535], &[]),
        (2, &[1, 2, 12], &[0, 13, 14, 15]),
        (3, &[1, 2, 31], &[0]),
        (4, &[0, 1, 31, 32], &[33, 34, 64, 127, 128, 255]),
        (5, &[0], &[1]),
    ];
    for (place, inside, outside) in numbers {
        for &number in inside.iter().chain(outside) {
            let mut head = right;
            head[place] = number;
            let (first, last) = (entry(head, b"6"), entry(head, b"7"));
            for entries in [[first, of(b"7", DAY, 1)], [of(b"6", DAY, 1), last]] {
                let name = format!("number {place} of an entry: {number}");
                let then = [entries[0].clone(), entries[1].clone(), new.clone()];
                match outside.contains(&number) {
                    true => edges.refused(row::INDEX, name, &entries, record.clone()),
                    false => edges.accepted(name, &entries, record.clone(), &then),
                }
            }
        }
    }
}

/// Lengths that are not those of their identifiers, and NULs in identifiers.
fn lengths(edges: &mut Edges) {
    let record = with_leads(b"8", DAY, 4);
    for (length, bytes) in [
        (0, &b""[..]),
        (0, b"7"),
        (2, b"7"),
        (1, b"77"),
        (63, &[b'7'; 62]),
    ] {
        let entries = [entry([length, 2024, 3, 14, 12, 0], bytes)];
        let name = format!("length {length} with {} bytes", bytes.len());
        edges.refused(row::INDEX, name, &entries, record.clone());
    }
    for bytes in [&b"\x007"[..], b"7\0", b"\0"] {
        let entries = [of(bytes, DAY, 1)];
        let name = format!("a NUL in {bytes:?}");
        edges.refused(row::INDEX, name, &entries, record.clone());
    }
}

// ---- the order of refusals

/// Records that break the rules of a row and of all rows after it, with too little room: the smallest of 1 to 8 is given, then
/// 24, then 11; and 26 before all of them.
fn refusals(edges: &mut Edges) {
    let (one, two) = (of(b"7", DAY, 1), of(b"007", DAY, 1));
    let sound = [two.clone(), one.clone()];
    let room = sound.concat().len() + 3;
    for (refusal, record) in broken_records() {
        let name = format!("{refusal} and all after it");
        edges.refused(refusal, name, &sound, record.clone());
        edges.lend(room);
        let name = format!("26, {refusal} and all after it");
        let broken = [one.clone(), two.clone()];
        edges.refused(row::INDEX, name, &broken, record);
        edges.lend(room);
    }
}

/// For each refusal a record that breaks its rule and those after it.
fn broken_records() -> Vec<(u8, Vec<u8>)> {
    let no_date = fields(b"7", [2024, 13, 0]);
    let no_leads: &[u8] = &[0, 0];
    let with = |section_1: &[u8], section_3: &[u8]| {
        let mut draft = Draft::default();
        draft.put(1, section_1);
        draft.put(3, section_3);
        draft.lay_out()
    };
    let mut record = with(&[9, 9], no_leads);
    let mut all = vec![
        (row::ROOM, with_leads(b"7", DAY, 1)),
        (row::DATE, with(&no_date, &spans(1))),
        (row::SECTIONS_3_TO_6, with(&no_date, no_leads)),
        (row::SECTION_1, record.clone()),
    ];
    let own_check = section(&record, 3).start;
    let own_id = own_check + 2;
    let letter = SECTION_0 + HEADER - 1;
    for (row, at) in [
        (row::SECTION_CHECK, own_check),
        (row::PLACES, own_id),
        (row::SECTION_0, letter),
    ] {
        record[at] ^= 1;
        seal(&mut record);
        all.push((row, record.clone()));
    }
    record[0] ^= 1;
    all.push((row::RECORD_CHECK, record.clone()));
    record.push(0);
    all.push((row::LENGTH, record));
    all
}

// ---- merging

/// Two indexes that are to be merged, and the answer: the index of both, or the refusal.
pub struct Merge {
    /// A description in a few words.
    pub name: String,
    /// The first index.
    pub a: Vec<u8>,
    /// The second one.
    pub b: Vec<u8>,
    /// How many bytes the output has.
    pub room: usize,
    /// The answer.
    pub merged: Result<Vec<u8>, u8>,
}

/// Merges, as they are collected.
struct Merges(Vec<Merge>);

/// All of them.
pub fn merges() -> Vec<Merge> {
    let mut merges = Merges(Vec::new());
    empty(&mut merges);
    pairs(&mut merges);
    equal(&mut merges);
    many(&mut merges);
    output(&mut merges);
    no_index(&mut merges);
    merges.0
}

impl Merges {
    /// Merges these entries, with just enough room and with more. All entries are then these.
    fn accepted(&mut self, name: &str, a: &[Vec<u8>], b: &[Vec<u8>], then: &[Vec<u8>]) {
        let (a, b, then) = (a.concat(), b.concat(), then.concat());
        for room in [then.len(), then.len() + 1, then.len() + BEHIND.len()] {
            self.lent(name, [&a, &b], room, Ok(then.clone()));
        }
    }

    /// Merges these bytes with this much room.
    fn lent(&mut self, name: &str, [a, b]: [&[u8]; 2], room: usize, merged: Result<Vec<u8>, u8>) {
        self.0.push(Merge {
            name: format!("{name}: {} and {} bytes into {room}", a.len(), b.len()),
            a: a.to_vec(),
            b: b.to_vec(),
            room,
            merged,
        });
    }
}

fn empty(merges: &mut Merges) {
    let there = [of(b"007", DAY, 1), of(b"7", DAY, 1)];
    merges.accepted("two empty ones", &[], &[], &[]);
    merges.accepted("the first is empty", &[], &there, &there);
    merges.accepted("the second is empty", &there, &[], &there);
}

/// Two entries, the lesser first: whichever of the two indexes has it, it comes first.
fn pairs(merges: &mut Merges) {
    let two = |one: &[u8], other: &[u8]| [of(one, DAY, 1), of(other, DAY, 1)];
    let dated = |one, other| [of(b"7", one, 1), of(b"7", other, 1)];
    let ends_with = |byte| [vec![b'7'; 62], vec![byte]].concat();
    for (name, [one, other]) in [
        ("007 is not 7", two(b"007", b"7")),
        ("the bytes before the lengths", two(b"70", b"8")),
        ("bytes over 7F hex", two(b"\x7F", b"\x80")),
        ("the least byte and the greatest", two(b"\x01", b"\xFF")),
        ("one that begins with the other", two(b"7", b"70")),
        ("a longer one by its least byte", two(b"7", b"7\x01")),
        ("one of 62 bytes, one of 63", two(&[b'7'; 62], &[b'7'; 63])),
        (
            "the last byte of 63",
            two(&ends_with(b'7'), &ends_with(b'8')),
        ),
        ("years", dated([255, 12, 31], [256, 1, 1])),
        (
            "the first year and the last",
            dated([0, 1, 1], [65_535, 1, 1]),
        ),
        ("months", dated([2024, 2, 31], [2024, 3, 1])),
        ("months of two digits", dated([2024, 9, 1], [2024, 10, 1])),
        ("days", dated([2024, 3, 15], [2024, 3, 16])),
        (
            "the identifier before the date",
            [of(b"7", [65_535, 12, 31], 1), of(b"70", [0, 1, 1], 1)],
        ),
        (
            "the date before the leads",
            [of(b"7", DAY, 32), of(b"7", [2024, 3, 15], 0)],
        ),
    ] {
        let then = [one.clone(), other.clone()];
        let (one, other) = ([one], [other]);
        merges.accepted(name, &one, &other, &then);
        merges.accepted(name, &other, &one, &then);
        // all of one index, then all of the other
        let both = [&one[..], &one, &other, &other].concat();
        merges.accepted(name, &both[..2], &both[2..], &both);
        merges.accepted(name, &both[2..], &both[..2], &both);
        merges.accepted(name, &then, &then, &both);
    }
}

/// Entries of the same identifier and date: those of the first index come first, whatever their leads.
fn equal(merges: &mut Merges) {
    let [one, two, three, four] = [0, 1, 2, 32].map(|leads| of(b"7", DAY, leads));
    for (a, b) in [(&one, &four), (&four, &one), (&two, &two), (&three, &two)] {
        let (a, b) = ([a.clone()], [b.clone()]);
        merges.accepted("two equal ones", &a, &b, &[&a[..], &b].concat());
    }
    let (a, b) = ([four, one, two.clone()], [three.clone(), two, three]);
    merges.accepted("several equal ones", &a, &b, &[&a[..], &b].concat());
    merges.accepted("several equal ones", &b, &a, &[&b[..], &a].concat());
    // one before them and one behind them, in either index
    let (least, greatest) = ([of(b"6", DAY, 3)], [of(b"70", DAY, 3)]);
    let then = [&least[..], &a, &b, &greatest].concat();
    let first = [&least[..], &a, &greatest].concat();
    merges.accepted("equal ones inside the first", &first, &b, &then);
    let second = [&least[..], &b, &greatest].concat();
    merges.accepted("equal ones inside the second", &a, &second, &then);
}

/// Eight entries, two of them equal, shared out between two indexes in every way.
fn many(merges: &mut Merges) {
    let all = [
        of(b"0", [2025, 1, 1], 1),
        of(b"007", DAY, 2),
        of(b"007", DAY, 1),
        of(b"007", [2024, 3, 15], 0),
        of(b"7", [2023, 12, 31], 32),
        of(b"7", DAY, 0),
        of(b"70", [0, 1, 1], 3),
        of(b"\xFF", DAY, 4),
    ];
    for shares in 0..1 << all.len() {
        let is_in_a = |place: usize| shares >> place & 1 == 1;
        let [a, b] = [true, false].map(|wanted| {
            let places = (0..all.len()).filter(|&place| is_in_a(place) == wanted);
            places.map(|place| all[place].clone()).collect::<Vec<_>>()
        });
        let mut then = all.clone();
        // of the two equal ones, that of the first index comes first
        if is_in_a(2) && !is_in_a(1) {
            then.swap(1, 2);
        }
        merges.accepted("shared out", &a, &b, &then);
    }
}

// ---- rows 11 and 26 of merging

fn output(merges: &mut Merges) {
    let (a, b) = (of(b"7", DAY, 1), [of(b"007", DAY, 1), of(b"8", DAY, 1)]);
    let b = b.concat();
    let enough = a.len() + b.len();
    for room in [0, 1, a.len(), b.len(), enough - 1] {
        merges.lent("too little room", [&a, &b], room, Err(row::ROOM));
    }
    for room in [0, a.len() - 1] {
        merges.lent("too little room", [&a, &[]], room, Err(row::ROOM));
        merges.lent("too little room", [&[], &a], room, Err(row::ROOM));
    }
}

/// Bytes that are no index, as either of two or as both: 26 comes before 11.
fn no_index(merges: &mut Merges) {
    let sound = [of(b"007", DAY, 1), of(b"7", DAY, 1)].concat();
    let unordered = [of(b"7", DAY, 1), of(b"007", DAY, 1)].concat();
    let dates = [of(b"7", [2024, 3, 15], 1), of(b"7", DAY, 1)].concat();
    let with_nul = [of(b"7", DAY, 1), of(b"8\0", DAY, 1)].concat();
    let no_month = entry([1, 2024, 13, 14, 12, 0], b"7");
    let with_bit = entry([1, 2024, 3, 14, 12, 1], b"7");
    for (name, broken) in [
        ("one byte", &[0][..]),
        ("a byte is missing", &sound[..sound.len() - 1]),
        ("a byte too many", &[&sound[..], &[0]].concat()),
        ("the first byte is missing", &sound[1..]),
        ("identifiers not in order", &unordered),
        ("dates not in order", &dates),
        ("a NUL", &with_nul),
        ("month 13", &no_month),
        ("the bit that is 0", &with_bit),
    ] {
        for other in [&sound, &[][..]] {
            let enough = broken.len() + other.len();
            for room in [0, enough - 1, enough, enough + 1] {
                merges.lent(name, [broken, other], room, Err(row::INDEX));
                merges.lent(name, [other, broken], room, Err(row::INDEX));
            }
        }
        for room in [0, 2 * broken.len()] {
            merges.lent(name, [broken, broken], room, Err(row::INDEX));
            merges.lent(name, [broken, &unordered], room, Err(row::INDEX));
        }
    }
}
