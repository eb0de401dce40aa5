//! The index: looking up an identifier, adding a record, listing all entries, and merging two indexes, beside a plain loop.

use std::hint::black_box;

use compare::rhythm::DEFAULT_TABLE;
use scp::ENTRY_MAX;

use crate::measure::Table;
use crate::plain::{self, Entry};
use crate::reading::record_for;

/// The entries that each patient has.
const VISITS: usize = 2;
/// How far apart patients' numbers are: some between them are missing.
const APART: usize = 3;
const LEADS: u8 = 12;
const COUNT: usize = 500;
/// How many entries are few beside all of them.
const FEW: usize = 1_000;

/// All lines, in an index of this many entries.
pub fn all(table: &mut Table, entries: usize) {
    let index: Vec<u8> = (0..entries).flat_map(made).collect();
    let (middle, last) = (entries / VISITS / 2, (entries - 1) / VISITS);
    let first = format!("index of {} entries, find the first", grouped(entries));
    for (name, asked) in [
        (first.as_str(), number(0)),
        ("  find one in the middle", number(middle)),
        ("  find the last", number(last)),
        ("  find one that is missing", missing(middle)),
    ] {
        find(table, name, &index, entries, asked.as_bytes());
    }
    for (name, added) in [
        ("  add a record at the front", digits(0)),
        ("  add one in the middle", missing(middle)),
        ("  add one at the end", missing(last)),
    ] {
        add(table, name, &index, entries, added.as_bytes());
    }
    list(table, &index, entries);
    merge_all(table, &index, entries);
}

/// The lines of merging: all entries, from two indexes, and few more among all.
fn merge_all(table: &mut Table, index: &[u8], entries: usize) {
    let each_second = |from: usize| (from..entries).step_by(2).flat_map(made).collect();
    let [even, odd]: [Vec<u8>; 2] = [0, 1].map(each_second);
    merge(
        table,
        "  merge two, entries of both in turns",
        [&even, &odd],
        entries,
    );
    merge_few(table, index, entries);
    let (before, behind) = index.split_at(even.len());
    merge(
        table,
        "  merge two, one behind the other",
        [before, behind],
        entries,
    );
}

/// What is done with an index again and again: few entries merged into it, one added, one looked up. How long each takes.
pub fn worked_with(table: &mut Table, index: &[u8], entries: usize) -> [f64; 3] {
    let middle = entries / VISITS / 2;
    let [new, old] = [missing(middle), number(middle)];
    [
        merge_few(table, index, entries),
        add(
            table,
            "  add one in the middle",
            index,
            entries,
            new.as_bytes(),
        ),
        find(
            table,
            "  find one in the middle",
            index,
            entries,
            old.as_bytes(),
        ),
    ]
}

/// A number with a comma before each three digits.
pub fn grouped(number: usize) -> String {
    let digits = number.to_string();
    let groups = digits.as_bytes().rchunks(3).rev();
    let groups: Vec<_> = groups.map(String::from_utf8_lossy).collect();
    groups.join(",")
}

/// The identifier of a patient.
fn number(patient: usize) -> String {
    digits(APART * patient + 1)
}

/// An identifier that no patient has. It comes behind that of this patient.
fn missing(patient: usize) -> String {
    digits(APART * patient + 2)
}

fn digits(number: usize) -> String {
    format!("{number:08}")
}

/// The bytes of the entry at a place of the index, from 0. All entries have one size.
pub fn made(place: usize) -> Vec<u8> {
    let patient = place / VISITS;
    entry(&number(patient), 1 + place % VISITS, 1 + patient % 28)
}

fn entry(identifier: &str, month: usize, day: usize) -> Vec<u8> {
    let entry = Entry {
        identifier: identifier.as_bytes(),
        date: plain::date(2024, month as u8, day as u8),
        leads: LEADS,
    };
    entry.bytes()
}

/// The index of few entries that an index of so many lacks, spread over all of it.
fn few_between(entries: usize) -> Vec<u8> {
    let patient = |at| at * entries / VISITS / FEW;
    let made = |at| entry(&missing(patient(at)), 1, 1);
    (0..FEW).flat_map(made).collect()
}

/// A line of the table, over so many entries; the seconds that the library takes.
pub fn line<A, B>(
    table: &mut Table,
    name: &str,
    entries: usize,
    mut library: impl FnMut() -> A,
    mut plain: impl FnMut() -> B,
) -> f64 {
    table.line(
        name,
        (entries, "Mentries"),
        || drop(black_box(library())),
        || drop(black_box(plain())),
    )
}

/// Looking up an identifier. Both sides judge the whole index.
fn find(table: &mut Table, name: &str, index: &[u8], entries: usize, asked: &[u8]) -> f64 {
    let by_library = || scp::index_find(black_box(index), index.len(), asked);
    let by_plain = || plain::index_find(black_box(index), asked);
    let part = by_plain().expect("it is an index");
    assert_eq!(by_library(), Ok(&index[part]));
    line(table, name, entries, by_library, by_plain)
}

/// Adding a record, time after time. All entries have one size, so that the last one falls out of what is in use each time,
/// and the rest is an index again.
fn add(table: &mut Table, name: &str, index: &[u8], entries: usize, identifier: &[u8]) -> f64 {
    let record = record_for(identifier, LEADS.into(), COUNT, &DEFAULT_TABLE, 2);
    let used = index.len();
    let [mut library, mut plain] = [(); 2].map(|()| [index, &[0; ENTRY_MAX]].concat());
    let answer = scp::index_add(&mut library, used, &record);
    assert_eq!(answer.ok(), plain::index_add(&mut plain, used, &record));
    assert!(library == plain);
    let by_library = || scp::index_add(&mut library, used, black_box(&record));
    let by_plain = || plain::index_add(&mut plain, used, black_box(&record));
    line(table, name, entries, by_library, by_plain)
}

/// Listing all entries by steps: a call of the library for each.
fn list(table: &mut Table, index: &[u8], entries: usize) {
    let by_library = || scp::index_entries(black_box(index)).map(|entry| usize::from(entry.leads));
    let by_plain = || plain::index_entries(black_box(index)).map(|entry| usize::from(entry.leads));
    assert!(by_library().eq(by_plain()));
    assert_eq!(by_library().count(), entries);
    let name = "  list all entries by steps";
    let by_library = || by_library().sum::<usize>();
    let by_plain = || by_plain().sum::<usize>();
    line(table, name, entries, by_library, by_plain);
}

/// Merging few entries, spread over all of the index, into it.
fn merge_few(table: &mut Table, index: &[u8], entries: usize) -> f64 {
    let few = few_between(entries);
    merge(
        table,
        "  merge 1,000 entries into it",
        [index, &few],
        entries + FEW,
    )
}

/// Merging two indexes, which have so many entries together, into room that is lent. Both sides judge both.
fn merge(table: &mut Table, name: &str, [a, b]: [&[u8]; 2], entries: usize) -> f64 {
    let [mut library, mut plain] = [(); 2].map(|()| vec![0; a.len() + b.len()]);
    let answer = scp::index_merge(a, b, &mut library);
    assert_eq!(answer, Ok(library.len()));
    assert_eq!(answer.ok(), plain::index_merge(a, b, &mut plain));
    assert!(library == plain);
    let by_library = || scp::index_merge(black_box(a), b, &mut library);
    let by_plain = || plain::index_merge(black_box(a), b, &mut plain);
    line(table, name, entries, by_library, by_plain)
}
