//! Every call on a thread with a small stack: 64 KiB for those on the header and on the index, 256 KiB for those that read,
//! encode and write leads, which have room of their own.

use std::ops::Range;
use std::thread;

use compare::encoding::{self, Job};
use compare::extremes;
use compare::index::{self, merging};
use compare::inputs::{self, Kind};
use compare::largest::{largest, Filling};
use compare::writing::{self, counts::Counts, edges};
use judge::make::{self, Arrival, Rng, ToWrite};
use judge::{row, Refused};
use scp::{Pointer, Refusal};

const STACK: usize = 64 * 1024;
const STACK_FOR_LEADS: usize = 256 * 1024;

/// The answers of every call on a record.
#[derive(Debug, PartialEq)]
struct Answers {
    crc: u16,
    open: Result<Vec<(u16, u32, u32)>, u8>,
    found: [Result<Range<usize>, u8>; 4],
    section: Result<Range<usize>, u8>,
    fields: usize,
    same: bool,
    /// The bytes in use of an index that it is added to.
    added: Result<Vec<u8>, u8>,
}

/// An entry of 7, to which a record is added.
const ENTRY: [u8; 6] = [0x07, 0xFF, 0xFF, 0x3E, 0x40, b'7'];

/// The entry of 7, and room for another one.
fn index_of_one() -> Vec<u8> {
    [&ENTRY[..], &[0; scp::ENTRY_MAX]].concat()
}

const ASKED: [(u8, usize); 4] = [(2, 1), (30, 2), (30, usize::MAX), (255, 1)];

fn library(record: &[u8]) -> Answers {
    let number = Refusal::number;
    let stored = |p: Pointer| (p.id, p.length, p.index);
    let mut index = index_of_one();
    let used = scp::index_add(&mut index, ENTRY.len(), record);
    Answers {
        crc: scp::crc(record),
        open: scp::open(record)
            .map(|all| all.into_iter().map(stored).collect())
            .map_err(number),
        found: ASKED.map(|(tag, occurrence)| scp::field(record, tag, occurrence).map_err(number)),
        section: scp::walk_start(record).map_err(number),
        fields: scp::fields(record).map_or(0, Iterator::count),
        same: scp::same_identifier(record, record),
        added: used.map(|used| index[..used].to_vec()).map_err(number),
    }
}

fn judge(record: &[u8]) -> Answers {
    let stored = |p: judge::Pointer| (p.id, p.length, p.index);
    let section = judge::walk_start(record);
    let fields = section.clone().map_or(0, |section| {
        let section = &record[section];
        let first = judge::walk_step(section, scp::FIRST_FIELD);
        std::iter::successors(first, |step| judge::walk_step(section, step.next)).count()
    });
    Answers {
        crc: judge::crc(record),
        open: judge::open(record).map(|all| all.into_iter().map(stored).collect()),
        found: ASKED.map(|(tag, occurrence)| judge::field(record, tag, occurrence)),
        section,
        fields,
        same: judge::same_identifier(record, record),
        added: judge::index_add(&index_of_one(), ENTRY.len(), record),
    }
}

/// Makes the library's calls on a small stack.
fn on_a_small_stack(records: Vec<Vec<u8>>) -> Vec<Answers> {
    let calls = move || records.iter().map(|record| library(record)).collect();
    let thread = thread::Builder::new().stack_size(STACK).spawn(calls);
    thread.unwrap().join().unwrap()
}

#[test]
fn the_largest_records_fit_a_small_stack() {
    let records: Vec<_> = [Filling::EmptyFields, Filling::LongFields]
        .map(largest)
        .into();
    let answers = on_a_small_stack(records.clone());
    for (answers, record) in answers.iter().zip(&records) {
        assert_eq!(answers.open.as_ref().map(Vec::len), Ok(64));
        assert!(*answers == judge(record));
    }
    assert!(answers[0].fields > 300_000);
}

#[test]
fn made_records_fit_a_small_stack() {
    let make = |number| inputs::make(Kind::of(number), &mut Rng::new(number));
    let records: Vec<_> = (0..500).map(make).collect();
    let answers = on_a_small_stack(records.clone());
    for (answers, record) in answers.iter().zip(&records) {
        assert_eq!(*answers, judge(record));
    }
}

// ---- the index

const ENTRIES: u64 = 200_000;

/// An index of many entries of 14 March 2024, all in use: the identifier of each by its number.
fn large(identifier: impl Fn(u64) -> String) -> Vec<u8> {
    let one = |number| {
        let identifier = identifier(number);
        let head = [identifier.len() as u64, 2024, 3, 14, number % 33, 0];
        index::entry(head, identifier.as_bytes())
    };
    (0..ENTRIES).map(one).collect::<Vec<_>>().concat()
}

/// An identifier, a record of it with 12 leads, and an index with just enough room for its entry; and what is right.
struct Filing {
    identifier: Vec<u8>,
    record: Vec<u8>,
    index: Vec<u8>,
    added: Result<Vec<u8>, u8>,
    found: Result<Range<usize>, u8>,
}

impl Filing {
    fn new(identifier: &str, index: &[u8]) -> Filing {
        let arrival = Arrival {
            identifier: identifier.into(),
            date: [0xE8, 7, 3, 14],
            leads: Some(12),
        };
        let record = arrival.record(&mut Rng::new(9));
        let used = index.len();
        let index = [index, &vec![0xEE; index::HEAD + identifier.len()]].concat();
        Filing {
            added: judge::index_add(&index, used, &record),
            found: judge::index_find(&index, used, identifier.as_bytes()),
            identifier: arrival.identifier,
            record,
            index,
        }
    }

    /// Has the library look it up, and add it with just enough room and with one byte less.
    fn by_library(&self, used: usize, rng: &mut Rng) -> Result<(), String> {
        let found = scp::index_find(&self.index, used, &self.identifier).map_err(Refusal::number);
        let place = found.map(|part| {
            let start = part.as_ptr() as usize - self.index.as_ptr() as usize;
            start..start + part.len()
        });
        assert_eq!(place, self.found);
        index::by_library(&self.index, used, &self.record, &self.added, rng)?;
        let short = &self.index[..self.index.len() - 1];
        index::by_library(short, used, &self.record, &Err(row::ROOM), rng)
    }
}

/// Steps over an index, looks up identifiers in it and adds records of them, on a small stack, and holds all answers to the
/// judge's. The index is not on the stack.
fn indexed_on_a_small_stack(index: &[u8], identifiers: &[&str]) {
    let filings: Vec<_> = identifiers
        .iter()
        .map(|identifier| Filing::new(identifier, index))
        .collect();
    let calls = || {
        assert_eq!(scp::index_entries(index).count() as u64, ENTRIES);
        let rng = &mut Rng::new(5);
        filings
            .iter()
            .try_for_each(|filing| filing.by_library(index.len(), rng))
    };
    let answer = thread::scope(|scope| {
        let thread = thread::Builder::new().stack_size(STACK);
        thread.spawn_scoped(scope, calls).unwrap().join().unwrap()
    });
    assert_eq!(answer, Ok(()));
}

/// Merges two indexes on a small stack, with just enough room and with one byte less, and holds the answers to the judge's.
/// What is lent is not on the stack.
fn merged_on_a_small_stack(a: &[u8], b: &[u8]) {
    let both = a.len() + b.len();
    let merged = judge::index_merge(a, b, both);
    assert!(merged.is_ok());
    let calls = || {
        let rng = &mut Rng::new(5);
        merging::by_library(a, b, both, &merged, rng)?;
        merging::by_library(a, b, both - 1, &Err(row::ROOM), rng)
    };
    let answer = thread::scope(|scope| {
        let thread = thread::Builder::new().stack_size(STACK);
        thread.spawn_scoped(scope, calls).unwrap().join().unwrap()
    });
    assert_eq!(answer, Ok(()));
}

#[test]
fn large_indexes_fit_a_small_stack() {
    let many_people = large(|number| format!("{:06}", 2 * number + 2));
    indexed_on_a_small_stack(&many_people, &["0", "200000", "200001", "400001"]);
    let one_person = large(|_| "007".to_string());
    indexed_on_a_small_stack(&one_person, &["00", "007"]);
    let others = large(|number| format!("{:06}", 2 * number + 1));
    merged_on_a_small_stack(&many_people, &others);
    merged_on_a_small_stack(&one_person, &one_person);
    merged_on_a_small_stack(&one_person, &many_people[many_people.len() - 11..]);
}

// ---- leads

/// The answers of the calls on a record's leads.
#[derive(Debug, PartialEq)]
struct Leads {
    broken: Option<u8>,
    entry: Result<(u8, u32, u32, u32), u8>,
    read: [Result<ReadLead, u8>; 3],
}

/// How many structures were compared, and the samples.
type ReadLead = (u32, Vec<i16>);

/// The first lead, the last that there can be, and one that there cannot be.
const PLACES: [usize; 3] = [1, 32, 33];

fn library_leads(record: &[u8], rooms: &mut [Vec<i16>; 2]) -> Leads {
    let [out, work] = rooms;
    Leads {
        broken: (row::LENGTH..=row::AGREEMENT).find(|&row| scp::breaks(record, row)),
        entry: scp::lead(record, 1)
            .map(|entry| (entry.id, entry.first, entry.last, entry.bytes as u32))
            .map_err(Refusal::number),
        read: PLACES.map(|place| {
            let lead = scp::read_lead(record, place, out, work).map_err(Refusal::number)?;
            Ok((lead.compared, out[..lead.count].to_vec()))
        }),
    }
}

fn judge_leads(record: &[u8]) -> Leads {
    let room = scp::SAMPLES_MAX;
    Leads {
        broken: (row::LENGTH..=row::AGREEMENT).find(|&row| judge::breaks(record, row)),
        entry: judge::lead(record, 1).map(|entry| (entry.id, entry.first, entry.last, entry.bytes)),
        read: PLACES.map(|place| {
            let read = judge::read_lead(record, place, room, room);
            read.map(|lead| (lead.compared, lead.samples))
                .map_err(|refused| refused.number)
        }),
    }
}

/// Makes the library's calls on leads on a small stack. The room that is lent is not on it.
fn leads_on_a_small_stack(records: Vec<Vec<u8>>) -> Vec<Leads> {
    let calls = move || {
        let mut rooms = [vec![0; scp::SAMPLES_MAX], vec![0; scp::SAMPLES_MAX]];
        let leads = |record: &Vec<u8>| library_leads(record, &mut rooms);
        records.iter().map(leads).collect()
    };
    let thread = thread::Builder::new()
        .stack_size(STACK_FOR_LEADS)
        .spawn(calls);
    thread.unwrap().join().unwrap()
}

#[test]
fn the_extremes_fit_a_small_stack() {
    let records: Vec<_> = extremes::all().map(|extreme| extreme.record).collect();
    let leads = leads_on_a_small_stack(records.clone());
    for ((leads, record), extreme) in leads.iter().zip(&records).zip(extremes::all()) {
        let read = leads.read[0].clone().map(|(compared, _)| compared);
        assert_eq!(read, extreme.read, "{}", extreme.name);
        assert!(*leads == judge_leads(record), "{}", extreme.name);
    }
}

#[test]
fn made_leads_fit_a_small_stack() {
    let make = |number| inputs::make(Kind::of(number), &mut Rng::new(number));
    let records: Vec<_> = (0..500).map(make).collect();
    let leads = leads_on_a_small_stack(records.clone());
    for (leads, record) in leads.iter().zip(&records) {
        assert!(*leads == judge_leads(record));
    }
}

// ---- encoding

/// Encodes leads on a small stack, each with more room than it needs, then with an output of just enough, then of one byte
/// less, and holds all answers to the judge's. The room that is lent is not on the stack.
fn encoded_on_a_small_stack(jobs: &[Job], names: &[&str]) {
    let (work, room) = (8 * scp::SAMPLES_MAX, scp::STREAM_MAX + 1);
    for (job, name) in jobs.iter().zip(names) {
        let judged = job.judged(work, room);
        let mut expected = vec![(room, judged.clone())];
        if let Ok(coded) = &judged {
            let short = Refused {
                number: row::ROOM,
                work_cleared: coded.work_cleared,
            };
            expected.push((coded.bytes.len(), judged.clone()));
            expected.push((coded.bytes.len() - 1, Err(short)));
        }
        let calls = || {
            let rng = &mut Rng::new(5);
            let mut calls = expected.iter();
            calls
                .try_for_each(|(out, answer)| job.by_library((work, *out), answer, rng).map(|_| ()))
        };
        let answer = thread::scope(|scope| {
            let thread = thread::Builder::new().stack_size(STACK_FOR_LEADS);
            thread.spawn_scoped(scope, calls).unwrap().join().unwrap()
        });
        assert_eq!(answer, Ok(()), "{name}");
    }
}

#[test]
fn the_longest_searches_fit_a_small_stack() {
    let extremes = encoding::extremes::all();
    let jobs: Vec<_> = extremes.iter().map(|extreme| extreme.job()).collect();
    let names: Vec<_> = extremes.iter().map(|extreme| extreme.name).collect();
    encoded_on_a_small_stack(&jobs, &names);
}

#[test]
fn made_leads_to_encode_fit_a_small_stack() {
    let calls: Vec<_> = (0..300)
        .map(|seed| make::to_encode(&mut Rng::new(seed)))
        .collect();
    let jobs: Vec<_> = calls.iter().map(Job::from).collect();
    encoded_on_a_small_stack(&jobs, &vec!["made"; jobs.len()]);
}

// ---- writing

/// Writes records on a small stack, each with just enough room, then with an output of one byte less, then with one byte of
/// work space less, and holds all answers to the judge's; then reads back what was written. The room that is lent is not on
/// the stack.
fn written_on_a_small_stack(job: &ToWrite, name: &str) -> Result<Vec<u8>, Refused> {
    let job = job.writing();
    let judged = judge::write_record(&job, usize::MAX, usize::MAX);
    let (work, has_tables) = (writing::work_of(&job), !job.section2.is_empty());
    let out = judged.as_ref().map_or(0, Vec::len);
    let mut expected = vec![(work, out, judged.clone())];
    if judged.is_ok() {
        let short = Refused {
            number: row::ROOM,
            work_cleared: has_tables,
        };
        expected.push((work, out - 1, Err(short)));
        if has_tables {
            expected.push((work - 1, out, Err(Refused::untouched(11))));
        }
    }
    let calls = || {
        let rng = &mut Rng::new(5);
        for (work, out, answer) in &expected {
            writing::by_library(&job, (*work, *out), answer, rng)?;
        }
        match &judged {
            Ok(record) => writing::read_back(&job, record, &mut Counts::default()),
            Err(_) => Ok(()),
        }
    };
    let answer = thread::scope(|scope| {
        let thread = thread::Builder::new().stack_size(STACK_FOR_LEADS);
        thread.spawn_scoped(scope, calls).unwrap().join().unwrap()
    });
    assert_eq!(answer, Ok(()), "{name}");
    judged
}

#[test]
fn the_largest_jobs_fit_a_small_stack() {
    for edge in edges::largest() {
        let judged = written_on_a_small_stack(&edge.job, &edge.name);
        assert!(edge.is_answered_by(&judged), "{}", edge.name);
        if edge.name.ends_with("a full record") {
            let bytes = judged.map(|record| record.len());
            assert_eq!(bytes, Ok(scp::RECORD_MAX), "{}", edge.name);
        }
    }
}

#[test]
fn made_jobs_fit_a_small_stack() {
    for seed in 0..300 {
        let job = make::to_write(&mut Rng::new(seed));
        let broken = judge::write_record(&job.writing(), usize::MAX, usize::MAX);
        // row 17 leaves open how much room a job needs
        if broken.map_or_else(|refused| refused.number, |_| 0) != 17 {
            let _ = written_on_a_small_stack(&job, "made");
        }
    }
}
