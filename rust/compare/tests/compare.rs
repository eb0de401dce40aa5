//! The library against the judge on 20,480 inputs, 5,120 leads to encode, 2,560 indexes to build and as many pairs of indexes
//! to merge, always the same; every row of the table that each call can give is reached. Then the encoder against all streams,
//! on 40,000 sets of small tables; then the writer on 10,240 jobs, every refusal reached. It has no test harness, so that its
//! counts are always shown.

use std::process::exit;

use compare::encoding::brute;
use compare::tally::{Call, Tally};
use compare::writing;

const SEED: u64 = 2001;
const COUNT: u64 = 20_480;
const SETS: u64 = 40_000;
const JOBS: u64 = 10_240;
/// At least this many of the sets have each thing that makes the choice of a stream hard.
const ENOUGH: u64 = 10_000;
/// At least this many leads are read by comparing structures, as many with a beat besides, and as many without Section 2.
const ENOUGH_LEADS: u64 = 10_000;
/// At least this many entries are put where the order of an index is easily got wrong.
const ENOUGH_ENTRIES: u64 = 1_000;
/// At least this many pairs to merge have an empty index, as many a much longer one, and as many indexes are made of runs.
const ENOUGH_INDEXES: u64 = 200;

/// The answers that each call can give: 0, and the refusals.
const ROWS: [(Call, &[u8]); 15] = [
    (Call::Open, &[0, 1, 2, 3, 4, 5, 6]),
    (Call::Field, &[0, 1, 2, 3, 4, 5, 6, 10]),
    (Call::WalkStart, &[0, 1, 2, 3, 4, 5, 6]),
    (Call::Breaks, &[0, 1, 2, 3, 4, 5, 6, 7, 8, 9]),
    (Call::Lead, &[0, 1, 2, 3, 4, 5, 6, 7, 8, 9, 10]),
    (
        Call::ReadLead,
        &[0, 1, 2, 3, 4, 5, 6, 7, 8, 9, 10, 11, 12, 13, 14],
    ),
    (Call::ReadLeadWithBeat, &[0, 12, 13, 14]),
    (Call::EncodeLead, &[0, 7, 11, 15, 16, 17]),
    (Call::EncodeLeadSearched, &[0, 11, 15, 16]),
    (Call::IndexAdd, &[0, 1, 2, 3, 4, 5, 6, 8, 11, 24, 26]),
    (Call::IndexFind, &[0, 26]),
    (Call::IndexFindNothing, &[0]),
    (Call::IndexStep, &[0]),
    (Call::IndexStepNone, &[0]),
    (Call::IndexMerge, &[0, 11, 26]),
];

/// What a run has not met, if there is something.
fn not_met(tally: &Tally) -> Option<String> {
    for (call, rows) in ROWS {
        let missing = tally.never_reached(call, rows);
        if !missing.is_empty() {
            return Some(format!("{call:?} never answered {missing:?}"));
        }
    }
    let compared = tally.compared;
    let read = tally.times(Call::ReadLead, 0) + tally.times(Call::ReadLeadWithBeat, 0);
    let plain = compared.leads - compared.with_beat;
    let special = [plain, compared.with_beat, read - compared.leads];
    if special.iter().any(|&count| count < ENOUGH_LEADS) {
        return Some("reading: too few leads of some kind".to_string());
    }
    let (built, merged) = (tally.built, tally.merged);
    for put in [built.put, merged.put] {
        let special = [put.before, put.behind_equal, put.begun];
        if special.iter().any(|&count| count < ENOUGH_ENTRIES) {
            return Some("indexes: too few entries of some kind".to_string());
        }
    }
    let special = [merged.empty, merged.longer, merged.in_runs];
    let enough = special.iter().all(|&count| count >= ENOUGH_INDEXES);
    (!enough).then(|| "merging: too few indexes of some kind".to_string())
}

fn main() {
    let fail = |words: String| -> ! {
        eprintln!("compare: FAILED: {words}");
        exit(1)
    };
    let tally = compare::run(SEED, COUNT).unwrap_or_else(|difference| fail(difference));
    println!("{tally}");
    if let Some(words) = not_met(&tally) {
        fail(words);
    }

    let counts = brute::run(SEED, SETS).unwrap_or_else(|difference| fail(difference));
    println!("{counts}");
    let special = [
        counts.sets,
        counts.cyclic,
        counts.several,
        counts.own,
        counts.tied_sets,
    ];
    if special.iter().any(|&count| count < ENOUGH) || counts.none == 0 {
        fail("brute force: too few sets of some kind".to_string());
    }

    let counts = writing::run(SEED, JOBS).unwrap_or_else(|difference| fail(difference));
    println!("{counts}");
    let missing = counts.never_reached();
    if !missing.is_empty() {
        fail(format!("the writer never answered {missing:?}"));
    }
    if counts.unequal < JOBS / 4 || counts.written < JOBS / 2 {
        fail("writing: too few jobs of some kind".to_string());
    }
}
