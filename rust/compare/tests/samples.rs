//! The files of `samples/` are what they are said to be.

use std::collections::{BTreeMap, BTreeSet};
use std::fs;
use std::path::{Path, PathBuf};

fn folder() -> PathBuf {
    Path::new(env!("CARGO_MANIFEST_DIR")).join("../../samples")
}

#[test]
fn the_files_are_those_that_are_made() {
    for (name, record) in compare::samples::all() {
        let file = fs::read(folder().join(name)).expect(name);
        assert!(file == record, "samples/{name} is not what is made");
    }
}

#[test]
fn there_are_no_others() {
    let made: BTreeSet<_> = compare::samples::all()
        .iter()
        .map(|(name, _)| name.to_string())
        .collect();
    let there: BTreeSet<_> = fs::read_dir(folder())
        .unwrap()
        .map(|entry| entry.unwrap().file_name().into_string().unwrap())
        .filter(|name| name.ends_with(".scp"))
        .collect();
    assert_eq!(made, there);
}

/// The number in a sample's name: 0 if it is to be accepted.
fn number_in(name: &str) -> u8 {
    let number = name
        .strip_prefix("refused-")
        .and_then(|rest| rest.strip_suffix(".scp"));
    number.map_or(0, |number| number.parse().expect(name))
}

/// The judge and the library both give each sample the number in its name: up to 6 in opening it, beyond that in reading its
/// leads.
#[test]
fn each_is_refused_as_its_name_says() {
    for (name, record) in compare::samples::all() {
        let number = number_in(name);
        let opened = if number <= 6 { number } else { 0 };
        let judged = judge::open(&record).err().unwrap_or(0);
        assert_eq!(judged, opened, "{name}, by the judge");
        let refusal = scp::open(&record).map_or_else(scp::Refusal::number, |_| 0);
        assert_eq!(refusal, opened, "{name}, by the library");
        if number > 6 {
            let judged = [1, 2].map(|place| judged_lead(&record, place));
            let expected = if number <= 10 { number } else { 0 };
            assert_eq!(judged, [expected, number], "{name}, by the judge");
            let read = [1, 2]
                .map(|place| scp::samples(&record, place).map_or_else(scp::Refusal::number, |_| 0));
            assert_eq!(read, judged, "{name}, by the library");
        }
    }
}

/// 0, or the refusal that the judge gives a lead.
fn judged_lead(record: &[u8], place: usize) -> u8 {
    let room = scp::SAMPLES_MAX;
    judge::read_lead(record, place, room, room).map_or_else(|refused| refused.number, |_| 0)
}

/// The leads of the accepted samples, as they were made up.
#[test]
fn leads_are_read_to_what_was_made_up() {
    let samples: BTreeMap<_, _> = compare::samples::all().into_iter().collect();
    let read = |name: &str, place| scp::samples(&samples[name], place).unwrap().1;
    assert_eq!(read("two-leads.scp", 1), [10, 12, 13, 15, 18, 22, 20, 15]);
    assert_eq!(
        read("own-tables.scp", 1),
        [1, 2, -1, 0, 3, 0, 4, 1, 0, -2, 0, 15, -1, 0, 13, 0, 1, -2, -1, 1]
    );
    assert_eq!(read("own-tables.scp", 2), [15, 15, 0, -128, 127, 1, 1, 1]);
    let with_beat = read("beat.scp", 1);
    let residual = |n: usize| (n as i16 - 1) % 5 - 2;
    assert_eq!(with_beat.len(), 40);
    // Sample 3 is the first of a zone with C 6, and F is 4: the beat's first is added to it.
    let beat = [0, 4, 40, 90, 60, -20, -5, 0];
    for n in 1..=40 {
        let added = match n {
            3..=10 => beat[n - 3],
            26..=32 => beat[n - 25],
            _ => 0,
        };
        assert_eq!(with_beat[n - 1], residual(n) + added, "sample {n}");
    }
    let (i, ii) = (read("limb-leads.scp", 1), read("limb-leads.scp", 2));
    let iii = read("limb-leads.scp", 3);
    assert!((0..40).all(|n| iii[n] == ii[n] - i[n]));
}

/// Every stream of `padded.scp` is padded, two of them in each of Sections 5 and 6, and its leads are those of `beat.scp`.
#[test]
fn padded_leads_are_those_of_the_beat() {
    let samples: BTreeMap<_, _> = compare::samples::all().into_iter().collect();
    let (padded, beat) = (&samples["padded.scp"], &samples["beat.scp"]);
    let room = scp::SAMPLES_MAX;
    for place in [1, 2] {
        let read = [padded, beat].map(|record| scp::samples(record, place).unwrap());
        let [(one, samples), (other, as_unpadded)] = read;
        assert_eq!(samples, as_unpadded, "lead {place}");
        // other differences are stored, and so other structures are compared
        let compared = other.compared;
        assert_eq!(scp::Lead { compared, ..one }, other, "lead {place}");
        let judged = [padded, beat].map(|record| judge::read_lead(record, place, room, room));
        let [one, other] = judged.map(Result::unwrap);
        let (compared, bits) = (other.compared, other.bits);
        let alike = judge::Lead {
            compared,
            bits,
            ..one
        };
        assert_eq!(alike, other, "lead {place}");
    }
    for id in [5, 6] {
        let pointer = judge::open(padded).unwrap()[id];
        let start = pointer.index as usize - 1;
        let data = &padded[start + 16..start + pointer.length as usize];
        let count = |at: usize| usize::from(u16::from_le_bytes([data[at], data[at + 1]]));
        let (one, two) = (count(6), count(8));
        assert_eq!((one % 2, two % 2), (0, 0), "Section {id}");
        let last = [10 + one - 1, 10 + one + two - 1].map(|at| data[at]);
        assert_eq!(last, [0xFF; 2], "Section {id}");
    }
}
