//! The generator: sound records are accepted and read to what was put in, and every row of the
//! table is reached.

use judge::make::{self, Rng};
use judge::{breaks, encode_lead, lead, open, read_lead, row, write_record};
use judge::{index_add, index_merge, index_step};

/// Room for any lead and any beat.
const ROOM: usize = 65_536;

#[test]
fn sound_records_read_to_what_was_put_in() {
    for seed in 0..10_000 {
        let made = make::made(&mut Rng::new(seed));
        assert!(open(&made.record).is_ok(), "seed {seed}");
        assert!(
            !(row::LENGTH..=row::AGREEMENT).any(|row| breaks(&made.record, row)),
            "seed {seed}"
        );
        for (at, lead) in made.leads.iter().enumerate() {
            let read = read_lead(&made.record, at + 1, lead.samples.len(), made.work);
            let read = read.unwrap_or_else(|refused| panic!("seed {seed}, lead {at}: {refused:?}"));
            assert!(read.samples == lead.samples, "seed {seed}, lead {at}");
            assert_eq!((read.first, read.id), (lead.first, lead.id));
            assert_eq!((read.step, read.interval), (made.step, made.interval));
            assert_eq!(
                (read.flags, read.work_cleared),
                (made.flags, made.flags & 1 == 1)
            );
        }
        assert_eq!(lead(&made.record, made.leads.len() + 1), Err(row::ABSENT));
    }
}

/// How often each number comes out of opening, of all leads, and of a place and a room that no lead
/// has.
fn count(record: &[u8], counts: &mut [usize; 18]) {
    let mut note = |number: u8| counts[usize::from(number)] += 1;
    let leads = lead(record, 1).map_or(0, |entry| entry.leads as usize);
    note(open(record).err().unwrap_or(0));
    for place in 0..=leads + 1 {
        note(read_lead(record, place, ROOM, ROOM).map_or_else(|refused| refused.number, |_| 0));
    }
    note(read_lead(record, 1, 0, ROOM).map_or_else(|refused| refused.number, |_| 0));
}

#[test]
fn every_row_is_reached() {
    let mut counts = [0; 18];
    for seed in 0..3_000 {
        count(&make::damaged(&mut Rng::new(seed)), &mut counts);
    }
    println!("{counts:?}");
    for (row, &times) in counts.iter().enumerate().take(15) {
        assert!(times > 50, "row {row} came out {times} times of {counts:?}");
    }
}

#[test]
fn aimed_damage_reaches_its_row() {
    for row in 1..=14 {
        let mut hits = 0;
        let mut all = [0; 18];
        for seed in 0..500 {
            let mut counts = [0; 18];
            count(&make::aimed(&mut Rng::new(seed), row), &mut counts);
            hits += usize::from(counts[usize::from(row)] > 0);
            (0..18).for_each(|number| all[number] += counts[number]);
        }
        println!("{row}: {hits} {all:?}");
        assert!(
            hits > 250,
            "row {row} came out for {hits} of 500 records: {all:?}"
        );
    }
}

#[test]
fn every_row_of_the_writer_is_reached() {
    let mut encoding = [0; 18];
    let mut writing = [0; 18];
    for seed in 0..3_000 {
        let lead = make::to_encode(&mut Rng::new(seed));
        let call = encode_lead(
            &lead.section2,
            &lead.samples,
            lead.order,
            lead.work_len,
            lead.out_len,
        );
        encoding[call.map_or_else(|refused| usize::from(refused.number), |_| 0)] += 1;
        let record = make::to_write(&mut Rng::new(seed));
        let call = write_record(&record.writing(), record.work_len, record.out_len);
        writing[call.map_or_else(|refused| usize::from(refused.number), |_| 0)] += 1;
    }
    println!("{encoding:?} {writing:?}");
    for row in [0, 7, 11, 15, 16, 17] {
        assert!(encoding[row] > 3, "row {row} of {encoding:?}");
    }
    for row in [0, 6, 7, 11, 15, 16, 17] {
        assert!(writing[row] > 3, "row {row} of {writing:?}");
    }
}

#[test]
fn every_row_of_the_index_is_reached() {
    let mut counts = [0; 27];
    for seed in 0..3_000 {
        let rng = &mut Rng::new(seed);
        let record = make::damaged(rng);
        let record = make::dated(rng, record);
        let broken = make::broken_index(rng);
        let sound = make::index(rng);
        let lent = [&sound[..], &rng.bytes(6)].concat();
        for (index, used) in [(broken.bytes, broken.used), (lent, sound.len())] {
            let added = index_add(&index, used, &record);
            counts[usize::from(added.err().unwrap_or(0))] += 1;
        }
    }
    println!("{counts:?}");
    for row in [0, 1, 2, 3, 4, 5, 6, 8, 11, 24, 26] {
        assert!(counts[row] > 50, "row {row} of {counts:?}");
    }
}

#[test]
fn pairs_of_indexes_are_of_every_kind() {
    let entries = |index: &[u8]| {
        let first = index_step(index, 0);
        std::iter::successors(first, |step| index_step(index, step.next)).count()
    };
    let (mut empty, mut longer, mut apart, mut changed) = (0, 0, 0, 0);
    for seed in 0..2_000 {
        let [a, b] = make::two_indexes(&mut Rng::new(seed));
        let merged = index_merge(&a, &b, a.len() + b.len()).expect("both are indexes");
        let [fewer, more] = [&a, &b].map(|index| entries(index));
        let (fewer, more) = (fewer.min(more), fewer.max(more));
        empty += usize::from(fewer == 0 && more > 0);
        longer += usize::from(fewer > 0 && more > 20 * fewer);
        apart += usize::from(fewer > 0 && (merged == [&a[..], &b].concat()));
        changed += usize::from(merged != index_merge(&b, &a, merged.len()).unwrap_or_default());
    }
    let counts = [empty, longer, apart, changed];
    println!("{counts:?}");
    assert!(counts.iter().all(|&count| count > 50), "{counts:?}");
}
