//! No bytes and no numbers stop a call from ending, and calls agree with each other.

use judge::make::{self, Rng};
use judge::{breaks, field, lead, open, read_lead, row, walk_start, walk_step, Lead};
use judge::{index_add, index_entry, index_find, index_merge, index_step};

/// Every call on these bytes.
fn call_all(rng: &mut Rng, bytes: &[u8]) {
    let opened = open(bytes).map(|pointers| pointers.len());
    let smallest = (1..=6).find(|&row| breaks(bytes, row));
    assert_eq!(opened.err(), smallest);
    assert_eq!(walk_start(bytes).err(), smallest);
    for row in [0, 7, 8, 9, 10, 255] {
        breaks(bytes, row);
    }
    for place in [0, 1, 2, 33, usize::MAX] {
        call_lead(bytes, place);
    }
    for at in [
        0,
        1,
        16,
        bytes.len(),
        usize::MAX,
        usize::MAX - 2,
        rng.number() as usize,
    ] {
        let step = walk_step(bytes, at);
        assert!(step.is_none_or(|step| step.next <= bytes.len() && step.start == at + 3));
        let step = index_step(bytes, at);
        assert!(step.is_none_or(|step| step.next <= bytes.len() && step.start == at + 5));
    }
    call_index(rng, bytes);
}

/// The calls on the lead at a place of these bytes. At most 64 structures a bit are compared (02,
///
fn call_lead(bytes: &[u8], place: usize) {
    let entry = lead(bytes, place);
    let read = read_lead(bytes, place, 70_000, 70_000);
    match entry {
        Err(number) => assert_eq!(read.map_err(|refused| refused.number), Err(number)),
        Ok(entry) => {
            let within = |lead: &Lead| lead.compared <= 64 * lead.bits;
            assert!(read.as_ref().is_ok_and(within) || read.is_err());
            let refused = read.err().map(|refused| refused.number);
            assert!(refused.is_none_or(|number| (12..=14).contains(&number)));
            assert!(entry.first <= entry.last && place <= entry.leads as usize);
            let count = (entry.last - entry.first) as usize;
            let short = read_lead(bytes, place, count, 70_000);
            assert_eq!(short.map_err(|refused| refused.number), Err(row::ROOM));
        }
    }
}

/// The calls of the index on these bytes, as a record and as an index.
fn call_index(rng: &mut Rng, bytes: &[u8]) {
    let entry = index_entry(bytes);
    let index = make::index(rng);
    let lent = [&index[..], &[0; 68]].concat();
    let added = index_add(&lent, index.len(), bytes);
    assert_eq!(added.as_ref().err(), entry.as_ref().err());
    let size = entry.map_or(0, |entry| 5 + entry.identifier.len());
    assert!(added.is_ok_and(|added| added.len() == index.len() + size) || size == 0);
    for used in [0, 5, bytes.len(), bytes.len() + 1, usize::MAX] {
        let found = index_find(bytes, used, b"7");
        let added = index_add(bytes, used, bytes);
        assert_eq!(found.is_err(), added == Err(row::INDEX));
        assert!(used <= bytes.len() || found == Err(row::INDEX));
    }
    let refused = index_find(bytes, bytes.len(), b"7").err();
    let both = index.len() + bytes.len();
    for (a, b) in [(bytes, &index[..]), (&index, bytes)] {
        let merged = index_merge(a, b, both);
        assert_eq!(merged.as_ref().err(), refused.as_ref());
        assert!(merged.is_ok_and(|merged| merged.len() == both) || refused.is_some());
        let short = index_merge(a, b, both.saturating_sub(1)).err();
        assert!(short == refused.or(Some(row::ROOM)) || both == 0);
    }
}

#[test]
fn every_call_ends() {
    for seed in 0..2_000 {
        let rng = &mut Rng::new(seed);
        let bytes = match seed % 3 {
            0 => make::noise(rng),
            1 => make::blind(rng),
            _ => make::damaged(rng),
        };
        call_all(rng, &bytes);
    }
    for seed in 0..500 {
        let rng = &mut Rng::new(seed);
        let index = make::broken_index(rng);
        call_all(rng, &index.bytes);
    }
    for length in 0..=300 {
        let rng = &mut Rng::new(length);
        let mut bytes = rng.bytes(length as usize);
        call_all(rng, &bytes);
        make::mend_size(&mut bytes);
        make::mend(&mut bytes);
        call_all(rng, &bytes);
    }
}

#[test]
fn every_cut_of_a_record_is_judged() {
    for seed in 0..3 {
        let rng = &mut Rng::new(seed);
        let record = make::record(rng);
        for length in 0..record.len().min(500) {
            let mut cut = record[..length].to_vec();
            call_all(rng, &cut);
            make::mend_size(&mut cut);
            make::mend(&mut cut);
            call_all(rng, &cut);
        }
    }
}

#[test]
fn the_walk_meets_what_fields_show() {
    for seed in 0..150 {
        let record = make::record(&mut Rng::new(seed));
        let section = walk_start(&record).expect("it opens");
        let mut met = [0; 256];
        let mut at = 16;
        while let Some(step) = walk_step(&record[section.clone()], at) {
            met[usize::from(step.tag)] += 1;
            let place = field(&record, step.tag, met[usize::from(step.tag)]);
            let start = section.start + step.start;
            assert_eq!(place, Ok(start..start + step.length));
            at = step.next;
        }
        for tag in 0..=255 {
            assert_eq!(
                field(&record, tag, met[usize::from(tag)] + 1),
                Err(row::ABSENT)
            );
            assert_eq!(field(&record, tag, 0), Err(row::ABSENT));
            assert_eq!(field(&record, tag, usize::MAX), Err(row::ABSENT));
        }
        assert_eq!(met[255], 0);
    }
}

#[test]
fn mending_a_sound_record_changes_nothing() {
    for seed in 0..300 {
        let record = make::record(&mut Rng::new(seed));
        let mut mended = record.clone();
        make::mend(&mut mended);
        assert_eq!(mended, record);
    }
}
