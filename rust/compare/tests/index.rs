//! The index at the edges of its rules, and small indexes of every kind: the library and the judge give each what was written
//! down for it, or the same.

use compare::index::{self, edges, entry, merging, HEAD};
use compare::tally::{Call, Tally};
use judge::make::{Arrival, Rng};
use judge::row;

#[test]
fn each_edge_is_on_its_side() {
    let edges = edges::all();
    println!("{} edges", edges.len());
    let rng = &mut Rng::new(13);
    for edge in edges {
        let (name, index) = (&edge.name, &edge.index[..]);
        let judged = judge::index_add(index, edge.used, &edge.record);
        assert_eq!(judged, edge.added, "{name}, by the judge");
        let answer = index::by_library(index, edge.used, &edge.record, &edge.added, rng);
        assert_eq!(answer, Ok(()), "{name}, by the library");
        let answer = index::look(index, edge.used, rng, &mut Tally::default());
        assert_eq!(answer, Ok(()), "{name}");
    }
}

#[test]
fn each_merge_is_on_its_side() {
    let merges = edges::merges();
    println!("{} merges", merges.len());
    let rng = &mut Rng::new(14);
    for merge in merges {
        let (name, a, b) = (&merge.name, &merge.a[..], &merge.b[..]);
        let judged = judge::index_merge(a, b, merge.room);
        assert_eq!(judged, merge.merged, "{name}, by the judge");
        let answer = merging::by_library(a, b, merge.room, &merge.merged, rng);
        assert_eq!(answer, Ok(()), "{name}, by the library");
    }
}

/// Adding a record gives what merging with the index of it alone gives; and what is no index is merged with none.
#[test]
fn each_addition_is_a_merge() {
    let rng = &mut Rng::new(15);
    let (mut accepted, mut refused) = (0, 0);
    for edge in edges::all() {
        let Some(index) = edge.index.get(..edge.used) else {
            continue;
        };
        let new = judge::built_index([&edge.record[..]]);
        let pairs = match edge.added {
            Ok(_) => vec![(index, &new[..])],
            Err(row::INDEX) => vec![(index, &new[..]), (&new, index), (index, index)],
            Err(_) => vec![],
        };
        for (a, b) in pairs {
            let answer = merging::by_library(a, b, a.len() + b.len(), &edge.added, rng);
            assert_eq!(answer, Ok(()), "{}", edge.name);
        }
        accepted += usize::from(edge.added.is_ok());
        refused += usize::from(edge.added == Err(row::INDEX));
    }
    assert!(accepted > 50 && refused > 50, "{accepted}, {refused}");
}

/// A record of an identifier on 14 March 2024.
fn record(identifier: &[u8], leads: Option<u8>) -> Vec<u8> {
    let arrival = Arrival {
        identifier: identifier.to_vec(),
        date: [0xE8, 7, 3, 14],
        leads,
    };
    arrival.record(&mut Rng::new(5))
}

/// Whether these numbers before an identifier can be an entry's (reading a of Q-13).
fn is_right([length, _, month, day, leads, zero]: [u64; 6]) -> bool {
    length > 0 && (1..=12).contains(&month) && day > 0 && leads <= 32 && zero == 0
}

#[test]
fn every_month_day_and_number_of_leads() {
    let tally = &mut Tally::default();
    for month in 0..16 {
        for day in 0..32 {
            for leads_and_bit in 0..512 {
                let head = [1, 0xA55A, month, day, leads_and_bit / 2, leads_and_bit % 2];
                let bytes = entry(head, b"7");
                let shown = index::step(&bytes, 0, tally).expect("both show the same");
                assert_eq!(shown.is_some(), is_right(head), "{head:?}");
            }
        }
    }
    assert_eq!(tally.times(Call::IndexStep, 0), 12 * 31 * 33);
}

#[test]
fn every_length_in_every_number_of_bytes() {
    let tally = &mut Tally::default();
    for length in 0..64 {
        let bytes = entry([length, 2024, 3, 14, 12, 0], &[b'7'; 70]);
        for lent in 0..bytes.len() {
            let whole = is_right([length, 2024, 3, 14, 12, 0]) && lent >= HEAD + length as usize;
            let shown = index::step(&bytes[..lent], 0, tally).expect("both show the same");
            assert_eq!(shown.is_some(), whole, "{length} in {lent}");
            let found = index::find(&bytes[..lent], lent, b"7", tally);
            assert_eq!(found, Ok(()), "{length} in {lent}");
        }
    }
}

#[test]
fn every_two_bytes_in_their_order() {
    let tally = &mut Tally::default();
    for one in 1..=255 {
        for other in 1..=255 {
            let head = [1, 2024, 3, 14, 12, 0];
            let bytes = [entry(head, &[one]), entry(head, &[other])].concat();
            let found = index::find(&bytes, 12, &[other], tally);
            assert_eq!(found, Ok(()), "{one}, {other}");
            let refused = scp::index_find(&bytes, 12, &[other]).is_err();
            assert_eq!(refused, one > other, "{one}, {other}");
        }
    }
}

/// Six entries, two of them equal but for their leads.
fn small() -> Vec<u8> {
    let numbers = |length, day, leads| [length, 2024, 3, day, leads, 0];
    let entries = [
        entry(numbers(1, 1, 0), b"0"),
        entry(numbers(3, 14, 12), b"007"),
        entry(numbers(3, 14, 1), b"007"),
        entry(numbers(3, 15, 12), b"007"),
        entry(numbers(1, 14, 32), b"7"),
        entry(numbers(2, 31, 3), b"7\xFF"),
    ];
    entries.concat()
}

#[test]
fn every_bit_of_a_small_index() {
    let (rng, tally) = (&mut Rng::new(2), &mut Tally::default());
    let used = small().len();
    let lent = [small(), vec![0x11; 8]].concat();
    let record = record(b"007", Some(2));
    for bit in 0..8 * lent.len() {
        let mut index = lent.clone();
        index[bit / 8] ^= 1 << (bit % 8);
        let answer = index::add(&index, used, &record, rng, tally).map(|_| ());
        assert_eq!(answer, Ok(()), "bit {bit}");
        let answer = index::find(&index, used, b"007", tally);
        assert_eq!(answer, Ok(()), "bit {bit}");
    }
    assert!(tally
        .never_reached(Call::IndexAdd, &[0, row::INDEX])
        .is_empty());
}

#[test]
fn every_bit_of_two_indexes_to_merge() {
    let (rng, tally) = (&mut Rng::new(6), &mut Tally::default());
    let sound = small();
    let both = 2 * sound.len();
    for bit in 0..8 * sound.len() {
        let mut index = sound.clone();
        index[bit / 8] ^= 1 << (bit % 8);
        for (a, b) in [(&index, &sound), (&sound, &index), (&index, &index)] {
            let answer = merging::merge(a, b, both, rng, tally).map(|_| ());
            assert_eq!(answer, Ok(()), "bit {bit}");
        }
    }
    assert!(tally
        .never_reached(Call::IndexMerge, &[0, row::INDEX])
        .is_empty());
}

#[test]
fn every_number_of_bytes_in_use_and_lent() {
    let (rng, tally) = (&mut Rng::new(3), &mut Tally::default());
    let bytes = [small(), vec![0x11; 9]].concat();
    let record = record(b"007", Some(2));
    for lent in 0..=bytes.len() {
        let index = &bytes[..lent];
        for used in (0..=lent + 1).chain([usize::MAX]) {
            let answer = index::add(index, used, &record, rng, tally).map(|_| ());
            assert_eq!(answer, Ok(()), "{used} of {lent}");
            let answer = index::find(index, used, b"7", tally);
            assert_eq!(answer, Ok(()), "{used} of {lent}");
        }
    }
    let rows = [0, row::ROOM, row::INDEX];
    assert!(tally.never_reached(Call::IndexAdd, &rows).is_empty());
}

#[test]
fn every_number_of_bytes_to_merge() {
    let (rng, tally) = (&mut Rng::new(7), &mut Tally::default());
    let bytes = small();
    for one in 0..=bytes.len() {
        for other in 0..=bytes.len() {
            let (a, b) = (&bytes[..one], &bytes[..other]);
            for room in [one + other, (one + other).saturating_sub(1)] {
                let answer = merging::merge(a, b, room, rng, tally).map(|_| ());
                assert_eq!(answer, Ok(()), "{one} and {other} into {room}");
            }
        }
    }
    // each beginning with each: seven are whole entries, and two of no bytes need no room
    assert_eq!(tally.times(Call::IndexMerge, 0), 7 * 7 + 1);
    assert_eq!(tally.times(Call::IndexMerge, row::ROOM), 7 * 7 - 1);
}

/// Indexes of up to three entries, of three keys: each with each. The leads tell which index an entry is from.
#[test]
fn every_two_small_indexes() {
    let (rng, tally) = (&mut Rng::new(8), &mut Tally::default());
    let keys = [(&b"7"[..], 13), (b"7", 14), (b"77", 13)];
    let mut places: Vec<Vec<usize>> = vec![vec![]];
    for length in 0..3 {
        let shorter: Vec<_> = places
            .iter()
            .filter(|one| one.len() == length)
            .cloned()
            .collect();
        for one in shorter {
            let least = one.last().copied().unwrap_or(0);
            places.extend((least..keys.len()).map(|key| [&one[..], &[key]].concat()));
        }
    }
    let index = |places: &[usize], leads: u64| {
        let entries = (leads..).zip(places).map(|(leads, &key)| {
            let (identifier, day) = keys[key];
            let head = [identifier.len() as u64, 2024, 3, day, leads, 0];
            entry(head, identifier)
        });
        entries.collect::<Vec<_>>().concat()
    };
    for one in &places {
        for other in &places {
            let (a, b) = (index(one, 1), index(other, 11));
            let answer = merging::merge(&a, &b, a.len() + b.len(), rng, tally).map(|_| ());
            assert_eq!(answer, Ok(()), "{one:?} and {other:?}");
        }
    }
    assert_eq!(tally.times(Call::IndexMerge, 0), 400);
}

#[test]
fn every_byte_among_all_bytes() {
    let (rng, tally) = (&mut Rng::new(9), &mut Tally::default());
    let of = |byte: u8, leads| entry([1, 2024, 3, 14, leads, 0], &[byte]);
    let all: Vec<_> = (1..=255).map(|byte| of(byte, 1)).collect();
    for byte in 1..=255 {
        let (one, all) = (of(byte, 2), all.concat());
        for (a, b) in [(&one, &all), (&all, &one)] {
            let merged = merging::merge(a, b, one.len() + all.len(), rng, tally);
            assert!(merged.is_ok_and(|merged| merged.is_some()), "{byte}");
        }
    }
}

/// Ten people and dates, and each three of them in turn, the first of all with another number of leads than the next: the
/// order of arrival is seen.
#[test]
fn every_three_arrivals() {
    let (rng, tally) = (&mut Rng::new(4), &mut Tally::default());
    let identifiers: [&[u8]; 5] = [b"7", b"77", b"7\x01", b"\xFF", b"007"];
    let dates = [[0xE8, 7, 12, 1], [0xE8, 7, 1, 31]];
    let record = |key: usize, leads: Option<u8>| {
        let arrival = Arrival {
            identifier: identifiers[key / 2].to_vec(),
            date: dates[key % 2],
            leads,
        };
        arrival.record(&mut Rng::new(key as u64))
    };
    let made = [None, Some(1), Some(32)].map(|leads| {
        let records: Vec<_> = (0..10).map(|key| record(key, leads)).collect();
        records
    });
    for keys in 0..1000 {
        let keys = [keys / 100, keys / 10 % 10, keys % 10];
        let records = [0, 1, 2].map(|turn| made[turn][keys[turn]].clone());
        let answer = index::build(&records, rng, tally);
        assert_eq!(answer, Ok(()), "{keys:?}");
    }
    assert_eq!((tally.built.indexes, tally.built.put.entries), (1000, 3000));
    assert!(tally.merged.in_runs > 500);
}
