//! Records that arrive at an index, and indexes, sound, damaged and in pairs (02, Q-13).
//!
//! Few people, dates and numbers of leads are drawn for an index, so that its entries are close to
//! each other: identifiers that begin one another, dates that differ in one number, and equal ones
//! that only their leads tell apart.

use super::damage;
use super::plan::{mend, Plan};
use super::rng::Rng;
use super::section_1;
use crate::bounds;
use crate::index::{index_step, laid_out, packed, unpacked, IndexEntry, HEAD};
use crate::opening::field;

/// The most bytes of an identifier without its NUL.
const LONGEST: usize = 63;
/// The most records that arrive at one index.
const MOST: usize = 40;
/// An index that is much longer than another is made of so many times the records.
const LONGER: usize = 12;

/// The bytes of tag 25.
type Date = [u8; 4];

/// A record that arrives, by what its entry is made of.
#[derive(Clone, Debug, PartialEq, Eq)]
pub struct Arrival {
    /// Without its NUL.
    pub identifier: Vec<u8>,
    /// The bytes of tag 25.
    pub date: [u8; 4],
    /// `None` without Section 3.
    pub leads: Option<u8>,
}

/// An index as it is lent: how many of its bytes are said to be in use.
#[derive(Clone, Debug)]
pub struct LentIndex {
    pub bytes: Vec<u8>,
    pub used: usize,
}

impl Arrival {
    /// A record that opens, with this entry. What the index does not ask for is free: Sections 4 to
    /// 6 may have any data, and Section 6 may be there without Section 3.
    pub fn record(&self, rng: &mut Rng) -> Vec<u8> {
        let mut plan = Plan::new(rng);
        let mut fields = vec![
            (2, [&self.identifier[..], &[0]].concat()),
            (14, rng.bytes_within(0..=3)),
            (25, self.date.to_vec()),
            (26, rng.bytes(3)),
        ];
        for _ in 0..rng.small(4) {
            fields.push((rng.pick(&[0, 1, 3, 24, 27, 254]), rng.bytes_within(0..=6)));
        }
        rng.shuffle(&mut fields);
        plan.put(rng, 1, section_1::data(&fields));
        if let Some(leads) = self.leads {
            let data = section_3(rng, leads);
            plan.put(rng, 3, data);
        }
        for id in [4, 5, 6] {
            if rng.one_in(6) {
                let data = rng.bytes_within(0..=30);
                plan.put(rng, id, data);
            }
        }
        plan.lay_out()
    }

    fn entry(&self) -> IndexEntry<'_> {
        let [low, high, month, day] = self.date;
        IndexEntry {
            identifier: &self.identifier,
            year: u16::from_le_bytes([low, high]),
            month,
            day,
            leads: self.leads.unwrap_or(0),
        }
    }
}

/// Section 3's data with any flags; a lead's samples may begin anywhere.
fn section_3(rng: &mut Rng, leads: u8) -> Vec<u8> {
    let mut data = vec![leads, rng.byte()];
    for _ in 0..leads {
        let count = rng.pick(&[1, 2, 5000, *bounds::SAMPLES.end() as u32]);
        let first = rng.pick(&[1, 2, u32::MAX - (count - 1)]);
        data.extend(first.to_le_bytes());
        data.extend((first + (count - 1)).to_le_bytes());
        data.push(rng.byte());
    }
    data
}

/// Up to 40 records that arrive; each has an entry.
pub fn arrivals(rng: &mut Rng) -> Vec<Arrival> {
    let identifiers = several_akin(rng, identifier, |rng, one| other_identifier(rng, one));
    let dates = several_akin(rng, date, |rng, one| other_date(rng, *one));
    let leads = [None, Some(1), Some(12), Some(rng.within(1..=32) as u8)];
    let arrival = |rng: &mut Rng| Arrival {
        identifier: identifiers[rng.below(identifiers.len())].clone(),
        date: rng.pick(&dates),
        leads: rng.pick(&leads),
    };
    let count = rng.below(9) + rng.small(MOST - 8);
    (0..count).map(|_| arrival(rng)).collect()
}

/// One, and up to seven others, each made from one that is there.
fn several_akin<T>(
    rng: &mut Rng,
    first: fn(&mut Rng) -> T,
    other: fn(&mut Rng, &T) -> T,
) -> Vec<T> {
    let mut all = vec![first(rng)];
    for _ in 0..rng.below(8) {
        let from = rng.below(all.len());
        all.push(other(rng, &all[from]));
    }
    all
}

/// An identifier without its NUL.
fn identifier(rng: &mut Rng) -> Vec<u8> {
    match rng.below(6) {
        0 => b"007".to_vec(),
        1 => vec![rng.pick(&[0x7F, 0x80, 0xFF]); rng.pick(&[1, 2, LONGEST])],
        _ => {
            let mut bytes = section_1::identifier(rng);
            bytes.pop();
            bytes
        }
    }
}

/// The beginning of one, a longer one that begins with it, one with another byte, or any.
fn other_identifier(rng: &mut Rng, one: &[u8]) -> Vec<u8> {
    let mut other = one.to_vec();
    match rng.below(6) {
        0 => other.truncate(rng.within(1..=one.len())),
        1 => other = one[rng.below(one.len())..].to_vec(),
        2 if one.len() < LONGEST => other.push(rng.within(1..=255) as u8),
        3 => other.resize(LONGEST, rng.pick(&[1, b'0', 0xFF])),
        4 => return identifier(rng),
        _ => {
            let any = rng.below(one.len());
            let at = rng.pick(&[0, one.len() - 1, any]);
            other[at] = rng.pick(&[1, 0x7F, 0x80, 0xFF, other[at] % 255 + 1]);
        }
    }
    other
}

/// A date that an entry can have.
fn date(rng: &mut Rng) -> Date {
    let (year, month, day) = (rng.two(), rng.within(1..=12), rng.within(1..=31));
    let year = rng.pick(&[0, 1, 255, 256, 2001, 2024, 65_535, year]);
    let [low, high] = year.to_le_bytes();
    let month = rng.pick(&[1, 2, 12, month as u8]);
    let day = rng.pick(&[1, 31, day as u8]);
    [low, high, month, day]
}

/// One number of a date taken from another.
fn other_date(rng: &mut Rng, mut one: Date) -> Date {
    let new = date(rng);
    let at = rng.below(4);
    one[at] = new[at];
    one
}

/// A date that no entry has.
fn broken_date(rng: &mut Rng) -> Date {
    let mut date = date(rng);
    match rng.coin() {
        true => date[2] = rng.pick(&[0, 13, 14, 16, 17, 255]),
        false => date[3] = rng.pick(&[0, 32, 33, 64, 255]),
    }
    date
}

/// The record with a date that an entry can have, if it opens; now and then with one that none has.
pub fn dated(rng: &mut Rng, mut record: Vec<u8>) -> Vec<u8> {
    let date = if rng.one_in(6) {
        broken_date(rng)
    } else {
        date(rng)
    };
    if let Ok(place) = field(&record, 25, 1) {
        record[place].copy_from_slice(&date);
        mend(&mut record);
    }
    record
}

/// Records in the order of their arrival, some of which are refused.
pub fn to_index(rng: &mut Rng) -> Vec<Vec<u8>> {
    let arrivals = arrivals(rng);
    let record = |arrival: &Arrival| match rng.below(40) {
        0 => {
            let row = rng.within(1..=8) as u8;
            let record = damage::aimed(rng, row);
            dated(rng, record)
        }
        1 | 2 => {
            let record = arrival.record(rng);
            dated(rng, record)
        }
        _ => arrival.record(rng),
    };
    arrivals.iter().map(record).collect()
}

/// An index, all of it in use.
pub fn index(rng: &mut Rng) -> Vec<u8> {
    index_of(&arrivals(rng))
}

/// The index of these arrivals.
fn index_of(arrivals: &[Arrival]) -> Vec<u8> {
    laid_out(arrivals.iter().map(Arrival::entry).collect())
}

/// Two indexes, all of both in use. In most pairs both have entries of the same people and dates.
pub fn two_indexes(rng: &mut Rng) -> [Vec<u8>; 2] {
    let mut two = match rng.below(8) {
        0 => [index(rng), index(rng)],
        1 => [index(rng), vec![]],
        2 => cut(rng),
        3 => {
            let one = arrivals(rng);
            let other = |arrival: &Arrival| Arrival {
                leads: Some(rng.within(1..=32) as u8),
                ..arrival.clone()
            };
            let other: Vec<_> = one.iter().map(other).collect();
            [index_of(&one), index_of(&other)]
        }
        4 => {
            let all = (0..LONGER).flat_map(|_| arrivals(rng)).collect();
            shared_out(rng, all, 40)
        }
        _ => {
            let all = arrivals(rng);
            shared_out(rng, all, 2)
        }
    };
    rng.shuffle(&mut two);
    two
}

/// The entries of an index up to one of them, and those behind.
fn cut(rng: &mut Rng) -> [Vec<u8>; 2] {
    let pieces = pieces(&index(rng));
    let (front, behind) = pieces.split_at(rng.below(pieces.len() + 1));
    [front.concat(), behind.concat()]
}

/// The indexes of two parts of these: one in so many goes to the second.
fn shared_out(rng: &mut Rng, all: Vec<Arrival>, times: usize) -> [Vec<u8>; 2] {
    let (second, first): (Vec<_>, Vec<_>) = all.into_iter().partition(|_| rng.one_in(times));
    [index_of(&first), index_of(&second)]
}

/// Bytes that are mostly no index, or fewer or more of them in use than there are entries.
pub fn broken_index(rng: &mut Rng) -> LentIndex {
    let mut pieces = pieces(&index(rng));
    if rng.coin() {
        break_pieces(rng, &mut pieces);
    }
    let mut bytes = pieces.concat();
    if rng.one_in(3) {
        change(rng, &mut bytes);
    }
    let used = bytes.len();
    bytes.extend(rng.bytes_within(0..=80));
    let used = match rng.below(12) {
        0 => used + 1,
        1 => used.saturating_sub(1),
        2 => rng.below(used + 1),
        3 => bytes.len() + 1,
        4 => rng.pick(&[usize::MAX, usize::MAX - 4, bytes.len() + HEAD]),
        _ => used,
    };
    LentIndex { bytes, used }
}

/// The bytes of each entry.
fn pieces(index: &[u8]) -> Vec<Vec<u8>> {
    let first = index_step(index, 0);
    std::iter::successors(first, |step| index_step(index, step.next))
        .map(|step| index[step.start - HEAD..step.next].to_vec())
        .collect()
}

/// Two entries in each other's place, or one that no record has.
fn break_pieces(rng: &mut Rng, pieces: &mut [Vec<u8>]) {
    if pieces.is_empty() {
        return;
    }
    let at = rng.below(pieces.len());
    match rng.below(4) {
        0 => pieces.swap(at, rng.below(pieces.len())),
        1 => {
            let place = rng.within(HEAD..=pieces[at].len() - 1);
            pieces[at][place] = 0;
        }
        _ => break_head(rng, &mut pieces[at]),
    }
}

/// A number that the head of an entry by the rules cannot have.
fn break_head(rng: &mut Rng, piece: &mut Vec<u8>) {
    let [mut length, year, mut month, mut day, mut leads, mut zero] = unpacked(&piece[..HEAD]);
    match rng.below(7) {
        0 => month = rng.pick(&[0, 13, 14, 15]),
        1 => day = 0,
        2 => leads = rng.pick(&[33, 34, 64, 128, 255]),
        3 => zero = 1,
        4 => length = 0,
        5 => {
            length = 0;
            piece.truncate(HEAD);
        }
        _ => length = rng.pick(&[length - 1, length % 63 + 1]),
    }
    piece.splice(..HEAD, packed([length, year, month, day, leads, zero]));
}

/// One bit, one byte, or a part of the bytes, whatever they mean; or other bytes.
fn change(rng: &mut Rng, bytes: &mut Vec<u8>) {
    let at = rng.below(bytes.len());
    match rng.below(6) {
        _ if bytes.is_empty() => bytes.extend(rng.bytes_within(1..=9)),
        0 => *bytes = rng.bytes_within(1..=90),
        1 => bytes.truncate(at),
        2 => bytes.insert(at, rng.byte()),
        3 => bytes[at] = rng.byte(),
        _ => bytes[at] ^= rng.bit(8) as u8,
    }
}
