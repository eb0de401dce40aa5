//! Rows 1 to 5: size, checks, Section 0 and the places of sections. The bytes that come in are a
//! record with sections that lie as its pointers say; checks are left to the caller.

use crate::bounds;
use crate::make::draft::{Draft, Wish};
use crate::make::plan::{mend_size, pointer_at, put_four, put_two, section_places};
use crate::make::rng::Rng;
use crate::numbers::{four_at, two_at};
use crate::record::{BEFORE_SECTION_0, HEADER};
use std::ops::Range;

/// Row 1: a size field that is not the length, or a length outside the bounds with its right size
/// field.
pub fn wrong_size(rng: &mut Rng, bytes: &mut Vec<u8>) {
    let size = bytes.len() as u32;
    let near = rng.within(1..=9) as u32;
    match rng.below(8) {
        0 => put_four(bytes, 2, size + near),
        1 => put_four(bytes, 2, size - near),
        2 => put_four(bytes, 2, size.swap_bytes()),
        3 => put_four(bytes, 2, rng.four()),
        4 => bytes.truncate(rng.below(size as usize)),
        5 => bytes.extend(rng.bytes_within(1..=9)),
        6 if rng.one_in(10) => {
            let over = rng.pick(&[1, 1, 2, near as usize]);
            bytes.resize(bounds::RECORD.end() + over, 0);
            mend_size(bytes);
        }
        _ => {
            let length = rng.below(*bounds::RECORD.start());
            bytes.truncate(rng.pick(&[0, 140, 141, length, length]));
            mend_size(bytes);
        }
    }
}

/// Row 2: another check, or another byte under it.
pub fn wrong_check(rng: &mut Rng, bytes: &mut [u8]) {
    match rng.below(4) {
        0 => {
            let at = rng.below(2);
            bytes[at] ^= rng.bit(8) as u8;
        }
        1 => bytes.swap(0, 1),
        2 => put_two(bytes, 0, rng.two()),
        _ => {
            let at = rng.within(6..=bytes.len() - 1);
            bytes[at] ^= rng.bit(8) as u8;
        }
    }
}

/// Row 3: each rule of Section 0's header and of its own pointer.
pub fn broken_section_0(rng: &mut Rng, bytes: &mut [u8]) {
    let length = four_at(bytes, 10).unwrap_or(0);
    match rng.below(5) {
        0 => put_two(bytes, 8, rng.within(1..=65_535) as u16),
        1 => {
            let letter = rng.within(16..=21);
            bytes[letter] = rng.other_byte(bytes[letter]);
        }
        2 => put_four(bytes, 10, wrong_length(rng, length)),
        3 => put_four(bytes, pointer_at(0) + 2, wrong_length(rng, length)),
        _ => {
            let index = rng.pick(&[0, 6, 8, 0x0700, u32::MAX]);
            put_four(bytes, pointer_at(0) + 6, index);
        }
    }
}

fn wrong_length(rng: &mut Rng, length: u32) -> u32 {
    let near = rng.within(1..=9) as u32;
    rng.pick(&[
        0,
        1,
        16,
        length + near,
        length - near,
        length + 10,
        length - 10,
        16 + 10 * 65,
        16 + 10 * 11,
        u32::MAX,
    ])
}

/// A record laid out whole, but with pointers that break a rule: too few or too many, out of order,
/// or with something after them.
pub fn broken_pointers(rng: &mut Rng) -> Vec<u8> {
    let mut plan = Draft::new(rng, Wish::default()).plan;
    match rng.below(6) {
        0 => plan.after_pointers = rng.bytes_within(1..=9),
        1 | 2 => set_number(rng, &mut plan.pointers),
        _ => break_order(rng, &mut plan.pointers),
    }
    let mut bytes = plan.lay_out();
    let least = *bounds::RECORD.start();
    bytes.resize(bytes.len().max(least), 0);
    mend_size(&mut bytes);
    bytes
}

fn set_number(rng: &mut Rng, pointers: &mut Vec<(u16, u32)>) {
    let wanted = rng.pick(&[0, 1, 11, 65, 65, 66, 200]);
    pointers.truncate(wanted);
    while pointers.len() < wanted {
        let id = pointers.last().map_or(0, |last| last.0.wrapping_add(1));
        pointers.push((id, 0));
    }
}

/// One ID changed, standing again or missing, or two pointers in each other's place.
fn break_order(rng: &mut Rng, pointers: &mut Vec<(u16, u32)>) {
    let last = pointers.len() - 1;
    let place = rng.within(1..=last);
    match rng.below(6) {
        0 => pointers.swap(place, rng.below(last)),
        1 => pointers.swap(last, last - 1),
        2 => pointers.push(pointers[last]),
        3 => pointers.insert(place, pointers[place]),
        4 => pointers[place].0 = rng.two(),
        _ => {
            pointers.remove(place);
            pointers.push((u16::MAX, 0));
        }
    }
}

/// A section that is hit: where it is and where its pointer is.
struct Hit {
    place: Range<usize>,
    id: u16,
    pointer: usize,
}

impl Hit {
    fn new(rng: &mut Rng, bytes: &[u8]) -> Self {
        let places = section_places(bytes);
        let place = places[rng.within(1..=places.len() - 1)].clone();
        let id = two_at(bytes, place.start + 2).unwrap_or(0);
        let pointer = (0..64)
            .map(pointer_at)
            .find(|&at| two_at(bytes, at) == Some(id))
            .unwrap_or(0);
        Hit { place, id, pointer }
    }

    /// One length in the pointer and in the header.
    fn put_length(&self, bytes: &mut [u8], length: u32) {
        put_four(bytes, self.pointer + 2, length);
        put_four(bytes, self.place.start + 4, length);
    }

    fn put_index(&self, bytes: &mut [u8], index: u32) {
        put_four(bytes, self.pointer + 6, index);
    }
}

/// Row 4: each rule of places, lengths and headers, and Section 1 absent.
pub fn broken_place(rng: &mut Rng, bytes: &mut [u8]) {
    let hit = Hit::new(rng, bytes);
    let (length, index) = (hit.place.len() as u32, hit.place.start as u32 + 1);
    let beyond = (bytes.len() - hit.place.start) as u32 + 1;
    match rng.below(10) {
        0 => put_two(bytes, hit.place.start + 2, hit.id ^ rng.bit(16) as u16),
        1 => put_four(bytes, hit.place.start + 4, length ^ rng.bit(32)),
        2 => hit.put_index(bytes, rng.pick(&[0, 1, 7, index - 1, index + 1])),
        3 => hit.put_index(bytes, u32::MAX >> rng.pick(&[0, 0, 1, 8, 11, 12])),
        4 => hit.put_length(bytes, rng.pick(&[1, 2, 14, 15, length - 1, length + 1])),
        5 => {
            let lengths = [beyond, beyond + 1, u32::MAX, u32::MAX - 1];
            hit.put_length(bytes, rng.pick(&lengths));
        }
        6 => hit.overlap(rng, bytes),
        7 | 8 => hit.shift(rng, bytes),
        _ => put_four(bytes, pointer_at(1) + 2, 0),
    }
}

/// A record laid out whole, but with a section of odd length, or with none at all.
pub fn odd_section(rng: &mut Rng) -> Vec<u8> {
    let mut plan = Draft::new(rng, Wish::default()).plan;
    if rng.one_in(8) {
        plan.pointers.truncate(12);
        plan.sections.clear();
        plan.after.clear();
    } else {
        let at = rng.below(plan.sections.len());
        plan.sections[at].data.push(rng.byte());
    }
    plan.lay_out()
}

impl Hit {
    /// Moves the section into another one, or into Section 0, with a header of its own there.
    fn overlap(&self, rng: &mut Rng, bytes: &mut [u8]) {
        let places = section_places(bytes);
        let into = places[rng.below(places.len())].clone();
        let start = into.start + rng.within(2..=into.len() - 1);
        let length = HEADER + 2 * rng.small(20);
        put_two(bytes, start + 2, self.id);
        put_four(bytes, start + 4, length as u32);
        put_four(bytes, self.pointer + 2, length as u32);
        self.put_index(bytes, start as u32 + 1);
    }

    /// Moves the section, with its bytes, one byte or two over the nearest one before or after it,
    /// or over the end of the record.
    fn shift(&self, rng: &mut Rng, bytes: &mut [u8]) {
        let over = rng.within(1..=2);
        let others = section_places(bytes);
        let ends = others.iter().map(|place| place.end);
        let before = ends.filter(|&end| end <= self.place.start).max();
        let starts = others.iter().map(|place| place.start);
        let after = starts.filter(|&start| start >= self.place.end).min();
        let start = match rng.coin() {
            true => before.unwrap_or(BEFORE_SECTION_0) - over,
            false => after.unwrap_or(bytes.len()) + over - self.place.len(),
        };
        let kept = self.place.len().min(bytes.len() - start);
        bytes.copy_within(self.place.start..self.place.start + kept, start);
        self.put_index(bytes, start as u32 + 1);
    }
}

/// Row 5: another check of a section, or another byte under it that no smaller row judges.
pub fn wrong_section_check(rng: &mut Rng, bytes: &mut [u8]) {
    let places = section_places(bytes);
    let place = places[rng.below(places.len())].clone();
    let (check, version) = (place.start + rng.below(2), place.start + 8 + rng.below(2));
    match rng.below(4) {
        0 => bytes[check] ^= rng.bit(8) as u8,
        1 => bytes.swap(place.start, place.start + 1),
        2 => bytes[version] ^= rng.bit(8) as u8,
        _ if place.start > 6 && place.len() > HEADER => {
            let at = rng.within(place.start + HEADER..=place.end - 1);
            bytes[at] ^= rng.bit(8) as u8;
        }
        _ => bytes[check] = rng.other_byte(bytes[check]),
    }
}
