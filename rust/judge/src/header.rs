//! Section 1: its fields, the walk over them and the patient identifier: row 6 (01, Header fields
//! and the patient identifier).

use crate::finding::{self, Fault, FieldFault, Finding, Findings, Needs, Part, What};
use crate::numbers::Bytes;
use crate::record::data_of;
use crate::row;
use std::ops::{Range, RangeInclusive};

/// The tag of the end mark, which no field has.
const END: u8 = 255;
/// Bytes of a field's tag and length.
const TAG_AND_LENGTH: usize = 3;
/// Tags that occur exactly once.
const ONCE: [u8; 4] = [IDENTIFIER, DEVICE, DATE, TIME];
pub const IDENTIFIER: u8 = 2;
const DEVICE: u8 = 14;
pub const DATE: u8 = 25;
const TIME: u8 = 26;
/// Section 1 may have this many bytes after its end mark.
const SPARE: usize = 1;

/// A step of the walk: a field's tag, where its bytes start, how many they are, and where the next
/// step goes.
#[derive(Clone, Copy, Debug, PartialEq, Eq)]
pub struct Step {
    pub tag: u8,
    pub start: usize,
    pub length: usize,
    pub next: usize,
}

impl Step {
    fn bytes(&self) -> Range<usize> {
        self.start..self.next
    }
}

/// The field at a place of the lent section; `None` for the end: tag 255, or bytes too few for a
/// field.
pub fn walk_step(section: &[u8], at: usize) -> Option<Step> {
    let mut bytes = Bytes::new(section.get(at..)?);
    let tag = bytes.byte().filter(|&tag| tag != END)?;
    let length = usize::from(bytes.two()?);
    bytes.take(length)?;
    let next = section.len() - bytes.left();
    Some(Step {
        tag,
        start: next - length,
        length,
        next,
    })
}

/// All steps of the walk from a place on.
pub fn steps(section: &[u8], at: usize) -> impl Iterator<Item = Step> + '_ {
    std::iter::successors(walk_step(section, at), |step| walk_step(section, step.next))
}

/// Identifiers are compared byte by byte, with nothing trimmed, folded or turned into a number.
pub fn same_identifier(a: &[u8], b: &[u8]) -> bool {
    a == b
}

/// Row 6: Section 1's data; a single byte may follow the end mark.
pub fn section_1(record: &[u8]) -> Vec<Finding> {
    data_of(record, 1).map_or_else(Vec::new, |data| fields(data, SPARE))
}

/// Whether these data are fields by the rules, the end mark, and at most this many bytes after it.
pub fn fields(data: Bytes, most_after: usize) -> Vec<Finding> {
    let mut found = Findings::new(row::SECTION_1, Some(1));
    let bytes = data.slice();
    let met: Vec<Step> = steps(bytes, 0).collect();
    for field in &met {
        let offset = data.offset() + field.start - TAG_AND_LENGTH;
        form(field.tag, &bytes[field.bytes()], offset, &mut found);
    }
    let end = met.last().map_or(0, |field| field.next);
    // where the walk was stopped short, nobody knows which fields were to follow
    if ending(&bytes[end..], data.offset() + end, most_after, &mut found) {
        for tag in ONCE {
            let times = met.iter().filter(|field| field.tag == tag).count();
            let mut spot = found.of(Part::Field(tag));
            spot.hold(times == 1, FieldFault::Times(times));
        }
    }
    found.list()
}

/// Judges the bytes after the last field, from this one on: whether they start with the end mark.
fn ending(rest: &[u8], offset: usize, most_after: usize, found: &mut Findings) -> bool {
    match *rest {
        [END, 0, 0, ref after @ ..] => {
            let (found_after, most) = (after.len(), most_after);
            let mut spot = found.at(Part::Field(END), offset);
            let fault = Fault::After {
                found: found_after,
                most,
            };
            spot.hold(found_after <= most, fault);
            return true;
        }
        [tag, low, high, ref after @ ..] => {
            let mut spot = found.at(Part::Field(tag), offset);
            let length = u16::from_le_bytes([low, high]);
            match tag {
                END => {
                    spot.number(What::FieldLength, length, 0..=0);
                }
                _ => spot.short(Needs::Field, length.into(), after.len()),
            }
        }
        _ => {
            let left = rest.len();
            found
                .at(Part::Whole, offset)
                .push(FieldFault::NoEndMark { left });
        }
    }
    false
}

/// How many bytes a field may have.
fn lengths(tag: u8) -> RangeInclusive<usize> {
    match tag {
        IDENTIFIER => 2..=64,
        DATE => 4..=4,
        TIME => 3..=3,
        _ => 0..=usize::from(u16::MAX),
    }
}

/// The rules of a field's own bytes.
fn form(tag: u8, bytes: &[u8], offset: usize, found: &mut Findings) {
    let (length, mut spot) = (bytes.len(), found.at(Part::Field(tag), offset));
    let expected = finding::bounds(&lengths(tag));
    spot.number(What::FieldLength, length as i64, expected);
    if tag == IDENTIFIER {
        let nul = bytes.iter().position(|&byte| byte == 0);
        let place = nul.map(|at| at + 1);
        spot.hold(place == Some(length), FieldFault::Nul { place, length });
    }
}

#[cfg(test)]
mod tests {
    use super::{same_identifier, walk_step, Step};
    use crate::numbers::Bytes;

    fn fields_hold(data: &[u8], most_after: usize) -> bool {
        super::fields(Bytes::new(data), most_after).is_empty()
    }

    /// The fields that must be present, with this identifier field, then these bytes.
    fn data(identifier: &[u8], rest: &[u8]) -> Vec<u8> {
        let others = [14, 0, 0, 25, 4, 0, 1, 2, 3, 4, 26, 3, 0, 1, 2, 3];
        [identifier, &others, rest].concat()
    }

    #[test]
    fn p10_identifiers_007_and_7_differ() {
        let one = data(&[2, 4, 0, 0x30, 0x30, 0x37, 0], &[255, 0, 0]);
        let other = data(&[2, 2, 0, 0x37, 0], &[255, 0, 0]);
        assert!(fields_hold(&one, 0) && fields_hold(&other, 0));
        let shown = |data: &[u8]| {
            let step = walk_step(data, 0).expect("a field");
            data[step.start..step.next].to_vec()
        };
        assert_eq!(shown(&one), [0x30, 0x30, 0x37, 0]);
        assert_eq!(shown(&other), [0x37, 0]);
        assert!(!same_identifier(&shown(&one), &shown(&other)));
        assert!(same_identifier(&shown(&one), &[0x30, 0x30, 0x37, 0]));
    }

    #[test]
    fn the_end_of_the_fields() {
        let hold = |rest: &[u8], after| fields_hold(&data(&[2, 2, 0, 7, 0], rest), after);
        assert!(hold(&[255, 0, 0], 0));
        assert!(hold(&[255, 0, 0, 9], 1));
        assert!(!hold(&[255, 0, 0, 9], 0));
        assert!(!hold(&[255, 0, 0, 9, 9], 1));
        assert!(!hold(&[], 1));
        assert!(!hold(&[255, 0], 1));
        assert!(!hold(&[255, 1, 0, 9, 255, 0, 0], 1));
        assert!(!hold(&[9, 9, 9, 255, 0, 0], 1));
        assert!(hold(&[9, 1, 0, 255, 255, 0, 0], 0));
    }

    #[test]
    fn identifiers() {
        let hold = |bytes: &[u8]| {
            let field = [&[2, bytes.len() as u8, 0], bytes].concat();
            fields_hold(&data(&field, &[255, 0, 0]), 0)
        };
        assert!(hold(&[1, 0]));
        assert!(hold(&[vec![255; 63], vec![0]].concat()));
        assert!(!hold(&[vec![255; 64], vec![0]].concat()));
        assert!(!hold(&[]) && !hold(&[0]) && !hold(&[1]));
        assert!(!hold(&[0, 0]) && !hold(&[1, 0, 0]) && !hold(&[1, 1]));
    }

    #[test]
    fn fields_that_stand_once() {
        let twice = [2, 2, 0, 7, 0, 2, 2, 0, 7, 0];
        assert!(!fields_hold(&data(&twice, &[255, 0, 0]), 0));
        assert!(!fields_hold(&data(&[], &[255, 0, 0]), 0));
        let repeated = [1, 0, 0, 1, 0, 0, 255, 0, 0];
        assert!(fields_hold(&data(&[2, 2, 0, 7, 0], &repeated), 0));
    }

    #[test]
    fn steps_end_where_no_whole_field_stands() {
        let section = [5, 2, 0, 8, 9, 255, 1, 0, 7, 6, 9, 0];
        let first = Step {
            tag: 5,
            start: 3,
            length: 2,
            next: 5,
        };
        assert_eq!(walk_step(&section, 0), Some(first));
        assert_eq!(walk_step(&section, 5), None, "tag 255 with a length");
        assert_eq!(walk_step(&section, 9), None, "cut");
        for at in [10, 11, 12, 13, usize::MAX - 2, usize::MAX] {
            assert_eq!(walk_step(&section, at), None);
        }
    }
}
