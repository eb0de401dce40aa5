//! Section 5 or 6: how the samples of its leads are stored, and their streams (01, Leads and
//! samples).

use crate::bounds;
use crate::finding::{self, Findings, LeadFault, Needs, Part, What};
use crate::numbers::Bytes;

/// Sections 3, 5 and 6 may end in this many spare bytes.
pub const SPARE: usize = 1;
/// The bytes before the byte counts.
const HEAD: usize = 6;

/// The content of Section 5 or 6.
#[derive(Clone, Debug)]
pub struct Stored<'a> {
    pub step: u16,
    pub interval: u16,
    pub order: u8,
    /// Reserved in Section 5, bimodal in Section 6.
    pub sixth: u8,
    /// The offset of the sixth byte, counted from 1.
    pub offset: usize,
    /// The stream of each lead.
    pub streams: Vec<Bytes<'a>>,
}

/// Section 5 or 6 for `leads` leads, its sixth byte not judged; `None` if it ends before its
/// streams.
pub fn stored<'a>(mut data: Bytes<'a>, leads: usize, found: &mut Findings) -> Option<Stored<'a>> {
    let (start, left) = (data.offset(), data.left());
    let Some(mut head) = data.part(HEAD + 2 * leads) else {
        let needs = Needs::ByteCounts(leads);
        let mut spot = found.at(Part::Whole, start);
        spot.short(needs, HEAD + 2 * leads, left);
        return None;
    };
    let (step, interval) = (head.two()?, head.two()?);
    let (order, sixth) = (head.byte()?, head.byte()?);
    let orders = finding::bounds(&bounds::ORDERS);
    for (at, what, number, expected) in [
        (0, What::Step, step, 1..=i64::MAX),
        (2, What::Interval, interval, 1..=i64::MAX),
        (4, What::Order, order.into(), orders),
    ] {
        let mut spot = found.at(Part::Whole, start + at);
        spot.number(what, number, expected);
    }
    let counts: Vec<usize> = (0..leads)
        .filter_map(|_| head.two())
        .map(usize::from)
        .collect();
    let (sum, left) = (counts.iter().sum(), data.left());
    let is_filled = (sum..=sum + SPARE).contains(&left);
    let mut spot = found.at(Part::Whole, start + HEAD);
    spot.hold(is_filled, LeadFault::ByteCounts { sum, left });
    let streams = counts.into_iter().map_while(|count| data.part(count));
    Some(Stored {
        step,
        interval,
        order,
        sixth,
        offset: start + HEAD - 1,
        streams: streams.collect(),
    })
}

#[cfg(test)]
mod tests {
    use super::stored;
    use crate::finding::Findings;
    use crate::numbers::Bytes;
    use crate::row;

    #[test]
    fn byte_counts() {
        let hold = |data: &[u8]| {
            let mut found = Findings::new(row::SECTIONS_3_TO_6, Some(6));
            stored(Bytes::new(data), 2, &mut found);
            found.list().is_empty()
        };
        assert!(hold(&[1, 0, 1, 0, 2, 0, 1, 0, 0, 0, 170]));
        assert!(hold(&[1, 0, 1, 0, 2, 77, 1, 0, 0, 0, 170, 0]));
        assert!(!hold(&[1, 0, 1, 0, 2, 0, 1, 0, 0, 0, 170, 0, 0]));
        assert!(!hold(&[1, 0, 1, 0, 2, 0, 2, 0, 0, 0, 170]));
        assert!(!hold(&[0, 0, 1, 0, 2, 0, 1, 0, 0, 0, 170]), "step");
        assert!(!hold(&[1, 0, 0, 0, 2, 0, 1, 0, 0, 0, 170]), "interval");
        assert!(!hold(&[1, 0, 1, 0, 3, 0, 1, 0, 0, 0, 170]), "order");
        assert!(!hold(&[1, 0, 1, 0, 2, 0, 1, 0, 0]), "a count cut off");
    }
}
