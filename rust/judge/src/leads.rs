//! Sections 3 to 6: which leads there are, and where the streams lie: rows 8 to 10 (01, Leads and
//! samples).

use crate::beat::{beat, Beat};
use crate::bounds;
use crate::finding::{self, Fault, Finding, Findings, LeadFault, Needs, Part, What};
use crate::numbers::Bytes;
use crate::record::data_of;
use crate::row;
use crate::stored::{stored, Stored, SPARE};

/// The bytes before the leads of Section 3, and those of a lead.
const HEAD: usize = 2;
const LEAD: usize = 9;

/// Section 3's entry for a lead.
#[derive(Clone, Copy, Debug)]
pub struct Span {
    pub first: u32,
    pub last: u32,
    pub id: u8,
}

impl Span {
    /// Its number of samples.
    pub fn count(&self) -> usize {
        (self.last.abs_diff(self.first) as usize).saturating_add(1)
    }
}

/// Sections 3 to 6 of a record that has Section 3.
#[derive(Clone, Debug)]
pub struct Rhythm<'a> {
    pub flags: u8,
    pub leads: Vec<Span>,
    /// Where bit 0 of the flags is 1.
    pub beat: Option<Beat<'a>>,
    /// Section 6, where it is present.
    pub stored: Option<Stored<'a>>,
}

/// Row 8: the rules and bounds of Sections 3 to 6, or a needed one absent.
pub fn sections_3_to_6(record: &[u8]) -> Vec<Finding> {
    rhythm(record).err().unwrap_or_default()
}

/// Row 9: bimodal compression, or a beat whose step or interval is not the residual's.
pub fn agreement(record: &[u8]) -> Vec<Finding> {
    let mut found = Findings::new(row::AGREEMENT, Some(6));
    // what breaks row 8 is that row's to find
    let mut aside = Findings::new(row::SECTIONS_3_TO_6, None);
    let mut head = |id| data_of(record, id).and_then(|data| stored(data, 0, &mut aside));
    let (section_5, section_6) = (head(5), head(6));
    let Some(rhythm) = section_6 else {
        return found.list();
    };
    let is_bimodal = rhythm.sixth == 1;
    let mut spot = found.at(Part::Whole, rhythm.offset);
    spot.hold(!is_bimodal, LeadFault::Bimodal);
    let flags = data_of(record, 3).and_then(|data| data.slice().get(1).copied());
    let was_subtracted = flags.is_some_and(|flags| flags & 1 == 1);
    if let Some(beat) = section_5.filter(|_| was_subtracted) {
        for (what, section_5, section_6) in [
            (What::Step, beat.step, rhythm.step),
            (What::Interval, beat.interval, rhythm.interval),
        ] {
            let fault = LeadFault::Differs {
                what,
                section_5,
                section_6,
            };
            found.of(Part::Whole).hold(section_5 == section_6, fault);
        }
    }
    found.list()
}

/// Row 10: a lead at a place from 1 that is not there.
pub fn absent(record: &[u8], place: usize) -> Vec<Finding> {
    let mut found = Findings::new(row::ABSENT, None);
    for section in [3, 6] {
        found.go_to(section);
        let is_present = data_of(record, section).is_some();
        found.of(Part::Whole).hold(is_present, Fault::Absent);
    }
    if let Some(leads) = data_of(record, 3).and_then(|mut data| data.byte()) {
        found.go_to(3);
        let leads = usize::from(leads);
        let mut spot = found.of(Part::Whole);
        spot.hold(place != 0, LeadFault::PlaceZero);
        spot.hold(place <= leads, LeadFault::NoLead { place, leads });
    }
    found.list()
}

/// The number of leads in Section 3, 0 without it; only Section 3's own rules are judged, not what
/// it needs of others (02, Q-13).
pub fn number_of_leads(record: &[u8]) -> Result<usize, Vec<Finding>> {
    let mut found = Findings::new(row::SECTIONS_3_TO_6, Some(3));
    let number = data_of(record, 3).map_or(0, |data| spans(data, &mut found).1);
    found.or(Some(number))
}

/// Sections 3 to 6 judged; `None` if neither Section 3 nor Section 6 is there.
pub fn rhythm(record: &[u8]) -> Result<Option<Rhythm<'_>>, Vec<Finding>> {
    let mut found = Findings::new(row::SECTIONS_3_TO_6, Some(3));
    let Some(section_3) = data_of(record, 3) else {
        let alone = data_of(record, 6).is_some();
        found.of(Part::Whole).hold(!alone, Fault::Absent);
        return found.or(Some(None));
    };
    let (flags, number, leads) = spans(section_3, &mut found);
    let beat = match flags & 1 {
        1 => beat_of(record, number, &mut found),
        _ => None,
    };
    found.go_to(6);
    let stored = data_of(record, 6).and_then(|data| {
        let stored = stored(data, number, &mut found)?;
        let mut spot = found.at(Part::Whole, stored.offset);
        spot.number(What::Bimodal, stored.sixth, 0..=1);
        Some(stored)
    });
    found.or(Some(Some(Rhythm {
        flags,
        leads,
        beat,
        stored,
    })))
}

/// The beat that was subtracted, if Sections 4 and 5 are there and can be read.
fn beat_of<'a>(record: &'a [u8], leads: usize, found: &mut Findings) -> Option<Beat<'a>> {
    let sections = [4, 5].map(|id| {
        found.go_to(id);
        let data = data_of(record, id);
        found.of(Part::Whole).hold(data.is_some(), Fault::Absent);
        data
    });
    let section_5 = sections[1].and_then(|data| stored(data, leads, found));
    found.go_to(4);
    beat(sections[0]?, section_5, found)
}

/// Section 3: the flags, the number of leads, and those that are there.
fn spans(mut data: Bytes, found: &mut Findings) -> (u8, usize, Vec<Span>) {
    let (offset, left) = (data.offset(), data.left());
    let (Some(number), Some(flags)) = (data.byte(), data.byte()) else {
        found.at(Part::Whole, offset).short(Needs::Head, HEAD, left);
        return (0, 0, Vec::new());
    };
    let mut spot = found.at(Part::Whole, offset);
    if !spot.number(What::Leads, number, finding::bounds(&bounds::LEADS)) {
        return (flags, number.into(), Vec::new());
    }
    let number = usize::from(number);
    let (needed, left) = (LEAD * number, data.left());
    if left < needed {
        spot.short(Needs::Leads(number), HEAD + needed, HEAD + left);
    } else if left > needed + SPARE {
        spot.push(Fault::After {
            found: left - needed,
            most: SPARE,
        });
    }
    let leads = (1..=number).map_while(|place| span(&mut data, place, found));
    (flags, number, leads.collect())
}

/// The next lead of Section 3, if it is whole.
fn span(data: &mut Bytes, place: usize, found: &mut Findings) -> Option<Span> {
    let mut spot = found.at(Part::Lead(place), data.offset());
    let (first, last, id) = (data.four()?, data.four()?, data.byte()?);
    let span = Span { first, last, id };
    spot.number(What::FirstSample, first, 1..=i64::MAX);
    if spot.hold(first <= last, LeadFault::Backwards { first, last }) {
        let samples = finding::bounds(&bounds::SAMPLES);
        spot.number(What::Samples, span.count() as i64, samples);
    }
    Some(span)
}

#[cfg(test)]
mod tests {
    use super::spans;
    use crate::finding::Findings;
    use crate::numbers::Bytes;
    use crate::row;

    fn hold(data: &[u8]) -> bool {
        let mut found = Findings::new(row::SECTIONS_3_TO_6, Some(3));
        spans(Bytes::new(data), &mut found);
        found.list().is_empty()
    }

    /// Section 3's data for one lead.
    fn one_lead(first: u32, last: u32) -> Vec<u8> {
        let (first, last) = (first.to_le_bytes(), last.to_le_bytes());
        [&[1, 0], &first[..], &last[..], &[9]].concat()
    }

    #[test]
    fn first_and_last_samples() {
        let hold = |first, last| hold(&one_lead(first, last));
        assert!(hold(1, 1));
        assert!(hold(1, 65_536));
        assert!(hold(u32::MAX, u32::MAX));
        assert!(!hold(0, 1));
        assert!(!hold(2, 1));
        assert!(!hold(1, 65_537));
        assert!(!hold(1, u32::MAX));
    }

    #[test]
    fn numbers_of_leads_and_spare_bytes() {
        let lead = [1, 0, 0, 0, 1, 0, 0, 0, 7];
        let data = |number: u8, leads: usize, spare: usize| {
            [vec![number, 0], lead.repeat(leads), vec![5; spare]].concat()
        };
        assert!(hold(&data(32, 32, 0)));
        assert!(hold(&data(1, 1, 1)));
        assert!(!hold(&data(1, 1, 2)));
        assert!(!hold(&data(0, 0, 0)));
        assert!(!hold(&data(33, 33, 0)));
        assert!(!hold(&data(2, 1, 0)));
        assert!(!hold(&[1]));
    }
}
