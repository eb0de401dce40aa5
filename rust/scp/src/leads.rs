//! Leads: what a record says of them, and their samples.

use crate::raw;
use crate::Refusal;

/// The most leads that a record has.
pub const LEADS_MAX: usize = 32;

/// The most samples that a lead has, and the most that a reference beat has: so much room and work space is always enough.
pub const SAMPLES_MAX: usize = 65_536;

/// The bit of the flags that tells of a reference beat.
const BEAT: u8 = 1;

/// A lead that was read, apart from its samples.
#[derive(Clone, Copy, Debug, PartialEq, Eq)]
pub struct Lead {
    /// The lead's ID.
    pub id: u8,
    /// The flags of Section 3, as they are stored.
    pub flags: u8,
    /// The step in nanovolts: what a sample of 1 stands for.
    pub step: u16,
    /// The interval between two samples in microseconds.
    pub interval: u16,
    /// The number of the first sample.
    pub first: u32,
    /// How many samples there are.
    pub count: usize,
    /// How many code structures were compared: for each code that was read its structure's place in its table, from 1, all
    /// of them added up. Switches count, and where a reference beat was subtracted its stream counts too, once. It is 0 in a
    /// record without Section 2, and at most 64 times the bits of the codes.
    pub compared: u32,
}

impl Lead {
    /// Whether a reference beat was subtracted from the leads before they were stored. It is added back in reading.
    pub fn had_beat_subtracted(&self) -> bool {
        self.flags & BEAT != 0
    }
}

/// A record's description of a lead, its stream unread.
#[derive(Clone, Copy, Debug, PartialEq, Eq)]
pub struct Entry {
    /// The lead's ID.
    pub id: u8,
    /// The flags of Section 3, as they are stored.
    pub flags: u8,
    /// The order of the differences that are stored: 0, 1 or 2.
    pub order: u8,
    /// The step in nanovolts: what a sample of 1 stands for.
    pub step: u16,
    /// The interval between two samples in microseconds.
    pub interval: u16,
    /// The number of the first sample.
    pub first: u32,
    /// The number of the last sample.
    pub last: u32,
    /// How many leads the record has.
    pub leads: usize,
    /// How many bytes the lead's stream has in Section 6.
    pub bytes: usize,
}

impl Entry {
    /// How many samples the lead has.
    pub fn count(&self) -> usize {
        (self.last - self.first) as usize + 1
    }

    /// Whether a reference beat was subtracted from the leads before they were stored.
    pub fn had_beat_subtracted(&self) -> bool {
        self.flags & BEAT != 0
    }
}

/// Reads the lead at a place of Section 3, from 1. Its samples are the first elements of `out`, and no others are
/// changed. Work space is needed where a reference beat was subtracted, an element for each sample of the beat; all that
/// was lent is zeros once the beat's reading has begun, and untouched otherwise.
///
/// Refused with the smallest of 1 to 11 that applies, then with the first of 12 to 14 that is met; `out` is then as it was.
pub fn read_lead(
    record: &[u8],
    place: usize,
    out: &mut [i16],
    work: &mut [i16],
) -> Result<Lead, Refusal> {
    let lead = raw::read_lead(record, place, out, work);
    let answer = Lead {
        id: lead.id,
        flags: lead.flags,
        step: lead.step,
        interval: lead.interval,
        first: lead.first,
        count: lead.count as usize,
        compared: lead.compared,
    };
    Refusal::or(lead.refusal, answer)
}

/// Reads the lead at a place of Section 3, from 1, into room that is made for it. Refused as [`read_lead`] is, but for 11.
pub fn samples(record: &[u8], place: usize) -> Result<(Lead, Vec<i16>), Refusal> {
    let entry = lead(record, place)?;
    let mut samples = vec![0; entry.count()];
    let mut work = match entry.had_beat_subtracted() {
        true => vec![0; SAMPLES_MAX],
        false => Vec::new(),
    };
    let lead = read_lead(record, place, &mut samples, &mut work)?;
    Ok((lead, samples))
}

/// Shows what a record says of the lead at a place of Section 3, from 1, its stream unread. Refused with the smallest of 1
/// to 10 that applies.
pub fn lead(record: &[u8], place: usize) -> Result<Entry, Refusal> {
    // SAFETY: the pointer and the length are those of a slice lent for the call, which only reads it.
    let entry = unsafe { raw::scp_lead(record.as_ptr(), record.len(), place) };
    let answer = Entry {
        id: entry.id,
        flags: entry.flags,
        order: entry.order,
        step: entry.step,
        interval: entry.interval,
        first: entry.first,
        last: entry.last,
        leads: entry.leads as usize,
        bytes: entry.bytes as usize,
    };
    Refusal::or(entry.refusal, answer)
}

/// Shows what a record says of each of its leads, in the order of Section 3; there is at least one. Refused as [`lead`] is,
/// with 10 if Section 3 or 6 is absent.
pub fn leads(record: &[u8]) -> Result<Vec<Entry>, Refusal> {
    let first = lead(record, 1)?;
    let others = (2..=first.leads).map(|place| lead(record, place));
    std::iter::once(Ok(first)).chain(others).collect()
}
