//! The library's verdict on a whole record: it is opened, and every lead of it is read.

use std::fmt;

use scp::{Lead, Pointer, Refusal, SAMPLES_MAX};
use serde::Serialize;

use crate::input::Size;
use crate::text::how_many;

/// The last refusal that all leads have alike.
const OF_ALL: Refusal = Refusal::ABSENT;

/// Most beats have no more samples than this.
const MOST_BEATS: usize = 2048;

/// A verdict in a word.
#[derive(Clone, Copy, Debug, PartialEq, Eq, Serialize)]
#[serde(rename_all = "lowercase")]
pub enum Word {
    Accepted,
    Refused,
    /// The record does not have what is asked for, and need not have it.
    Absent,
    /// The file could not be read.
    Unread,
}

/// The verdict on a record.
#[derive(Clone, Copy, Debug, PartialEq, Eq)]
pub enum Verdict {
    /// It opens, and this many leads are read: none, where it has neither Section 3 nor Section 6. That compared so many
    /// structures of code tables, over all leads.
    Accepted { leads: usize, compared: usize },
    /// It is refused, or a lead of it at this place is, the first one.
    Refused {
        refusal: Refusal,
        lead: Option<usize>,
    },
}

/// Room for any lead, and for its beat.
pub struct Room {
    out: Vec<i16>,
    work: Vec<i16>,
}

impl Default for Room {
    fn default() -> Room {
        Room {
            out: vec![0; SAMPLES_MAX],
            work: vec![0; SAMPLES_MAX],
        }
    }
}

impl Room {
    /// Reads a lead and its samples. All that is lent for a beat is cleared, so that little is lent first, and all if that is
    /// too little.
    pub fn read(&mut self, record: &[u8], place: usize) -> Result<(Lead, &[i16]), Refusal> {
        let mut read = |work: &mut [i16]| scp::read_lead(record, place, &mut self.out, work);
        let lead = match read(&mut self.work[..MOST_BEATS]) {
            Err(Refusal::ROOM) => read(&mut self.work),
            answer => answer,
        }?;
        Ok((lead, &self.out[..lead.count]))
    }
}

impl Verdict {
    /// Judges a record. A lead that is asked for is refused as opening refuses, so that nothing is lost by asking for the first
    /// one at once.
    pub fn of(record: &[u8], room: &mut Room) -> Verdict {
        let leads = match scp::lead(record, 1) {
            Ok(entry) => entry.leads,
            Err(Refusal::ABSENT) if has_none(record) => 0,
            Err(refusal) => {
                return Verdict::Refused {
                    refusal,
                    lead: None,
                }
            }
        };
        let mut compared = 0;
        for place in 1..=leads {
            match room.read(record, place) {
                Ok((lead, _)) => compared += lead.compared as usize,
                Err(refusal) => {
                    return Verdict::Refused {
                        refusal,
                        lead: (refusal > OF_ALL).then_some(place),
                    }
                }
            }
        }
        Verdict::Accepted { leads, compared }
    }

    /// The place of the lead that is refused, if it is one lead.
    pub fn lead(&self) -> Option<usize> {
        match self {
            Verdict::Accepted { .. } => None,
            Verdict::Refused { lead, .. } => *lead,
        }
    }

    /// The verdict on a record of this size, in a few words.
    pub fn told(&self, size: Size) -> String {
        match self {
            Verdict::Accepted { leads, .. } => format!("{self} ({size}; {})", how_many(*leads)),
            Verdict::Refused { .. } => format!("{self} ({size})"),
        }
    }
}

impl fmt::Display for Verdict {
    fn fmt(&self, f: &mut fmt::Formatter<'_>) -> fmt::Result {
        match self {
            Verdict::Accepted { .. } => write!(f, "accepted"),
            Verdict::Refused { refusal, lead } => {
                write!(f, "refused, number {}", refusal.number())?;
                lead.map_or(Ok(()), |place| write!(f, ", lead {place}"))
            }
        }
    }
}

/// That a record has not the lead at a place, in words, if that is what it is refused for. A record with one of Sections 3 and
/// 6 alone is not sound: there is no verdict on it but that it is refused.
pub fn absent(record: &[u8], place: usize, refusal: Refusal) -> Option<String> {
    if refusal != Refusal::ABSENT {
        return None;
    }
    match scp::lead(record, 1) {
        Ok(_) if place == 0 => Some("the record has no lead 0: --lead starts at 1".to_string()),
        Ok(entry) => {
            let leads = how_many(entry.leads);
            Some(format!("the record has no lead {place}: it has {leads}"))
        }
        Err(_) => has_none(record).then(|| "the record has no leads".to_string()),
    }
}

/// Whether a record that opens has neither Section 3 nor Section 6, and so no lead.
fn has_none(record: &[u8]) -> bool {
    let of_leads = |pointer: &Pointer| [3, 6].contains(&pointer.id) && pointer.is_present();
    scp::open(record).is_ok_and(|pointers| !pointers.iter().any(of_leads))
}

#[cfg(test)]
mod tests {
    use judge::make::{aimed, noise, Rng};
    use scp::Refusal;

    use super::{Room, Verdict};

    /// A verdict is what opening and then reading each lead answer, taken one by one.
    #[test]
    fn a_verdict_is_that_of_opening_and_reading() {
        let mut rng = Rng::new(3);
        let mut room = Room::default();
        let (mut accepted, mut refused) = (0, [0; 15]);
        for turn in 0..600 {
            let record = match (turn % 15) as u8 {
                0 => noise(&mut rng),
                row => aimed(&mut rng, row),
            };
            match Verdict::of(&record, &mut room) {
                Verdict::Accepted { leads, compared } => {
                    assert!(scp::open(&record).is_ok());
                    let read = |place| scp::samples(&record, place).unwrap().0;
                    let each = (1..=leads).map(|place| read(place).compared as usize);
                    assert_eq!(each.sum::<usize>(), compared);
                    let next = scp::samples(&record, leads + 1);
                    assert_eq!(next.err(), Some(Refusal::ABSENT));
                    accepted += 1;
                }
                Verdict::Refused { refusal, lead } => {
                    let first = scp::open(&record).map(|_| ());
                    let asked = scp::samples(&record, lead.unwrap_or(1)).map(|_| ());
                    assert_eq!(first.and(asked), Err(refusal));
                    for place in 1..lead.unwrap_or(1) {
                        assert!(scp::samples(&record, place).is_ok());
                    }
                    refused[refusal.number() as usize] += 1;
                }
            }
        }
        assert!(accepted > 0);
        let never: Vec<usize> = (1..15).filter(|&row| refused[row] == 0).collect();
        let room = usize::from(Refusal::ROOM.number());
        assert_eq!(never, [room], "{refused:?}");
    }
}
