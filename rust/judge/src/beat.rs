//! Section 4: the reference beat that was subtracted, and the zones it was subtracted in: row 8
//! (01, Leads and samples).

use crate::bounds;
use crate::finding::{self, Findings, Needs, Part, Spot, What, ZoneFault};
use crate::numbers::Bytes;
use crate::stored::Stored;

/// The bytes before the QRS, and those of a QRS.
const HEAD: usize = 6;
const QRS: usize = 14;

/// A zone of type 0: its samples `start` to `end` and its fiducial C.
#[derive(Clone, Copy, Debug)]
pub struct Zone {
    pub start: u32,
    pub fiducial: u32,
    pub end: u32,
}

/// The reference beat that was subtracted.
#[derive(Clone, Debug)]
pub struct Beat<'a> {
    /// N, its number of samples.
    pub count: usize,
    /// F.
    pub fiducial: u16,
    /// Those of type 0, rising.
    pub zones: Vec<Zone>,
    /// Section 5.
    pub stored: Stored<'a>,
}

/// N, the samples of a beat of `length` milliseconds at an interval in microseconds that is not 0.
pub fn beat_count(length: u16, interval: u16) -> usize {
    1000 * usize::from(length) / usize::from(interval).max(1)
}

/// Section 4 with Section 5, if that can be read; what follows the zones is not read.
pub fn beat<'a>(
    mut data: Bytes,
    section_5: Option<Stored<'a>>,
    found: &mut Findings,
) -> Option<Beat<'a>> {
    let (start, left) = (data.offset(), data.left());
    let (Some(length), Some(fiducial), Some(number)) = (data.two(), data.two(), data.two()) else {
        found.at(Part::Whole, start).short(Needs::Head, HEAD, left);
        return None;
    };
    let interval = section_5.as_ref().map(|stored| stored.interval);
    let count = interval
        .filter(|&interval| interval != 0)
        .map(|interval| beat_count(length, interval));
    if let Some(count) = count {
        let samples = finding::bounds(&bounds::SAMPLES);
        let mut spot = found.at(Part::Whole, start);
        if spot.number(What::BeatSamples, count as i64, samples) {
            let mut spot = found.at(Part::Whole, start + 2);
            spot.number(What::Fiducial, fiducial, 1..=count as i64);
        }
    }
    let mut spot = found.at(Part::Whole, start + 4);
    spot.number(What::Qrs, number, finding::bounds(&bounds::QRS));
    let number = usize::from(number);
    if left < HEAD + QRS * number {
        spot.short(Needs::Qrs(number), HEAD + QRS * number, left);
    }
    let zones = zones(&mut data, number, fiducial, count, found);
    Some(Beat {
        count: count?,
        fiducial,
        zones,
        stored: section_5?,
    })
}

/// The zones of type 0 among `number` QRS, as far as they are whole.
fn zones(
    data: &mut Bytes,
    number: usize,
    fiducial: u16,
    count: Option<usize>,
    found: &mut Findings,
) -> Vec<Zone> {
    let mut zones = Vec::new();
    let mut before = 0;
    for place in 1..=number.min(*bounds::QRS.end()) {
        let offset = data.offset();
        let Some(mut qrs) = data.part(QRS) else {
            break;
        };
        let mut spot = found.at(Part::Qrs(place), offset);
        if let Some(zone) = zone(&mut qrs, &mut spot) {
            zone.judge(before, fiducial, count, &mut spot);
            before = zone.end;
            zones.push(zone);
        }
    }
    zones
}

/// The zone of a QRS, if it is of type 0.
fn zone(qrs: &mut Bytes, spot: &mut Spot) -> Option<Zone> {
    let qrs_type = qrs.two()?;
    let (start, fiducial, end) = (qrs.four()?, qrs.four()?, qrs.four()?);
    if qrs_type == 0 {
        return Some(Zone {
            start,
            fiducial,
            end,
        });
    }
    let fault = ZoneFault::OfType {
        qrs_type,
        start,
        end,
    };
    spot.hold((start, end) == (0, 0), fault);
    None
}

impl Zone {
    /// n-C+F, the number of the beat's sample that is added to sample n.
    pub fn beat_sample(&self, n: u32, fiducial: u16) -> i64 {
        i64::from(n) - i64::from(self.fiducial) + i64::from(fiducial)
    }

    /// A zone has samples, starts after the one before it, and finds a sample of the beat for each
    /// of its own: that rises by one with n, so its ends decide.
    fn judge(&self, before: u32, fiducial: u16, count: Option<usize>, spot: &mut Spot) {
        let (start, end) = (self.start, self.end);
        if spot.hold(1 <= start && start <= end, ZoneFault::Empty { start, end }) {
            spot.hold(before < start, ZoneFault::Overlap { start, before });
        }
        let [first, last] = [start, end].map(|n| self.beat_sample(n, fiducial));
        if let Some(samples) = count {
            let fault = ZoneFault::Outside {
                first,
                last,
                samples,
            };
            spot.hold(1 <= first && last <= samples as i64, fault);
        }
    }
}

#[cfg(test)]
mod tests {
    use super::{beat, beat_count};
    use crate::finding::Findings;
    use crate::numbers::Bytes;
    use crate::row;
    use crate::stored::stored;

    #[test]
    fn p8_samples_of_a_beat() {
        assert_eq!(beat_count(1000, 2000), 500);
        assert_eq!(beat_count(999, 2001), 499);
        assert_eq!(beat_count(1, 1001), 0);
        assert_eq!(beat_count(65_535, 1), 65_535_000);
    }

    /// Whether these QRS hold, with L 10 and an interval of 2000, so N 5, and F 3.
    fn zones_hold(zones: &[(u16, u32, u32, u32)]) -> bool {
        let mut section_4 = vec![10, 0, 3, 0, zones.len() as u8, 0];
        for (qrs_type, start, fiducial, end) in zones {
            section_4.extend(qrs_type.to_le_bytes());
            section_4.extend(start.to_le_bytes());
            section_4.extend(fiducial.to_le_bytes());
            section_4.extend(end.to_le_bytes());
        }
        let mut found = Findings::new(row::SECTIONS_3_TO_6, Some(4));
        let section_5 = stored(Bytes::new(&[1, 0, 0xD0, 7, 0, 0, 0, 0]), 1, &mut found);
        beat(Bytes::new(&section_4), section_5, &mut found);
        found.list().is_empty()
    }

    #[test]
    fn zones() {
        assert!(zones_hold(&[]));
        assert!(zones_hold(&[(0, 2, 4, 6), (1, 0, 9, 0), (0, 7, 8, 8)]));
        assert!(zones_hold(&[(0, u32::MAX, u32::MAX, u32::MAX)]));
        assert!(!zones_hold(&[(0, 2, 4, 6), (0, 6, 8, 8)]), "overlap");
        assert!(!zones_hold(&[(0, 7, 8, 8), (0, 2, 4, 6)]), "falling");
        assert!(!zones_hold(&[(0, 0, 1, 2)]), "start 0");
        assert!(!zones_hold(&[(0, 4, 4, 3)]), "empty");
        assert!(!zones_hold(&[(0, 1, 4, 3)]), "beat sample 0");
        assert!(!zones_hold(&[(0, 3, 4, 7)]), "beat sample 6");
        assert!(!zones_hold(&[(2, 1, 4, 0)]), "another type with a start");
        assert!(!zones_hold(&[(2, 0, 4, 1)]), "another type with an end");
    }
}
