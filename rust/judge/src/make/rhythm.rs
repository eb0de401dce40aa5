//! Sections 3 to 6 for made records: leads, reference beats and zones.

use super::rng::Rng;
use super::streams::{draw, Draw};
use crate::beat::beat_count;
use crate::bounds;
use crate::tables::Tables;

/// A lead as it must be read.
#[derive(Clone, Debug, PartialEq, Eq)]
pub struct MadeLead {
    pub first: u32,
    pub id: u8,
    pub samples: Vec<i16>,
}

/// The content of Sections 3 to 6 of a made record.
#[derive(Clone, Debug)]
pub struct Rhythm {
    pub flags: u8,
    pub step: u16,
    pub interval: u16,
    pub order: u8,
    pub leads: Vec<MadeLead>,
    /// Each lead's stream in Section 6.
    pub streams: Vec<Vec<u8>>,
    pub beat: Option<Beat>,
}

/// A made reference beat.
#[derive(Clone, Debug)]
pub struct Beat {
    pub length: u16,
    pub fiducial: u16,
    pub order: u8,
    pub qrs: Vec<Qrs>,
    /// Each lead's beat and its stream in Section 5.
    pub samples: Vec<Vec<i16>>,
    pub streams: Vec<Vec<u8>>,
}

/// A QRS of Section 4.
#[derive(Clone, Copy, Debug)]
pub struct Qrs {
    pub qrs_type: u16,
    pub start: u32,
    pub fiducial: u32,
    pub end: u32,
}

/// Draws leads, with a subtracted beat if wanted; `None` if the tables and the choices made leave
/// no sample.
pub fn rhythm(rng: &mut Rng, tables: Option<&Tables>, beaten: bool) -> Option<Rhythm> {
    let interval = interval(rng);
    let number = number_of_leads(rng);
    let base = base(rng);
    let beat = match beaten {
        true => Some(beat(rng, tables, interval, number, base)?),
        false => None,
    };
    let mut rhythm = Rhythm {
        flags: rng.byte() & 0xFE | u8::from(beaten),
        step: rng.within(1..=65_535) as u16,
        interval,
        order: rng.below(3) as u8,
        leads: Vec::new(),
        streams: Vec::new(),
        beat,
    };
    let long = rng.one_in(400);
    for at in 0..number {
        let count = if long { 65_536 } else { 1 + rng.small(20_000) };
        rhythm.add_lead(rng, tables, base, count, long, at)?;
    }
    Some(rhythm)
}

fn number_of_leads(rng: &mut Rng) -> usize {
    if rng.one_in(60) {
        *bounds::LEADS.end()
    } else {
        1 + rng.small(31)
    }
}

fn interval(rng: &mut Rng) -> u16 {
    match rng.one_in(4) {
        true => rng.within(1..=65_535) as u16,
        false => rng.pick(&[1, 125, 500, 1000, 1250, 2000, 2001, 4000, 65_535]),
    }
}

/// The sample number that leads start around.
fn base(rng: &mut Rng) -> u32 {
    match rng.below(12) {
        0 => u32::MAX - rng.small(70_000) as u32,
        1 => rng.four(),
        2 | 3 => rng.small(5000) as u32,
        _ => 1,
    }
}

impl Rhythm {
    fn add_lead(
        &mut self,
        rng: &mut Rng,
        tables: Option<&Tables>,
        base: u32,
        count: usize,
        calm: bool,
        at: usize,
    ) -> Option<()> {
        let shift = rng.pick(&[0, 0, 1]) * rng.small(50) as u32;
        let first = base.saturating_add(shift).max(1);
        let count = count.min((u32::MAX - first) as usize + 1);
        let added = match &self.beat {
            Some(beat) => beat.added(at, first, count),
            None => Vec::new(),
        };
        let how = Draw {
            tables,
            order: self.order,
            count,
            calm: calm || rng.one_in(4),
        };
        let drawn = draw(rng, &how, &added);
        let sum = |(place, sample): (usize, &i16)| sample + added.get(place).unwrap_or(&0);
        let samples: Vec<i16> = drawn.samples.iter().enumerate().map(sum).collect();
        if samples.is_empty() {
            return None;
        }
        self.leads.push(MadeLead {
            first,
            id: rng.byte(),
            samples,
        });
        self.streams.push(drawn.stream);
        Some(())
    }

    pub fn section_3(&self) -> Vec<u8> {
        let mut data = vec![self.leads.len() as u8, self.flags];
        for lead in &self.leads {
            let last = lead.first.saturating_add((lead.samples.len() - 1) as u32);
            data.extend(lead.first.to_le_bytes());
            data.extend(last.to_le_bytes());
            data.push(lead.id);
        }
        data
    }

    pub fn section_6(&self) -> Vec<u8> {
        stored(self.step, self.interval, [self.order, 0], &self.streams)
    }

    /// Section 5, if a beat was subtracted; its sixth byte is free.
    pub fn section_5(&self, sixth: u8) -> Option<Vec<u8>> {
        let beat = self.beat.as_ref()?;
        let bytes = [beat.order, sixth];
        Some(stored(self.step, self.interval, bytes, &beat.streams))
    }

    /// Section 4, if a beat was subtracted, without what may follow the zones.
    pub fn section_4(&self) -> Option<Vec<u8>> {
        let beat = self.beat.as_ref()?;
        let mut data = Vec::new();
        data.extend(beat.length.to_le_bytes());
        data.extend(beat.fiducial.to_le_bytes());
        data.extend((beat.qrs.len() as u16).to_le_bytes());
        for qrs in &beat.qrs {
            data.extend(qrs.qrs_type.to_le_bytes());
            data.extend(qrs.start.to_le_bytes());
            data.extend(qrs.fiducial.to_le_bytes());
            data.extend(qrs.end.to_le_bytes());
        }
        Some(data)
    }
}

/// The data of Section 5 or 6.
fn stored(step: u16, interval: u16, bytes: [u8; 2], streams: &[Vec<u8>]) -> Vec<u8> {
    let mut data = Vec::new();
    data.extend(step.to_le_bytes());
    data.extend(interval.to_le_bytes());
    data.extend(bytes);
    for stream in streams {
        data.extend((stream.len() as u16).to_le_bytes());
    }
    for stream in streams {
        data.extend(stream);
    }
    data
}

impl Beat {
    /// The number that is added to each sample of a lead, zone by zone.
    pub fn added(&self, at: usize, first: u32, count: usize) -> Vec<i16> {
        let mut added = vec![0; count];
        let last = u64::from(first) + count as u64 - 1;
        for qrs in self.qrs.iter().filter(|qrs| qrs.qrs_type == 0) {
            for n in u64::from(qrs.start.max(first))..=u64::from(qrs.end).min(last) {
                let sample = n + u64::from(self.fiducial) - u64::from(qrs.fiducial);
                added[(n - u64::from(first)) as usize] = self.samples[at][sample as usize - 1];
            }
        }
        added
    }
}

fn beat(
    rng: &mut Rng,
    tables: Option<&Tables>,
    interval: u16,
    leads: usize,
    base: u32,
) -> Option<Beat> {
    let (length, count) = beat_length(rng, interval)?;
    let fiducial = match rng.below(4) {
        0 => 1,
        1 => count.min(65_535) as u16,
        _ => rng.within(1..=count.min(65_535)) as u16,
    };
    let mut beat = Beat {
        length,
        fiducial,
        order: rng.below(3) as u8,
        qrs: qrs(rng, count, fiducial, base),
        samples: Vec::new(),
        streams: Vec::new(),
    };
    let calm = count > 5000 || rng.coin();
    for _ in 0..leads {
        let how = Draw {
            tables,
            order: beat.order,
            count,
            calm,
        };
        let drawn = draw(rng, &how, &[]);
        if drawn.samples.len() < count {
            return None;
        }
        beat.samples.push(drawn.samples);
        beat.streams.push(drawn.stream);
    }
    Some(beat)
}

/// L and the N it gives, from 1 to 65,536.
fn beat_length(rng: &mut Rng, interval: u16) -> Option<(u16, usize)> {
    let wanted = match rng.one_in(300) {
        true => *bounds::SAMPLES.end(),
        false => 1 + rng.small(2000),
    };
    let least = (wanted * usize::from(interval)).div_ceil(1000);
    let length = u16::try_from(least + rng.pick(&[0, 0, 1])).ok()?;
    let count = beat_count(length, interval);
    bounds::SAMPLES.contains(&count).then_some((length, count))
}

/// Zones around the leads, rising, some touching, some beyond all leads, and other types between
/// them.
fn qrs(rng: &mut Rng, count: usize, fiducial: u16, base: u32) -> Vec<Qrs> {
    let number = if rng.one_in(100) { 1024 } else { rng.small(40) };
    let mut next = u64::from(base).saturating_sub(rng.small(100) as u64).max(1);
    let mut all = Vec::new();
    for _ in 0..number {
        let zone = zone(rng, count as u64, u64::from(fiducial), next);
        match zone {
            Some(zone) if !rng.one_in(5) => {
                next = u64::from(zone.end) + 1;
                all.push(zone);
            }
            _ => all.push(Qrs {
                qrs_type: rng.within(1..=65_535) as u16,
                start: 0,
                fiducial: rng.four(),
                end: 0,
            }),
        }
    }
    all
}

/// A zone at `next` or later, with a fiducial that keeps it inside the beat.
fn zone(rng: &mut Rng, count: u64, fiducial: u64, next: u64) -> Option<Qrs> {
    let start = next + rng.pick(&[0, 1]) * rng.small(300) as u64;
    let length = match rng.below(6) {
        0 => count,
        _ => 1 + rng.below(count as usize) as u64,
    };
    let end = start + length - 1;
    let least = (end + fiducial).saturating_sub(count);
    let most = start + fiducial - 1;
    let c = match rng.below(4) {
        0 => least,
        1 => most,
        _ => rng.within(least as usize..=most as usize) as u64,
    };
    Some(Qrs {
        qrs_type: 0,
        start: u32::try_from(start).ok()?,
        fiducial: u32::try_from(c).ok()?,
        end: u32::try_from(end).ok()?,
    })
}
