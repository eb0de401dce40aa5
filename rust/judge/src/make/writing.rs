//! Calls of the writer: leads to encode and records to write, sound and not.

use super::damage;
use super::draft::{Coding, Draft, Holds, Wish};
use super::rng::Rng;
use super::section_1;
use super::tables;
use crate::bounds;
use crate::encoding::tables_to_write;
use crate::{encode_lead, write_record, Writing};

/// A call that encodes a lead.
#[derive(Clone, Debug)]
pub struct ToEncode {
    pub section2: Vec<u8>,
    pub samples: Vec<i16>,
    pub order: u8,
    pub work_len: usize,
    pub out_len: usize,
}

/// A call that writes a record.
#[derive(Clone, Debug)]
pub struct ToWrite {
    pub section1: Vec<u8>,
    pub section2: Vec<u8>,
    pub version: u8,
    pub flags: u8,
    pub step: u16,
    pub interval: u16,
    pub order: u8,
    pub firsts: Vec<u32>,
    pub counts: Vec<u32>,
    pub ids: Vec<u8>,
    pub samples: Vec<i16>,
    pub work_len: usize,
    pub out_len: usize,
}

impl ToWrite {
    pub fn writing(&self) -> Writing<'_> {
        Writing {
            section1: &self.section1,
            section2: &self.section2,
            version: self.version,
            flags: self.flags,
            step: self.step,
            interval: self.interval,
            order: self.order,
            firsts: &self.firsts,
            counts: &self.counts,
            ids: &self.ids,
            samples: &self.samples,
        }
    }

    /// One byte a sample of the longest lead for each table, where no lead is too long.
    fn needed(&self) -> usize {
        let longest = self.counts.iter().copied().max().unwrap_or(0) as usize;
        longest.min(*bounds::SAMPLES.end()) * number_of_tables(&self.section2)
    }
}

/// A lead to encode: mostly sound, with just enough room or more, else refused with any of the
/// numbers it can be.
pub fn to_encode(rng: &mut Rng) -> ToEncode {
    let call = to_write(rng);
    let count = call.counts.first().map_or(0, |&count| count as usize);
    let mut lead = ToEncode {
        section2: call.section2,
        samples: call.samples[..call.samples.len().min(count)].to_vec(),
        order: call.order,
        work_len: 0,
        out_len: 0,
    };
    let needed = lead.samples.len() * number_of_tables(&lead.section2);
    lead.work_len = room(rng, needed);
    let (section2, samples) = (&lead.section2, &lead.samples);
    let coded = encode_lead(section2, samples, lead.order, usize::MAX, usize::MAX);
    lead.out_len = room(rng, coded.map_or(0, |coded| coded.bytes.len()));
    lead
}

/// A record to write: mostly sound, with just enough room or more, else refused with any of the
/// numbers it can be.
pub fn to_write(rng: &mut Rng) -> ToWrite {
    let mut call = sound(rng);
    match rng.below(16) {
        0 | 1 => call.break_bounds(rng),
        2 => call.section1 = damage::broken_section_1(rng),
        3 => call.section2 = damage::broken_section_2(rng),
        4 => call.section1.push(rng.byte()),
        5 if !call.section2.is_empty() => call.section2.push(rng.byte()),
        6 => call.other_samples(rng),
        7 if rng.one_in(4) => call.grow(rng),
        _ => {}
    }
    call.work_len = room(rng, call.needed());
    let written = write_record(&call.writing(), usize::MAX, usize::MAX);
    call.out_len = room(rng, written.map_or(0, |record| record.len()));
    call
}

/// Room that is just enough, more, or too short.
fn room(rng: &mut Rng, needed: usize) -> usize {
    match rng.below(24) {
        0 => needed.saturating_sub(1),
        1 => rng.below(needed + 1),
        2 => 0,
        3..=13 => needed,
        _ => needed + rng.small(100),
    }
}

fn number_of_tables(section2: &[u8]) -> usize {
    match tables_to_write(section2) {
        Ok(Some(tables)) => tables.len(),
        _ => 0,
    }
}

/// A call that has a record to write, its samples drawn from codes of its tables.
fn sound(rng: &mut Rng) -> ToWrite {
    let coding = rng.pick(&[Coding::TwoBytes, Coding::Default, Coding::Own, Coding::Own]);
    let draft = Draft::new(
        rng,
        Wish {
            coding: Some(coding),
            holds: Some(Holds::Leads),
        },
    );
    let section2 = match coding {
        Coding::TwoBytes => Vec::new(),
        Coding::Default => tables::default_data(),
        Coding::Own => tables::data(&draft.rows),
    };
    let mut call = ToWrite {
        section1: section_1::data(&section_1::fields(rng)),
        section2,
        version: rng.byte(),
        flags: rng.byte(),
        step: 1,
        interval: 1,
        order: 0,
        firsts: Vec::new(),
        counts: Vec::new(),
        ids: Vec::new(),
        samples: Vec::new(),
        work_len: 0,
        out_len: 0,
    };
    if let Some(rhythm) = draft.rhythm {
        (call.step, call.interval, call.order) = (rhythm.step, rhythm.interval, rhythm.order);
        for lead in rhythm.leads {
            call.firsts.push(lead.first);
            call.counts.push(lead.samples.len() as u32);
            call.ids.push(lead.id);
            call.samples.extend(lead.samples);
        }
    }
    call
}

impl ToWrite {
    /// Row 17.
    fn break_bounds(&mut self, rng: &mut Rng) {
        let lead = rng.below(self.counts.len());
        match rng.below(13) {
            0 => self.set_leads(0),
            1 => self.set_leads(33),
            2 => self.counts[lead] = 0,
            3 => self.counts[lead] = rng.pick(&[65_537, u32::MAX]),
            4 => self.order = rng.pick(&[3, 3, 4, 255]),
            5 => self.step = 0,
            6 => self.interval = 0,
            7 => self.firsts[lead] = 0,
            8 => self.firsts[lead] = (u32::MAX - self.counts[lead]).wrapping_add(2),
            9 => self.samples.push(0),
            10 => self.samples.truncate(self.samples.len() - 1),
            11 => self.set_one_lead(65_537),
            _ => self.shorten_list(rng),
        }
    }

    /// Makes it `number` leads of one sample.
    fn set_leads(&mut self, number: usize) {
        self.firsts = vec![1; number];
        self.counts = vec![1; number];
        self.ids = vec![1; number];
        self.samples = vec![0; number];
    }

    /// Makes it one lead of `count` samples.
    fn set_one_lead(&mut self, count: usize) {
        self.set_leads(1);
        self.counts[0] = count as u32;
        self.samples = vec![0; count];
    }

    fn shorten_list(&mut self, rng: &mut Rng) {
        match rng.below(3) {
            0 => self.firsts.truncate(self.firsts.len() - 1),
            1 => self.counts.truncate(self.counts.len() - 1),
            _ => self.ids.truncate(self.ids.len() - 1),
        }
    }

    /// Samples that the tables may have no stream for, one or all of them.
    fn other_samples(&mut self, rng: &mut Rng) {
        let at = rng.below(self.samples.len());
        match rng.below(4) {
            0 => self.samples[at] = rng.two() as i16,
            1 => self.samples.fill_with(|| rng.two() as i16),
            2 => self
                .samples
                .fill_with(|| rng.pick(&[i16::MIN, i16::MAX, 0])),
            _ => self.samples.fill_with(|| rng.below(21) as i16 - 10),
        }
    }

    /// Row 16, or just under it: a lead about as long as may be, or a record about as long.
    fn grow(&mut self, rng: &mut Rng) {
        match rng.below(4) {
            0 => {
                self.set_one_lead(rng.pick(&[32_767, 32_768, 65_536]));
                self.section2.clear();
            }
            1 => {
                let wide = bounds::STREAM * 8 / 26;
                self.set_one_lead(wide + rng.within(0..=20));
                self.samples[..wide].fill_with(|| rng.pick(&[128, -129, i16::MIN, i16::MAX]));
                self.section2 = tables::default_data();
                self.order = 0;
            }
            _ => self.fill_record(rng),
        }
    }

    /// As much in front of Section 1's data as brings the record to its bound, or just over it.
    fn fill_record(&mut self, rng: &mut Rng) {
        let Ok(record) = write_record(&self.writing(), usize::MAX, usize::MAX) else {
            return;
        };
        let over = rng.pick(&[0, 0, 2, 100]);
        let mut left = bounds::RECORD.end() - record.len() + over;
        while left > 3 {
            let length = (left - 3).min(65_535);
            let mut field = vec![77];
            field.extend((length as u16).to_le_bytes());
            field.resize(3 + length, 0);
            left -= field.len();
            self.section1.splice(0..0, field);
        }
    }
}
