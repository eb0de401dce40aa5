//! A record that is to be made: what it is made of, and whether it says the same when it is read again.

use scp::{Job, Refusal};

/// The bytes of a section's header.
pub const HEADER: usize = 16;

/// The number of tables that means the default table.
pub const DEFAULT_TABLE: u16 = 19_999;

/// The content that a record is made of.
#[derive(Debug, Default, PartialEq)]
pub struct Making {
    /// Section 1's data up to the end mark.
    pub section1: Vec<u8>,
    /// Section 2's data with no spare byte; empty for none.
    pub section2: Vec<u8>,
    pub version: u8,
    pub flags: u8,
    pub step: u16,
    pub interval: u16,
    pub order: u8,
    pub firsts: Vec<u32>,
    pub counts: Vec<u32>,
    pub ids: Vec<u8>,
    pub samples: Vec<i16>,
}

impl Making {
    /// Adds a lead.
    pub fn add(&mut self, id: u8, first: u32, samples: &[i16]) {
        self.firsts.push(first);
        // a lead that is so long is refused whatever it counts
        self.counts
            .push(u32::try_from(samples.len()).unwrap_or(u32::MAX));
        self.ids.push(id);
        self.samples.extend(samples);
    }

    /// The job for the library to write.
    pub fn job(&self) -> Job<'_> {
        Job {
            section1: &self.section1,
            section2: &self.section2,
            version: self.version,
            flags: self.flags,
            step: self.step,
            interval: self.interval,
            order: self.order,
            firsts: &self.firsts,
            counts: &self.counts,
            ids: &self.ids,
            samples: &self.samples,
        }
    }

    /// The samples of each lead.
    pub fn leads(&self) -> impl Iterator<Item = &[i16]> {
        let mut left = &self.samples[..];
        self.counts.iter().map(move |&count| {
            let (lead, others) = left.split_at(left.len().min(count as usize));
            left = others;
            lead
        })
    }

    /// Whether a record, read by the library, says all of this: fields, tables, and every lead with its samples. Says what
    /// differs if it does not, which would be a fault of the library or of the disk.
    pub fn is_said_by(&self, record: &[u8]) -> Result<(), String> {
        let differs = |what: &str| Err(format!("{what} differs when it is read back"));
        let refused = |refusal: Refusal| format!("it is refused when it is read back: {refusal}");
        let pointers = scp::open(record).map_err(refused)?;
        let data = |id: usize| match pointers[id].is_present() {
            true => {
                &record[pointers[id].index as usize - 1 + HEADER..]
                    [..pointers[id].length as usize - HEADER]
            }
            false => &[],
        };
        for (id, given) in [(1, &self.section1), (2, &self.section2)] {
            let spare = &[0][..given.len() % 2];
            if data(id) != [given, spare].concat() {
                return differs(&format!("Section {id}"));
            }
        }
        let leads = scp::leads(record).map_err(refused)?;
        if leads.len() != self.ids.len() {
            return differs("the number of leads");
        }
        for ((at, samples), entry) in self.leads().enumerate().zip(&leads) {
            let (lead, back) = scp::samples(record, at + 1).map_err(refused)?;
            let said = (lead.id, lead.flags, lead.step, lead.interval, lead.first);
            let flags = self.flags & 0xFE;
            let given = (
                self.ids[at],
                flags,
                self.step,
                self.interval,
                self.firsts[at],
            );
            if said != given || entry.order != self.order || back != samples {
                return differs(&format!("lead {}", at + 1));
            }
        }
        Ok(())
    }
}
