//! Writing a record: Sections 0, 1, 2 if it is given, 3 and 6, each lead by its shortest stream.

use crate::encoding::TABLES_MAX;
use crate::leads::SAMPLES_MAX;
use crate::raw;
use crate::record::RECORD_MAX;
use crate::Refusal;

/// A record to be written. Each lead has a number of its first sample, a count of samples and an ID at its place in three
/// lists; the samples of all leads follow one another.
#[derive(Clone, Copy, Debug)]
pub struct Job<'a> {
    /// Section 1's data: its fields, then the end mark `FF 00 00` and nothing after it.
    pub section1: &'a [u8],
    /// Section 2's data with no spare byte; empty data mean none, and two bytes for each value.
    pub section2: &'a [u8],
    /// The version that both version bytes of every section hold.
    pub version: u8,
    /// The flags of Section 3; bit 0 is written as 0.
    pub flags: u8,
    /// The step in nanovolts, not 0.
    pub step: u16,
    /// The interval between two samples in microseconds, not 0.
    pub interval: u16,
    /// The order of the differences that are stored: 0, 1 or 2.
    pub order: u8,
    /// The number of each lead's first sample, from 1.
    pub firsts: &'a [u32],
    /// How many samples each lead has: 1 to [`SAMPLES_MAX`].
    pub counts: &'a [u32],
    /// Each lead's ID.
    pub ids: &'a [u8],
    /// The samples of the first lead, then those of the second, and so on.
    pub samples: &'a [i16],
}

impl Job<'_> {
    /// How many bytes of work space are enough: one for each sample of the longest lead times each table that there can be;
    /// none without Section 2.
    pub fn work_room(&self) -> usize {
        let longest = self.counts.iter().copied().max().unwrap_or(0) as usize;
        match self.section2 {
            [] => 0,
            _ => longest.min(SAMPLES_MAX) * TABLES_MAX,
        }
    }
}

/// Writes a record, and answers how many bytes it has. They are the first bytes of `out`, and no others are
/// changed. The record opens, shows the same fields and is read to the same samples; each lead's stream is the one that
/// [`encode_lead`](crate::encode_lead) gives.
///
/// Work space is needed where there is a Section 2, a byte for each sample of the longest lead times each table; all that was
/// lent is zeros once a search has begun, and untouched otherwise.
///
/// Refused with the first that applies of 17, 6, 7, 11 for work space, 15 for all leads, 16 and 11 for output; `out` is then
/// as it was.
pub fn write_record(job: &Job, work: &mut [u8], out: &mut [u8]) -> Result<usize, Refusal> {
    let written = raw::write_record(job, work, out);
    Refusal::or(written.refusal, written.bytes as usize)
}

/// Writes a record into room that is made for it. Refused as [`write_record`] is, but for 11.
pub fn written(job: &Job) -> Result<Vec<u8>, Refusal> {
    let mut work = vec![0; job.work_room()];
    let mut record = vec![0; RECORD_MAX];
    let bytes = write_record(job, &mut work, &mut record)?;
    record.truncate(bytes);
    Ok(record)
}
