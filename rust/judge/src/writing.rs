//! Writing a record with Sections 0, 1, 2, 3 and 6 (01, Refusal numbers).

use crate::bounds;
use crate::check::crc;
use crate::differences::differences;
use crate::encoding::{first_unreached, stream, tables_to_write, work_needed};
use crate::finding::{self, Finding, Findings, Part, StreamFault, What};
use crate::header::fields;
use crate::judging::number;
use crate::numbers::Bytes;
use crate::record::{BEFORE_SECTION_0, HEADER, LETTERS, POINTER};
use crate::refused::Refused;
use crate::row;
use crate::tables::Tables;

/// A record to be written. Each lead has a first sample number, a count of samples and an ID at its
/// place in the three lists; `samples` are those of the first lead, then of the second, and so on.
#[derive(Clone, Copy, Debug)]
pub struct Writing<'a> {
    /// The data of Section 1, its end mark last.
    pub section1: &'a [u8],
    /// The data of Section 2, none spare; empty if there is to be no such section.
    pub section2: &'a [u8],
    pub version: u8,
    pub flags: u8,
    pub step: u16,
    pub interval: u16,
    pub order: u8,
    pub firsts: &'a [u32],
    pub counts: &'a [u32],
    pub ids: &'a [u8],
    pub samples: &'a [i16],
}

/// Writes a record, with `work_len` bytes of work space and room for `out_len` bytes. It is refused
/// with the first that applies of 17, 6, 7, 11 for work space, 15, 16, 11 for output. The work
/// space lent is zeros after acceptance if there is a Section 2, and untouched otherwise.
pub fn write_record(
    writing: &Writing,
    work_len: usize,
    out_len: usize,
) -> Result<Vec<u8>, Refused> {
    let tables = writing
        .tables()
        .map_err(|found| Refused::untouched(number(&found)))?;
    if work_len < work_needed(&tables, writing.longest()) {
        return Err(Refused::untouched(row::ROOM));
    }
    let refused = |number| Refused {
        number,
        work_cleared: tables.is_some(),
    };
    let record = writing
        .record(&tables)
        .map_err(|found| refused(number(&found)))?;
    match record.len() <= out_len {
        true => Ok(record),
        false => Err(refused(row::ROOM)),
    }
}

/// All for which a job is refused, whatever room is lent; nothing if it can be written.
pub fn job_findings(writing: &Writing) -> Vec<Finding> {
    let written = writing
        .tables()
        .and_then(|tables| writing.record(&tables).map(|_| ()));
    written.err().unwrap_or_default()
}

impl Writing<'_> {
    /// Rows 17, 6 and 7, and the tables.
    fn tables(&self) -> Result<Option<Tables>, Vec<Finding>> {
        let found = self.outside_bounds();
        if !found.is_empty() {
            return Err(found);
        }
        let found = fields(Bytes::new(self.section1), 0);
        if !found.is_empty() {
            return Err(found);
        }
        tables_to_write(self.section2)
    }

    /// Row 17.
    fn outside_bounds(&self) -> Vec<Finding> {
        let mut found = Findings::new(row::WRITER_BOUNDS, None);
        let leads = self.ids.len() as i64;
        let mut spot = found.of(Part::Whole);
        spot.number(What::Leads, leads, finding::bounds(&bounds::LEADS));
        for list in [self.firsts.len(), self.counts.len()] {
            spot.number(What::ListLength, list as i64, leads..=leads);
        }
        spot.number(What::Order, self.order, finding::bounds(&bounds::ORDERS));
        spot.number(What::Step, self.step, 1..=i64::MAX);
        spot.number(What::Interval, self.interval, 1..=i64::MAX);
        for (at, (&first, &count)) in self.firsts.iter().zip(self.counts).enumerate() {
            let mut spot = found.of(Part::Lead(at + 1));
            spot.number(What::Samples, count, finding::bounds(&bounds::SAMPLES));
            spot.number(What::FirstSample, first, 1..=i64::MAX);
            let last = i64::from(first) + i64::from(count) - 1;
            spot.number(What::LastSample, last, i64::MIN..=u32::MAX.into());
        }
        let sum = self.counts().sum::<usize>() as i64;
        let lent = self.samples.len() as i64;
        let mut spot = found.of(Part::Whole);
        spot.number(What::SamplesLent, lent, sum..=sum);
        found.list()
    }

    fn counts(&self) -> impl Iterator<Item = usize> + '_ {
        self.counts.iter().map(|&count| count as usize)
    }

    fn longest(&self) -> usize {
        self.counts().max().unwrap_or(0)
    }

    /// Rows 15 and 16, and the record.
    fn record(&self, tables: &Option<Tables>) -> Result<Vec<u8>, Vec<Finding>> {
        let streams = self.streams(tables)?;
        let mut found = Findings::new(row::TOO_LONG, None);
        for (at, stream) in streams.iter().enumerate() {
            let (bytes, most) = (stream.len() as i64, bounds::STREAM as i64);
            let mut spot = found.of(Part::Lead(at + 1));
            spot.number(What::StreamBytes, bytes, 0..=most);
        }
        let found = found.list();
        if !found.is_empty() {
            return Err(found);
        }
        let record = self.laid_out(&streams);
        let mut found = Findings::new(row::TOO_LONG, None);
        let (bytes, most) = (record.len() as i64, *bounds::RECORD.end() as i64);
        let mut spot = found.of(Part::Whole);
        spot.number(What::RecordBytes, bytes, 0..=most);
        found.or(Some(record))
    }

    /// Each lead's stream, or row 15 for each that has none.
    fn streams(&self, tables: &Option<Tables>) -> Result<Vec<Vec<u8>>, Vec<Finding>> {
        let mut found = Findings::new(row::NO_STREAM, None);
        let mut streams = Vec::new();
        let mut samples = self.samples;
        for (at, count) in self.counts().enumerate() {
            let (lead, others) = samples.split_at(count);
            samples = others;
            match stream(tables.as_ref(), lead, self.order) {
                Some(put) => streams.push(put.bytes()),
                None => self.without_stream(at, lead, tables, &mut found),
            }
        }
        found.or(Some(streams))
    }

    /// The first sample of a lead that cannot be encoded.
    fn without_stream(
        &self,
        at: usize,
        samples: &[i16],
        tables: &Option<Tables>,
        found: &mut Findings,
    ) {
        let differences = differences(self.order, samples);
        let reached = first_unreached(tables.as_ref(), &differences).unwrap_or(0);
        let number = u64::from(self.firsts[at]) + reached as u64;
        let lead = at + 1;
        found
            .of(Part::Sample { lead, number })
            .push(StreamFault::NotEncodable {
                difference: differences[reached],
                order: self.order,
            });
    }

    /// One section after another by ID, and a pointer for each ID up to 11.
    fn laid_out(&self, streams: &[Vec<u8>]) -> Vec<u8> {
        let mut pointers = [[0; POINTER]; 12];
        let mut sections = Vec::new();
        let own = HEADER + 12 * POINTER;
        pointers[0] = pointer(0, own, BEFORE_SECTION_0 + 1);
        for id in 1..12 {
            let section = match id {
                1 => self.section(1, self.section1.to_vec()),
                2 if !self.section2.is_empty() => self.section(2, self.section2.to_vec()),
                3 => self.section(3, self.section_3()),
                6 => self.section(6, self.section_6(streams)),
                _ => Vec::new(),
            };
            let index = match section.len() {
                0 => 0,
                _ => BEFORE_SECTION_0 + own + sections.len() + 1,
            };
            pointers[usize::from(id)] = pointer(id, section.len(), index);
            sections.extend(section);
        }
        let size = BEFORE_SECTION_0 + own + sections.len();
        let section_0 = self.section(0, pointers.concat());
        checked([(size as u32).to_le_bytes().to_vec(), section_0, sections].concat())
    }

    /// A section with its header; one 0 byte more makes odd data even.
    fn section(&self, id: u16, mut data: Vec<u8>) -> Vec<u8> {
        if data.len() % 2 == 1 {
            data.push(0);
        }
        let reserved = if id == 0 { LETTERS } else { &[0; 6] };
        let mut rest = Vec::new();
        rest.extend(id.to_le_bytes());
        rest.extend(((HEADER + data.len()) as u32).to_le_bytes());
        rest.extend([self.version; 2]);
        rest.extend(reserved);
        rest.extend(data);
        checked(rest)
    }

    fn section_3(&self) -> Vec<u8> {
        let mut data = vec![self.ids.len() as u8, self.flags & 0xFE];
        for ((&first, &count), &id) in self.firsts.iter().zip(self.counts).zip(self.ids) {
            data.extend(first.to_le_bytes());
            data.extend((first + (count - 1)).to_le_bytes());
            data.push(id);
        }
        data
    }

    fn section_6(&self, streams: &[Vec<u8>]) -> Vec<u8> {
        let mut data = Vec::new();
        data.extend(self.step.to_le_bytes());
        data.extend(self.interval.to_le_bytes());
        data.extend([self.order, 0]);
        for stream in streams {
            data.extend((stream.len() as u16).to_le_bytes());
        }
        data.extend(streams.concat());
        data
    }
}

fn pointer(id: u16, length: usize, index: usize) -> [u8; POINTER] {
    let mut bytes = [0; POINTER];
    bytes[..2].copy_from_slice(&id.to_le_bytes());
    bytes[2..6].copy_from_slice(&(length as u32).to_le_bytes());
    bytes[6..].copy_from_slice(&(index as u32).to_le_bytes());
    bytes
}

/// These bytes with their check in front.
fn checked(rest: Vec<u8>) -> Vec<u8> {
    [crc(&rest).to_le_bytes().to_vec(), rest].concat()
}
