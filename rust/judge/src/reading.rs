//! Reading a lead: what the record says of it, the beat's stream, the residual, then the sums: rows
//! 1 to 14 (01, Refusal numbers).

use crate::beat::Beat;
use crate::differences::foreseen;
use crate::encoding::tables_to_write;
use crate::finding::{Finding, Part, StreamFault};
use crate::judging::{number, smallest};
use crate::leads::{absent, rhythm, Rhythm, Span};
use crate::numbers::Bytes;
use crate::record::data_of;
use crate::refused::Refused;
use crate::row;
use crate::stored::Stored;
use crate::stream::{NoValue, Values};
use crate::tables::{tables, Tables, SPARE};

/// The record's description of a lead, its stream unread.
#[derive(Clone, Copy, Debug, PartialEq, Eq)]
pub struct Entry {
    pub id: u8,
    pub flags: u8,
    pub order: u8,
    pub step: u16,
    pub interval: u16,
    pub first: u32,
    pub last: u32,
    /// The number of leads of Section 3.
    pub leads: u32,
    /// The bytes of this lead in Section 6.
    pub bytes: u32,
}

/// A lead as read.
#[derive(Clone, Debug, PartialEq, Eq)]
pub struct Lead {
    pub id: u8,
    pub flags: u8,
    pub step: u16,
    pub interval: u16,
    pub first: u32,
    pub samples: Vec<i16>,
    /// The structures compared in reading it, the beat's stream included (02, Q-6).
    pub compared: u32,
    /// The bits of the codes that were read, the beat's included.
    pub bits: u32,
    /// Whether the work space lent is zeros; otherwise it is untouched.
    pub work_cleared: bool,
}

/// A lead with all that belongs to it.
pub struct Found<'a> {
    rhythm: Rhythm<'a>,
    /// The lead's place, from 0.
    at: usize,
    span: Span,
    /// Section 6.
    stored: Stored<'a>,
    stream: Bytes<'a>,
}

/// The record's description of the lead at this place of Section 3, from 1, or the smallest of 1 to
/// 10 that applies.
pub fn lead(record: &[u8], place: usize) -> Result<Entry, u8> {
    let found = find(record, place).map_err(|found| number(&found))?;
    Ok(Entry {
        id: found.span.id,
        flags: found.rhythm.flags,
        order: found.stored.order,
        step: found.stored.step,
        interval: found.stored.interval,
        first: found.span.first,
        last: found.span.last,
        leads: found.rhythm.leads.len() as u32,
        bytes: found.stream.left() as u32,
    })
}

/// All for which the lead at this place, from 1, is refused, whatever room is lent; nothing if it
/// can be read.
pub fn lead_findings(record: &[u8], place: usize) -> Vec<Finding> {
    match find(record, place) {
        Ok(found) => rebuilt(record, &found).err().into_iter().collect(),
        Err(found) => found,
    }
}

/// The lead at this place, from 1, judged by rows 1 to 10.
pub fn find(record: &[u8], place: usize) -> Result<Found<'_>, Vec<Finding>> {
    smallest(record, row::LENGTH..=row::AGREEMENT)?;
    let found = present(record, place);
    found.ok_or_else(|| absent(record, place))
}

fn present(record: &[u8], place: usize) -> Option<Found<'_>> {
    let rhythm = rhythm(record).ok()??;
    let at = place.checked_sub(1)?;
    let span = *rhythm.leads.get(at)?;
    let stored = rhythm.stored.clone()?;
    let stream = *stored.streams.get(at)?;
    Some(Found {
        rhythm,
        at,
        span,
        stored,
        stream,
    })
}

/// Reads the lead at this place of Section 3, from 1, into room for `out_len` samples, with work
/// space for `work_len` numbers.
pub fn read_lead(
    record: &[u8],
    place: usize,
    out_len: usize,
    work_len: usize,
) -> Result<Lead, Refused> {
    let found = find(record, place).map_err(|found| Refused::untouched(number(&found)))?;
    let beat_count = found.rhythm.beat.as_ref().map_or(0, |beat| beat.count);
    if out_len < found.span.count() || work_len < beat_count {
        return Err(Refused::untouched(row::ROOM));
    }
    let work_cleared = found.rhythm.beat.is_some();
    let read = rebuilt(record, &found).map_err(|finding| Refused {
        number: finding.row,
        work_cleared,
    })?;
    Ok(Lead {
        id: found.span.id,
        flags: found.rhythm.flags,
        step: found.stored.step,
        interval: found.stored.interval,
        first: found.span.first,
        samples: read.samples,
        compared: read.compared as u32,
        bits: read.bits as u32,
        work_cleared,
    })
}

/// The beat, then the residual, then the sums; what fails first is the refusal. Each stream is read
/// once and counts once, whatever zones use the beat.
fn rebuilt(record: &[u8], found: &Found) -> Result<Read, Finding> {
    let tables = data_of(record, 2).and_then(|data| tables(data, SPARE).ok());
    let lead = found.at + 1;
    let residual = Stream {
        bytes: found.stream,
        order: found.stored.order,
        first: found.span.first.into(),
        section: 6,
        lead,
    };
    let Some(beat) = &found.rhythm.beat else {
        return residual.read(tables.as_ref(), found.span.count());
    };
    let subtracted = Stream {
        bytes: beat.stored.streams[found.at],
        order: beat.stored.order,
        first: 1,
        section: 5,
        lead,
    };
    let subtracted = subtracted.read(tables.as_ref(), beat.count)?;
    let residual = residual.read(tables.as_ref(), found.span.count())?;
    Ok(Read {
        samples: add(beat, &subtracted.samples, found, residual.samples)?,
        compared: subtracted.compared + residual.compared,
        bits: subtracted.bits + residual.bits,
    })
}

/// A lead's stream, with what it takes to read it and to say where it is wrong.
struct Stream<'a> {
    bytes: Bytes<'a>,
    order: u8,
    /// The number of the first sample.
    first: u64,
    section: u16,
    /// From 1.
    lead: usize,
}

impl Stream<'_> {
    fn read(&self, tables: Option<&Tables>, count: usize) -> Result<Read, Finding> {
        let read = read_stream(self.bytes.slice(), tables, self.order, count);
        read.map_err(|wrong| self.finding(wrong))
    }

    fn finding(&self, wrong: Wrong) -> Finding {
        let number = self.first + wrong.at as u64;
        let lead = self.lead;
        Finding {
            row: wrong.row(),
            section: Some(self.section),
            offset: wrong.bit.map(|bit| self.bytes.offset() + (bit - 1) / 8),
            part: match wrong.fault {
                StreamFault::LeftOver { .. } => Part::Lead(lead),
                _ => Part::Sample { lead, number },
            },
            fault: wrong.fault.into(),
        }
    }
}

/// A fault in a stream: at the sample of this place, from 0, and at this bit, from 1.
#[derive(Clone, Debug)]
pub struct Wrong {
    pub at: usize,
    pub bit: Option<usize>,
    pub fault: StreamFault,
}

impl Wrong {
    pub fn row(&self) -> u8 {
        match self.fault {
            StreamFault::Outside(_) => row::SAMPLE,
            StreamFault::LeftOver { .. } => row::LEFT_OVER_BITS,
            _ => row::CODE,
        }
    }

    fn value(at: usize, why: NoValue) -> Self {
        let (bit, fault) = match why {
            NoValue::NoCode { table, bit, bits } => (bit, StreamFault::NoCode { table, bit, bits }),
            NoValue::Ends { bit, bits } => (bit, StreamFault::Ends { bit, bits }),
        };
        let bit = Some(bit);
        Wrong { at, bit, fault }
    }
}

/// The most bits that may be left over after the last sample. They are ignored, whatever they hold,
/// as some carts pad a lead to an even number of bytes (01, Refusal numbers, row 14, as Q-1 changes
/// it).
pub const MOST_LEFT_OVER: usize = 15;

/// The samples that codes are read to, and how much there was to read.
#[derive(Clone, Debug)]
pub struct Read {
    pub samples: Vec<i16>,
    /// The structures compared for all codes, switches included; 0 without Section 2 (02, Q-6).
    pub compared: usize,
    /// The bits of all codes. Those left over are none of them.
    pub bits: usize,
}

/// Reads `count` samples out of a stream, value by value: 12 where a value cannot be read, 13 where
/// its sample has more than 16 bits, and 14 where more than [`MOST_LEFT_OVER`] bits are left in the
/// end.
pub fn read_stream(
    stream: &[u8],
    tables: Option<&Tables>,
    order: u8,
    count: usize,
) -> Result<Read, Wrong> {
    let mut values = Values::new(stream, tables);
    let mut samples = Vec::new();
    for at in 0..count {
        let value = values.next().map_err(|why| Wrong::value(at, why))?;
        let sample = foreseen(order, &samples) + value;
        samples.push(i16::try_from(sample).map_err(|_| Wrong {
            at,
            bit: None,
            fault: StreamFault::Outside(sample),
        })?);
    }
    let (left, bits) = (values.bits_left(), values.bits());
    match left {
        0..=MOST_LEFT_OVER => Ok(Read {
            samples,
            compared: values.compared(),
            bits: bits - left,
        }),
        _ => Err(Wrong {
            at: count,
            bit: Some(bits - left + 1),
            fault: StreamFault::LeftOver { left, bits },
        }),
    }
}

/// Adds the beat to the samples that the lead has of each zone.
fn add(
    beat: &Beat,
    subtracted: &[i16],
    found: &Found,
    residual: Vec<i16>,
) -> Result<Vec<i16>, Finding> {
    let mut zones = beat.zones.iter().peekable();
    let mut sums = Vec::new();
    for (n, sample) in (found.span.first..=u32::MAX).zip(residual) {
        while zones.next_if(|zone| zone.end < n).is_some() {}
        let zone = zones.peek().filter(|zone| zone.start <= n);
        let beat_sample = zone.map_or(0, |zone| zone.beat_sample(n, beat.fiducial));
        let added = match zone {
            Some(_) => subtracted[(beat_sample - 1) as usize],
            None => 0,
        };
        let sum = i32::from(sample) + i32::from(added);
        sums.push(i16::try_from(sum).map_err(|_| Finding {
            row: row::SAMPLE,
            section: None,
            offset: None,
            part: Part::Sample {
                lead: found.at + 1,
                number: n.into(),
            },
            fault: StreamFault::SumOutside { sum, beat_sample }.into(),
        })?);
    }
    Ok(sums)
}

/// Reads streams outside of a record.
#[derive(Clone, Debug)]
pub struct Reader {
    tables: Option<Tables>,
}

impl Reader {
    /// By the data of a Section 2 without a spare byte, empty for none. Refused with 7.
    pub fn new(section2: &[u8]) -> Result<Self, u8> {
        let tables = tables_to_write(section2).map_err(|found| number(&found))?;
        Ok(Reader { tables })
    }

    /// Reads `count` samples out of a stream, or answers 12 to 14.
    pub fn samples(&self, stream: &[u8], order: u8, count: usize) -> Result<Vec<i16>, u8> {
        let read = read_stream(stream, self.tables.as_ref(), order, count);
        read.map(|read| read.samples).map_err(|wrong| wrong.row())
    }

    /// The bits that are left of a stream after these values; `None` if it reads to others.
    pub fn bits_after(&self, stream: &[u8], values: &[i32]) -> Option<usize> {
        let mut read = Values::new(stream, self.tables.as_ref());
        let same = values.iter().all(|&value| read.next() == Ok(value));
        same.then(|| read.bits_left())
    }
}
