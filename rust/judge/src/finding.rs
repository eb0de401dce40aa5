//! Breaches of the rules: where each is, what was found there and what the rule expects.
//!
//! Findings are the judgement itself: a row is broken exactly if something is found. The words for
//! a reader are made by whoever shows them.

use std::ops::RangeInclusive;

/// One thing that a rule does not allow.
#[derive(Clone, Debug, PartialEq, Eq)]
pub struct Finding {
    /// The row of the table of refusals.
    pub row: u8,
    /// The section that it is in or about.
    pub section: Option<u16>,
    /// The offset of the fault, counted from 1 in the record, or in the data that were given.
    pub offset: Option<usize>,
    pub part: Part,
    pub fault: Fault,
}

/// The part of a record or job that is at fault. All count from 1.
#[derive(Clone, Copy, Debug, PartialEq, Eq)]
pub enum Part {
    /// The record, or the section as a whole.
    Whole,
    Pointer(usize),
    /// By its tag.
    Field(u8),
    Table(usize),
    Structure {
        table: usize,
        place: usize,
    },
    Lead(usize),
    Qrs(usize),
    /// A sample of a lead by its number, or of the lead's beat.
    Sample {
        lead: usize,
        number: u64,
    },
}

/// A number that has bounds.
#[derive(Clone, Copy, Debug, PartialEq, Eq)]
pub enum What {
    /// The ID in a section's header.
    HeaderId,
    /// The length in a section's header.
    HeaderLength,
    /// The length in a pointer.
    SectionLength,
    PointerId,
    /// The index in Section 0's pointer to itself.
    OwnIndex,
    /// The length in Section 0's pointer to itself.
    OwnLength,
    FieldLength,
    Tables,
    Structures,
    PrefixBits,
    RemainderBits,
    Mode,
    Leads,
    FirstSample,
    LastSample,
    Samples,
    Step,
    Interval,
    Order,
    Bimodal,
    BeatSamples,
    Fiducial,
    Qrs,
    /// The firsts, counts or IDs of a job's leads, against its IDs.
    ListLength,
    /// The samples lent to a job, against the counts of its leads.
    SamplesLent,
    StreamBytes,
    RecordBytes,
}

/// The thing that data are too short for.
#[derive(Clone, Copy, Debug, PartialEq, Eq)]
pub enum Needs {
    /// The numbers that the section's data start with.
    Head,
    /// The byte count of each of this many leads.
    ByteCounts(usize),
    /// This many leads of Section 3.
    Leads(usize),
    /// This many QRS.
    Qrs(usize),
    /// A table of this many structures.
    Structures(usize),
    /// The number of structures of a table.
    Table,
    /// A field's bytes.
    Field,
    /// A section of this length.
    Section,
}

/// A fault: what was found, and what was expected.
#[derive(Clone, Debug, PartialEq, Eq)]
pub enum Fault {
    /// A number outside its bounds.
    Number {
        what: What,
        found: i64,
        expected: RangeInclusive<i64>,
    },
    /// Data that end too early.
    Short {
        needs: Needs,
        bytes: usize,
        left: usize,
    },
    /// More bytes than may follow the end.
    After {
        found: usize,
        most: usize,
    },
    /// The finding's section is absent.
    Absent,
    Frame(FrameFault),
    Field(FieldFault),
    Code(CodeFault),
    Lead(LeadFault),
    Stream(StreamFault),
}

/// A fault of the record as a whole, of Section 0, or of a section's place or CRC.
#[derive(Clone, Debug, PartialEq, Eq)]
pub enum FrameFault {
    /// The record's length, and its size field if it has one.
    Size { length: usize, field: Option<u32> },
    /// A check that differs.
    Check { stored: u16, computed: u16 },
    /// The bytes found in the place of SCPECG.
    Letters([u8; 6]),
    /// Section 0's length is not that of 12 to 64 pointers.
    PointersLength(u32),
    /// A section that starts at this byte, before or inside Section 0, whose last byte is `end`.
    InSection0 { start: u64, end: u64 },
    /// A section that ends after the record's last byte.
    PastEnd { start: u64, end: u64, size: u64 },
    /// The finding's section shares bytes with another.
    Overlap {
        own: (u64, u64),
        section: u16,
        other: (u64, u64),
    },
    /// A section's length is odd.
    OddLength(u32),
}

/// A fault in the fields of Section 1.
#[derive(Clone, Debug, PartialEq, Eq)]
pub enum FieldFault {
    NoEndMark {
        left: usize,
    },
    /// A field that must occur exactly once.
    Times(usize),
    /// The place of an identifier's first NUL, from 1, if it has one.
    Nul {
        place: Option<usize>,
        length: usize,
    },
}

/// A fault in a code structure of Section 2.
#[derive(Clone, Debug, PartialEq, Eq)]
pub enum CodeFault {
    BaseCode {
        code: u32,
        prefix_bits: u8,
    },
    /// A code with fewer bits than its prefix.
    ShortCode {
        code_bits: u8,
        prefix_bits: u8,
    },
    /// A switch with this many bits after its prefix.
    SwitchRemainder(u8),
    /// A switch to a table that does not exist.
    SwitchTo {
        table: i16,
        tables: usize,
    },
    /// One prefix begins the other, or they are equal. Prefixes are in the order of the stream.
    Prefixes {
        own: String,
        place: usize,
        other: String,
    },
}

/// A fault in Sections 3 to 6.
#[derive(Clone, Debug, PartialEq, Eq)]
pub enum LeadFault {
    /// The first sample is after the last.
    Backwards {
        first: u32,
        last: u32,
    },
    /// The byte counts of Section 5 or 6 do not add up to the bytes that are there.
    ByteCounts {
        sum: usize,
        left: usize,
    },
    Zone(ZoneFault),
    /// Section 6 says that it is bimodal.
    Bimodal,
    /// A step or interval that differs in Sections 5 and 6.
    Differs {
        what: What,
        section_5: u16,
        section_6: u16,
    },
    /// The lead's place was 0.
    PlaceZero,
    /// There is no lead at this place.
    NoLead {
        place: usize,
        leads: usize,
    },
}

/// A fault in a zone of the reference beat.
#[derive(Clone, Debug, PartialEq, Eq)]
pub enum ZoneFault {
    /// A QRS of a type without a zone that has one.
    OfType { qrs_type: u16, start: u32, end: u32 },
    /// A zone that is empty or starts at 0.
    Empty { start: u32, end: u32 },
    /// A zone that starts before the one before it has ended.
    Overlap { start: u32, before: u32 },
    /// A zone that needs samples the beat does not have.
    Outside {
        first: i64,
        last: i64,
        samples: usize,
    },
}

/// A fault in a lead's stream, or in samples that are to be put into one.
#[derive(Clone, Debug, PartialEq, Eq)]
pub enum StreamFault {
    /// No code of the table starts at this bit of the stream, from 1.
    NoCode {
        table: usize,
        bit: usize,
        bits: usize,
    },
    /// The stream ends inside the code that starts at this bit, or before it.
    Ends {
        bit: usize,
        bits: usize,
    },
    /// A sample rebuilt that does not fit 16 bits.
    Outside(i32),
    /// A sum with a sample of the beat that does not fit 16 bits.
    SumOutside {
        sum: i32,
        beat_sample: i64,
    },
    LeftOver {
        left: usize,
        bits: usize,
    },
    /// A difference that the tables cannot encode.
    NotEncodable {
        difference: i32,
        order: u8,
    },
}

impl From<FrameFault> for Fault {
    fn from(fault: FrameFault) -> Self {
        Fault::Frame(fault)
    }
}

impl From<FieldFault> for Fault {
    fn from(fault: FieldFault) -> Self {
        Fault::Field(fault)
    }
}

impl From<CodeFault> for Fault {
    fn from(fault: CodeFault) -> Self {
        Fault::Code(fault)
    }
}

impl From<LeadFault> for Fault {
    fn from(fault: LeadFault) -> Self {
        Fault::Lead(fault)
    }
}

impl From<ZoneFault> for Fault {
    fn from(fault: ZoneFault) -> Self {
        Fault::Lead(LeadFault::Zone(fault))
    }
}

impl From<StreamFault> for Fault {
    fn from(fault: StreamFault) -> Self {
        Fault::Stream(fault)
    }
}

/// Collects the findings of one row.
#[derive(Debug)]
pub struct Findings {
    row: u8,
    section: Option<u16>,
    list: Vec<Finding>,
}

impl Findings {
    pub fn new(row: u8, section: Option<u16>) -> Self {
        let list = Vec::new();
        Findings { row, section, list }
    }

    /// From now on in another section.
    pub fn go_to(&mut self, section: u16) {
        self.section = Some(section);
    }

    /// The spot for findings in this part, which starts at this byte.
    pub fn at(&mut self, part: Part, offset: usize) -> Spot<'_> {
        let offset = Some(offset);
        Spot {
            findings: self,
            part,
            offset,
        }
    }

    /// The spot for findings in a part that has no one byte to point at.
    pub fn of(&mut self, part: Part) -> Spot<'_> {
        Spot {
            findings: self,
            part,
            offset: None,
        }
    }

    pub fn list(self) -> Vec<Finding> {
        self.list
    }

    /// The value that was read, if nothing was found.
    pub fn or<T>(self, read: Option<T>) -> Result<T, Vec<Finding>> {
        match read {
            Some(read) if self.list.is_empty() => Ok(read),
            _ => Err(self.list),
        }
    }
}

/// Where something is looked at.
#[derive(Debug)]
pub struct Spot<'a> {
    findings: &'a mut Findings,
    part: Part,
    offset: Option<usize>,
}

impl Spot<'_> {
    pub fn push(&mut self, fault: impl Into<Fault>) {
        let Findings { row, section, .. } = *self.findings;
        self.findings.list.push(Finding {
            row,
            section,
            offset: self.offset,
            part: self.part,
            fault: fault.into(),
        });
    }

    /// Notes the fault if the rule does not hold; whether it holds.
    pub fn hold(&mut self, rule: bool, fault: impl Into<Fault>) -> bool {
        if !rule {
            self.push(fault);
        }
        rule
    }

    /// Holds a number to its bounds; whether it is in them.
    pub fn number(
        &mut self,
        what: What,
        found: impl Into<i64>,
        expected: RangeInclusive<i64>,
    ) -> bool {
        let found = found.into();
        let fault = Fault::Number {
            what,
            found,
            expected: expected.clone(),
        };
        self.hold(expected.contains(&found), fault)
    }

    /// Notes that this many bytes are needed and fewer are left.
    pub fn short(&mut self, needs: Needs, bytes: usize, left: usize) {
        self.push(Fault::Short { needs, bytes, left });
    }
}

/// Bounds as a finding has them.
pub fn bounds<N: Copy + TryInto<i64>>(range: &RangeInclusive<N>) -> RangeInclusive<i64> {
    let wide = |end: &N| (*end).try_into().unwrap_or(i64::MAX);
    wide(range.start())..=wide(range.end())
}
