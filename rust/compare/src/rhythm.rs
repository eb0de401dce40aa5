//! Sections 2 to 6 laid out by hand: code tables, leads, reference beats and streams.

use crate::draft::Draft;

/// Section 2's data that name the default table.
pub const DEFAULT_TABLE: [u8; 2] = 19_999u16.to_le_bytes();

/// A code: its prefix as it is in a stream, how many bits follow it, and what it means.
#[derive(Clone, Debug)]
pub struct Code {
    /// Letters `0` and `1`.
    pub prefix: String,
    /// The bits after the prefix.
    pub remainder: u8,
    /// 1 for a value, 0 for a switch.
    pub mode: u8,
    /// The value, or the table to switch to.
    pub base: i16,
}

/// A code that is a value.
pub fn value(prefix: impl Into<String>, base: i16) -> Code {
    Code {
        prefix: prefix.into(),
        remainder: 0,
        mode: 1,
        base,
    }
}

/// A code that takes its value from `remainder` bits after it.
pub fn remainder(prefix: impl Into<String>, remainder: u8) -> Code {
    Code {
        prefix: prefix.into(),
        remainder,
        mode: 1,
        base: 0,
    }
}

/// A code that switches to a table.
pub fn switch(prefix: impl Into<String>, table: i16) -> Code {
    Code {
        prefix: prefix.into(),
        remainder: 0,
        mode: 0,
        base: table,
    }
}

/// Section 2's data for these tables.
pub fn tables(tables: &[Vec<Code>]) -> Vec<u8> {
    let mut data = (tables.len() as u16).to_le_bytes().to_vec();
    for table in tables {
        data.extend((table.len() as u16).to_le_bytes());
        for code in table {
            data.extend(structure(code));
        }
    }
    data
}

/// The two tables of EC71, C.2.7.3, which switch to each other, as Section 2's data.
pub fn two_tables() -> Vec<u8> {
    let one = vec![
        value("0", 0),
        value("100", 1),
        value("101", -1),
        value("1100", 2),
        value("1101", -2),
        switch("1110", 2),
        remainder("1111", 8),
    ];
    let two = vec![
        remainder("0", 8),
        value("100", 0),
        value("101", 1),
        value("110", -1),
        switch("111", 1),
    ];
    tables(&[one, two])
}

/// How many tables the data of a Section 2 say that they have, where that many are allowed.
pub fn tables_in(section2: &[u8]) -> usize {
    match *section2 {
        [low, high, ..] if [low, high] == DEFAULT_TABLE => 1,
        [low, high, ..] => usize::from(u16::from_le_bytes([low, high])).min(scp::TABLES_MAX),
        _ => 0,
    }
}

/// The 9 bytes of a code structure.
fn structure(code: &Code) -> Vec<u8> {
    let bits = code.prefix.len() as u8;
    let first_lowest = code.prefix.bytes().rev();
    let base_code = first_lowest.fold(0u32, |sum, bit| sum << 1 | u32::from(bit == b'1'));
    let mut bytes = vec![bits, bits + code.remainder, code.mode];
    bytes.extend(code.base.to_le_bytes());
    bytes.extend(base_code.to_le_bytes());
    bytes
}

/// A stream of these bits, letters `0` and `1`, its last byte filled up with zeros.
pub fn bits(letters: &str) -> Vec<u8> {
    let letters: Vec<u8> = letters.bytes().filter(|letter| *letter != b' ').collect();
    let byte = |eight: &[u8]| {
        (0..8).fold(0, |sum, place| {
            sum << 1 | u8::from(eight.get(place) == Some(&b'1'))
        })
    };
    letters.chunks(8).map(byte).collect()
}

/// Values of two bytes each: a stream where there is no Section 2.
pub fn two_bytes(values: &[i16]) -> Vec<u8> {
    values
        .iter()
        .flat_map(|value| value.to_le_bytes())
        .collect()
}

/// The judge's shortest stream for these samples, by the data of a Section 2, none being empty.
pub fn shortest(section_2: &[u8], order: u8, samples: &[i16]) -> Vec<u8> {
    const ROOM: usize = 65_535;
    judge::encode_lead(section_2, samples, order, 8 * 65_536, ROOM)
        .expect("there is a stream")
        .bytes
}

/// Section 3's entry for a lead.
#[derive(Clone, Copy, Debug)]
pub struct Span {
    pub first: u32,
    pub last: u32,
    pub id: u8,
}

/// Section 5 or 6.
#[derive(Clone, Debug)]
pub struct Stored {
    pub step: u16,
    pub interval: u16,
    pub order: u8,
    /// Bimodal in Section 6, reserved in Section 5.
    pub sixth: u8,
    /// A stream for each lead.
    pub streams: Vec<Vec<u8>>,
}

impl Stored {
    /// Streams with 5 microvolts a step and 500 samples a second.
    pub fn new(order: u8, streams: Vec<Vec<u8>>) -> Stored {
        Stored {
            step: 5000,
            interval: 2000,
            order,
            sixth: 0,
            streams,
        }
    }

    /// The section's data.
    pub fn data(&self) -> Vec<u8> {
        let mut data = Vec::new();
        data.extend(self.step.to_le_bytes());
        data.extend(self.interval.to_le_bytes());
        data.extend([self.order, self.sixth]);
        for stream in &self.streams {
            data.extend((stream.len() as u16).to_le_bytes());
        }
        data.extend(self.streams.concat());
        data
    }
}

/// A QRS of Section 4.
#[derive(Clone, Copy, Debug)]
pub struct Qrs {
    pub kind: u16,
    pub start: u32,
    pub fiducial: u32,
    pub end: u32,
}

/// A zone of type 0.
pub const fn zone(start: u32, fiducial: u32, end: u32) -> Qrs {
    Qrs {
        kind: 0,
        start,
        fiducial,
        end,
    }
}

/// Sections 4 and 5.
#[derive(Clone, Debug)]
pub struct Beat {
    /// L, in milliseconds.
    pub length: u16,
    /// F.
    pub fiducial: u16,
    pub qrs: Vec<Qrs>,
    pub stored: Stored,
}

impl Beat {
    /// Section 4's data.
    pub fn places(&self) -> Vec<u8> {
        let mut data = Vec::new();
        data.extend(self.length.to_le_bytes());
        data.extend(self.fiducial.to_le_bytes());
        data.extend((self.qrs.len() as u16).to_le_bytes());
        for qrs in &self.qrs {
            data.extend(qrs.kind.to_le_bytes());
            for number in [qrs.start, qrs.fiducial, qrs.end] {
                data.extend(number.to_le_bytes());
            }
        }
        data
    }
}

/// Sections 2 to 6.
#[derive(Clone, Debug)]
pub struct Rhythm {
    /// Section 2's data; none if empty.
    pub tables: Vec<u8>,
    pub flags: u8,
    pub spans: Vec<Span>,
    pub beat: Option<Beat>,
    /// Section 6.
    pub stored: Stored,
}

impl Rhythm {
    /// Section 3's data.
    pub fn definition(&self) -> Vec<u8> {
        let mut data = vec![self.spans.len() as u8, self.flags];
        for span in &self.spans {
            data.extend(span.first.to_le_bytes());
            data.extend(span.last.to_le_bytes());
            data.push(span.id);
        }
        data
    }

    /// Puts the sections into a draft.
    pub fn put(&self, draft: &mut Draft) {
        if !self.tables.is_empty() {
            draft.put(2, &self.tables);
        }
        draft.put(3, &self.definition());
        if let Some(beat) = &self.beat {
            draft.put(4, &beat.places());
            draft.put(5, &beat.stored.data());
        }
        draft.put(6, &self.stored.data());
    }
}
