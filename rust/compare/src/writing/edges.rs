//! Jobs laid out by hand, at the edges of the writer's rules and at their ends; what each is to get is written here from the
//! rules.

use judge::make::ToWrite;
use judge::{row, Refused};

use super::work_of;
use crate::encoding::extremes::{hostile, mixed, to_and_fro, wave, CROSSING, RISING};
use crate::rhythm::{tables, DEFAULT_TABLE};

/// The most samples of a lead.
const MOST: usize = scp::SAMPLES_MAX;
/// The most leads of a record.
const LEADS: usize = scp::LEADS_MAX;
/// Samples whose third has a difference of order 2 outside 16 bits.
const WIDEST: [i16; 3] = [-32768, 32767, -32768];
/// Room for any record.
const ROOM: usize = 2 * scp::RECORD_MAX;

/// A job, what it is, and what writing it gives.
pub struct Edge {
    /// A description in a few words.
    pub name: String,
    /// The refusal, or 0.
    pub refusal: u8,
    /// Whether the work space is zeros after it.
    pub cleared: bool,
    /// The job to be written, and with how much room.
    pub job: ToWrite,
}

impl Edge {
    fn new(name: impl Into<String>, refusal: u8, job: ToWrite) -> Edge {
        let searched = matches!(refusal, 0 | row::NO_STREAM | row::TOO_LONG);
        Edge {
            name: name.into(),
            refusal,
            cleared: searched && !job.section2.is_empty(),
            job,
        }
    }

    /// Whether an answer of the judge is the one that is written down.
    pub fn is_answered_by(&self, judged: &Result<Vec<u8>, Refused>) -> bool {
        match judged {
            Ok(_) => self.refusal == 0,
            Err(refused) => (refused.number, refused.work_cleared) == (self.refusal, self.cleared),
        }
    }
}

/// All jobs at the edges, the largest left out.
pub fn all() -> Vec<Edge> {
    [
        bounds(),
        lists(),
        sections(),
        rooms(),
        every_order(true),
        every_order(false),
    ]
    .into_iter()
    .flatten()
    .collect()
}

// ---- jobs to start from

/// Fields that keep the rules, and the end mark.
pub const FIELDS: [u8; 24] = [
    2, 2, 0, b'7', 0, 14, 0, 0, 25, 4, 0, 0xE8, 7, 3, 14, 26, 3, 0, 9, 26, 53, 255, 0, 0,
];

/// A job with these leads, numbered from 1, and room for anything.
fn job(section2: &[u8], order: u8, leads: &[Vec<i16>]) -> ToWrite {
    ToWrite {
        section1: FIELDS.to_vec(),
        section2: section2.to_vec(),
        version: 13,
        flags: 0xFF,
        step: 5000,
        interval: 2000,
        order,
        firsts: vec![1; leads.len()],
        counts: leads.iter().map(|lead| lead.len() as u32).collect(),
        ids: (1..).take(leads.len()).collect(),
        samples: leads.concat(),
        work_len: 8 * MOST,
        out_len: ROOM,
    }
}

/// Three leads of different lengths by second differences.
fn three(section2: &[u8]) -> ToWrite {
    job(
        section2,
        2,
        &[
            vec![14, 18, 22, 22, 13, 3, -2],
            vec![-5, 7, 300],
            wave(5).to_vec(),
        ],
    )
}

// ---- row 17

/// A change of a job.
type Change = fn(&mut ToWrite);

/// Jobs within each bound of row 17.
const WITHIN: [(&str, Change); 15] = [
    ("as it is", |_| {}),
    ("one lead of one sample", |job| set(job, 1, 1)),
    ("32 leads", |job| set(job, 32, 2)),
    ("65,536 samples", |job| set(job, 1, MOST)),
    ("order 0", |job| job.order = 0),
    ("order 1", |job| job.order = 1),
    ("step 1", |job| job.step = 1),
    ("step 65,535", |job| job.step = 65_535),
    ("interval 1", |job| job.interval = 1),
    ("interval 65,535", |job| job.interval = 65_535),
    ("the last number that there is", |job| {
        job.firsts[0] = u32::MAX - 6
    }),
    ("the same in the last lead", |job| {
        job.firsts[2] = u32::MAX - 4
    }),
    ("the largest first number", |job| {
        set(job, 2, 1);
        job.firsts[1] = u32::MAX;
    }),
    ("no flags and version 0", |job| {
        (job.flags, job.version) = (0, 0)
    }),
    ("other counts with the same sum", |job| {
        job.counts = vec![1, 13, 1]
    }),
];

/// Jobs outside of them.
const OUTSIDE: [(&str, Change); 27] = [
    ("no lead", |job| set(job, 0, 1)),
    ("no lead, and samples", |job| {
        let samples = job.samples.clone();
        set(job, 0, 1);
        job.samples = samples;
    }),
    ("33 leads", |job| set(job, 33, 2)),
    ("289 leads, of which 8 bits say 33", |job| set(job, 289, 1)),
    ("256 leads, of which 8 bits say 0", |job| set(job, 256, 1)),
    ("257 leads, of which 8 bits say 1", |job| set(job, 257, 1)),
    ("65,537 samples", |job| set(job, 1, MOST + 1)),
    ("a lead of no sample", |job| set(job, 1, 0)),
    ("no sample in the first of three", |job| {
        job.counts = vec![0, 10, 5]
    }),
    ("no sample in the last of three", |job| {
        job.counts = vec![10, 5, 0]
    }),
    ("order 3", |job| job.order = 3),
    ("order 255", |job| job.order = 255),
    ("step 0", |job| job.step = 0),
    ("interval 0", |job| job.interval = 0),
    ("a first number 0", |job| job.firsts[0] = 0),
    ("a first number 0 in the last lead", |job| job.firsts[2] = 0),
    ("a last number of 33 bits", |job| {
        job.firsts[0] = u32::MAX - 5
    }),
    ("a last number of 33 bits in the last lead", |job| {
        job.firsts[2] = u32::MAX
    }),
    ("a sample too many", |job| job.samples.push(0)),
    ("a sample too few", |job| job.samples.truncate(14)),
    ("no samples", |job| job.samples.clear()),
    ("one lead's samples", |job| job.samples.truncate(7)),
    ("a count too many", |job| job.counts[1] += 1),
    ("a count too few", |job| job.counts[2] -= 1),
    ("counts whose sum in 32 bits is right", |job| {
        job.counts = vec![1 << 31, 1 << 31, 15]
    }),
    ("the largest counts", |job| job.counts = vec![u32::MAX; 3]),
    ("a count that is right in 16 bits", |job| {
        job.counts[0] += 65_536
    }),
];

/// Each bound of row 17 from both sides.
fn bounds() -> Vec<Edge> {
    let mut all = changed(0, &WITHIN);
    all.extend(changed(row::WRITER_BOUNDS, &OUTSIDE));
    all
}

/// Three leads after each of these changes, by the default table and without tables.
fn changed(refusal: u8, changes: &[(&str, Change)]) -> Vec<Edge> {
    let made = changes.iter().flat_map(|(name, change)| {
        [&DEFAULT_TABLE[..], &[]].map(|section2| {
            let mut job = three(section2);
            change(&mut job);
            // what is within the bounds, and has no stream that is short enough
            let long = refusal == 0 && section2.is_empty() && job.counts[0] == MOST as u32;
            Edge::new(*name, if long { row::TOO_LONG } else { refusal }, job)
        })
    });
    made.collect()
}

/// Makes it `leads` leads of `count` samples.
fn set(job: &mut ToWrite, leads: usize, count: usize) {
    job.firsts = vec![1; leads];
    job.counts = vec![count as u32; leads];
    job.ids = vec![9; leads];
    job.samples = vec![3; leads * count];
}

/// Lists of leads of unequal length: every three lengths from 0 to 4 that are not equal, with samples enough for the counts.
fn lists() -> Vec<Edge> {
    let mut edges = Vec::new();
    for lengths in 0..125 {
        let (firsts, counts, ids) = (lengths / 25, lengths / 5 % 5, lengths % 5);
        if firsts == counts && counts == ids {
            continue;
        }
        let mut job = three(&DEFAULT_TABLE);
        job.firsts = vec![1; firsts];
        job.counts = vec![2; counts];
        job.ids = vec![1; ids];
        job.samples = vec![5; 2 * counts];
        let name = format!("lists of {firsts}, {counts} and {ids} leads");
        edges.push(Edge::new(name, row::WRITER_BOUNDS, job));
    }
    edges
}

// ---- rows 6 and 7

/// Changes of what is given for Sections 1 and 2.
const SECTIONS: [(&str, u8, Change); 19] = [
    ("no header", row::SECTION_1, |job| job.section1.clear()),
    ("no end mark", row::SECTION_1, |job| {
        job.section1.truncate(21)
    }),
    ("part of an end mark", row::SECTION_1, |job| {
        job.section1.truncate(23)
    }),
    ("an end mark alone", row::SECTION_1, |job| {
        job.section1 = vec![255, 0, 0]
    }),
    ("a byte after the end mark", row::SECTION_1, |job| {
        job.section1.push(0)
    }),
    ("two bytes after it", row::SECTION_1, |job| {
        job.section1.extend([0, 0])
    }),
    ("a second end mark", row::SECTION_1, |job| {
        job.section1.extend([255, 0, 0])
    }),
    ("an end mark with a length", row::SECTION_1, |job| {
        job.section1[22] = 1
    }),
    ("an identifier with no NUL", row::SECTION_1, |job| {
        job.section1[4] = b'7'
    }),
    ("a field more", 0, |job| {
        job.section1.splice(0..0, [30, 1, 0, b'x']);
    }),
    ("a field that holds an end mark", 0, |job| {
        job.section1.splice(0..0, [30, 3, 0, 255, 0, 0]);
    }),
    ("one byte of tables", row::SECTION_2, |job| {
        job.section2 = vec![1]
    }),
    ("a spare byte", row::SECTION_2, |job| job.section2.push(0)),
    ("two spare bytes", row::SECTION_2, |job| {
        job.section2.extend([0, 0])
    }),
    ("no table", row::SECTION_2, |job| job.section2 = vec![0, 0]),
    ("nine tables", row::SECTION_2, |job| {
        job.section2 = vec![9, 0]
    }),
    ("own tables", 0, |job| job.section2 = tables(&mixed())),
    ("own tables with a spare byte", row::SECTION_2, |job| {
        job.section2 = [tables(&mixed()), vec![0]].concat()
    }),
    ("own tables cut short", row::SECTION_2, |job| {
        job.section2 = tables(&mixed());
        job.section2.pop();
    }),
];

/// Edges of the data given for Sections 1 and 2.
fn sections() -> Vec<Edge> {
    let made = |(name, refusal, change): (&str, u8, Change)| {
        let mut job = three(&DEFAULT_TABLE);
        change(&mut job);
        Edge::new(name, refusal, job)
    };
    SECTIONS.map(made).into()
}

// ---- rows 11, 15 and 16

/// Rooms of just enough and of one byte less; leads without a stream, or with one that is too long, at every place.
fn rooms() -> Vec<Edge> {
    let mut edges = Vec::new();
    for section2 in [DEFAULT_TABLE.to_vec(), tables(&mixed()), Vec::new()] {
        let mut exact = three(&section2);
        exact.work_len = work_of(&exact.writing());
        exact.out_len = length_of(&exact);
        let has_tables = !section2.is_empty();
        if has_tables {
            let mut short = exact.clone();
            short.work_len -= 1;
            edges.push(Edge::new("a byte of work space too few", row::ROOM, short));
        }
        let mut short = exact.clone();
        short.out_len -= 1;
        edges.push(Edge {
            cleared: has_tables,
            ..Edge::new("a byte of output too few", row::ROOM, short)
        });
        edges.push(Edge::new("just enough room", 0, exact));
    }
    for section2 in [&DEFAULT_TABLE[..], &[]] {
        for place in 0..4 {
            let mut leads = vec![wave(9); 3];
            leads.insert(place, WIDEST.to_vec());
            let name = format!("no stream for lead {} of 4", place + 1);
            edges.push(Edge::new(name, row::NO_STREAM, job(section2, 2, &leads)));
            leads[place] = jagged(40_000);
            let name = format!("too long a stream for lead {} of 4", place + 1);
            edges.push(Edge::new(name, row::TOO_LONG, job(section2, 2, &leads)));
            leads.push(WIDEST.to_vec());
            let name = format!(
                "too long a stream for lead {}, none for the last",
                place + 1
            );
            edges.push(Edge::new(name, row::NO_STREAM, job(section2, 2, &leads)));
        }
    }
    edges
}

/// How long the judge's record is.
fn length_of(job: &ToWrite) -> usize {
    judge::write_record(&job.writing(), usize::MAX, usize::MAX).map_or(0, |record| record.len())
}

/// Samples whose differences have long codes.
fn jagged(count: usize) -> Vec<i16> {
    (0..count).map(|at| 200 * (at % 2) as i16).collect()
}

// ---- the order of the refusals

/// The faults that a job can have, in the order that they are met in: the refusal, and whether a search has begun.
const FAULTS: [(u8, bool); 7] = [
    (row::WRITER_BOUNDS, false),
    (row::SECTION_1, false),
    (row::SECTION_2, false),
    (row::ROOM, false),
    (row::NO_STREAM, true),
    (row::TOO_LONG, true),
    (row::ROOM, true),
];

/// Every choice of faults: the first of them is answered. Without Section 2 there are no faults of it or of work space.
fn every_order(has_tables: bool) -> Vec<Edge> {
    let of_tables = 1 << 2 | 1 << 3;
    (0..1 << FAULTS.len())
        .filter(|choice| has_tables || choice & of_tables == 0)
        .map(|choice| with_faults(has_tables, |fault| choice >> fault & 1 == 1))
        .collect()
}

/// A job with the faults that are chosen, by their places in the list.
fn with_faults(has_tables: bool, is_chosen: impl Fn(usize) -> bool) -> Edge {
    let section2 = if has_tables { &DEFAULT_TABLE[..] } else { &[] };
    let mut leads = vec![vec![14, 18, 22, 22], vec![-5, 7, 300], wave(5)];
    if is_chosen(4) {
        leads[1] = WIDEST.to_vec();
    }
    if is_chosen(5) {
        leads[2] = jagged(40_000);
    }
    let mut job = job(section2, 2, &leads);
    job.work_len = work_of(&job.writing()) - usize::from(is_chosen(3));
    job.out_len = match is_chosen(6) {
        true => length_of(&job).saturating_sub(1),
        false => ROOM,
    };
    if is_chosen(0) {
        job.interval = 0;
    }
    if is_chosen(1) {
        job.section1.push(0);
    }
    if is_chosen(2) {
        job.section2.push(0);
    }
    let chosen: Vec<usize> = (0..FAULTS.len())
        .filter(|&fault| is_chosen(fault))
        .collect();
    let (refusal, searched) = chosen.first().map_or((0, true), |&fault| FAULTS[fault]);
    let names: Vec<String> = chosen.iter().map(|&at| FAULTS[at].0.to_string()).collect();
    Edge {
        name: format!("faults {}", names.join(", ")),
        refusal,
        cleared: searched && has_tables,
        job,
    }
}

// ---- the largest

/// As many leads as can be, as long as can be: 3 bits and 1 bit by turns, and now and then 26.
fn full() -> ToWrite {
    let lead = |at: usize| -> Vec<i16> {
        let sample = |n: usize| match (n + at) % 16 {
            0 => 200,
            n => (n % 2) as i16,
        };
        (0..MOST).map(sample).collect()
    };
    job(&DEFAULT_TABLE, 0, &(0..LEADS).map(lead).collect::<Vec<_>>())
}

/// A job with as many fields more as make its record so long.
fn filled(job: &ToWrite, bytes: usize) -> ToWrite {
    let mut job = job.clone();
    let room = bytes - length_of(&job);
    fill(&mut job, room);
    job
}

/// Jobs as large as can be: leads, samples, tables, structures, and bytes of the record.
pub fn largest() -> Vec<Edge> {
    let two_bytes = |leads: usize| job(&[], 1, &vec![wave(32_767); leads]);
    let searched = |order| {
        let leads = [to_and_fro(2000), vec![0], to_and_fro(MOST), vec![1; 9]];
        job(&tables(&hostile(order)), 0, &leads)
    };
    let full_record = filled(&full(), scp::RECORD_MAX);
    let mut too_long = full_record.clone();
    fill(&mut too_long, 4);
    vec![
        Edge::new("32 leads of 65,536 samples", 0, full()),
        Edge::new("32 long leads, a full record", 0, full_record),
        Edge::new("32 long leads, a record too long", row::TOO_LONG, too_long),
        Edge::new(
            "15 leads of two bytes, a full record",
            0,
            filled(&two_bytes(15), scp::RECORD_MAX),
        ),
        Edge::new(
            "15 leads of two bytes, too long",
            row::TOO_LONG,
            filled(&two_bytes(15), scp::RECORD_MAX + 2),
        ),
        Edge::new("16 leads of two bytes", row::TOO_LONG, two_bytes(16)),
        Edge::new("32 leads of two bytes", row::TOO_LONG, two_bytes(32)),
        Edge::new("8 hostile tables of 64", 0, searched(RISING)),
        Edge::new("the same in another order", 0, searched(CROSSING)),
        Edge::new(
            "leads by 8 mixed tables of 64",
            0,
            job(&tables(&mixed()), 2, &[wave(MOST), wave(1), wave(3000)]),
        ),
    ]
}

/// Puts this many bytes of fields in front of the others: an even number.
fn fill(job: &mut ToWrite, mut bytes: usize) {
    let mut fields = Vec::new();
    while bytes > 0 {
        // what is left is either enough for a field, or none
        let length = match bytes {
            0..=65_538 => bytes - 3,
            65_539..=70_000 => 60_000,
            _ => 65_535,
        };
        fields.push(77);
        fields.extend((length as u16).to_le_bytes());
        fields.extend(std::iter::repeat_n(0xEE, length));
        bytes -= 3 + length;
    }
    job.section1.splice(0..0, fields);
}
