//! Records at the ends of the rules: as long, as many and as deep as can be. The right answers are written here from the
//! rules.

use judge::make::{mend, mend_size};

use crate::draft::Draft;
use crate::largest::{largest, plain_fields, Filling};
use crate::rhythm::{
    bits, remainder, switch, tables, two_bytes, value, zone, Beat, Code, Rhythm, Span, Stored,
    DEFAULT_TABLE,
};

/// A record, what it is, and what reading its first lead gives.
pub struct Extreme {
    /// A description in a few words.
    pub name: &'static str,
    /// How many structures are compared, or the refusal.
    pub read: Result<u32, u8>,
    /// Its bytes.
    pub record: Vec<u8>,
}

/// How a record is made that takes its time to make.
type Make = fn() -> Vec<u8>;

/// All of them, each with how it is made.
const ALL: [(&str, Result<u32, u8>, Make); 20] = [
    ("as many fields as can be", Err(7), || {
        largest(Filling::EmptyFields)
    }),
    ("fields as long as can be", Err(7), || {
        largest(Filling::LongFields)
    }),
    ("a byte over the longest", Err(1), over_the_longest),
    ("the shortest, Section 0 alone", Err(4), || {
        Draft::default().lay_out()
    }),
    ("a byte under the shortest", Err(1), under_the_shortest),
    ("one sample in one byte", Ok(1), one_sample),
    (
        "all bounds at once",
        Ok(compared_for_mixed(8) + compared_for_mixed(16)),
        all_bounds,
    ),
    ("32 leads of 65,536 samples", Ok(65_536), long_leads),
    ("32,767 samples of two bytes", Ok(0), || {
        samples_of_two_bytes(32_767)
    }),
    ("65,536 samples of two bytes", Err(12), || {
        samples_of_two_bytes(65_536)
    }),
    ("nothing but switches", Err(12), || switches("")),
    // switches are at place 1 of their table, values at place 2
    ("switches, then a value", Ok(STREAM_BITS - 1 + 2), || {
        switches("1")
    }),
    ("a beat of nothing but switches", Err(12), || {
        beat_of_switches("")
    }),
    (
        "a beat of switches, then a value",
        Ok(STREAM_BITS - 1 + 2 + 2),
        || beat_of_switches("1"),
    ),
    (
        "switches through eight tables",
        Ok(STREAM_BITS - 2 + 2),
        switches_through_all,
    ),
    (
        "codes of 48 bits, the last of 64",
        Ok(64 * LONGEST_CODES),
        longest_codes,
    ),
    ("codes that match nothing but at their end", Err(12), || {
        nearly_a_code()
    }),
    // 65,536 times 0, and a beat of 1 -1 2 -2 3 -3 0 0 1 1
    (
        "the last sample numbers",
        Ok(65_536 + 2 + 3 + 4 + 5 + 6 + 7 + 1 + 1 + 2 + 2),
        last_numbers,
    ),
    ("the busiest lead", Ok(BUSIEST), || with(&busiest())),
    (
        "the busiest lead, with a beat of the same kind",
        Ok(2 * BUSIEST),
        busiest_with_beat,
    ),
];

/// How many there are.
pub const COUNT: usize = ALL.len();

/// The one at a place, from 0.
pub fn nth(place: usize) -> Extreme {
    let (name, read, make) = ALL[place];
    Extreme {
        name,
        read,
        record: make(),
    }
}

/// All of them.
pub fn all() -> impl Iterator<Item = Extreme> {
    (0..COUNT).map(nth)
}

// ---- the length of the record

fn over_the_longest() -> Vec<u8> {
    let mut record = largest(Filling::LongFields);
    record.push(0);
    mend_size(&mut record);
    mend(&mut record);
    record
}

fn under_the_shortest() -> Vec<u8> {
    let mut record = Draft::default().lay_out();
    record.pop();
    mend_size(&mut record);
    mend(&mut record);
    record
}

// ---- leads

/// A record with these sections.
fn with(rhythm: &Rhythm) -> Vec<u8> {
    let mut draft = Draft::default();
    draft.put(1, &plain_fields());
    rhythm.put(&mut draft);
    draft.lay_out()
}

/// `number` leads of samples 1 to `last`, each with this stream.
fn leads(number: u8, last: u32, tables: Vec<u8>, order: u8, stream: Vec<u8>) -> Rhythm {
    let span = |id| Span { first: 1, last, id };
    Rhythm {
        tables,
        flags: 0,
        spans: (1..=number).map(span).collect(),
        beat: None,
        stored: Stored::new(order, vec![stream; number.into()]),
    }
}

fn one_sample() -> Vec<u8> {
    with(&leads(1, 1, DEFAULT_TABLE.to_vec(), 2, bits("0")))
}

fn long_leads() -> Vec<u8> {
    let stream = vec![0; 8192];
    with(&leads(32, 65_536, DEFAULT_TABLE.to_vec(), 2, stream))
}

/// As many as the byte count of a lead allows, or more samples than that.
fn samples_of_two_bytes(count: u32) -> Vec<u8> {
    let values: Vec<i16> = (0..32_767).map(|n: i32| (n * 7919) as i16).collect();
    with(&leads(1, count, Vec::new(), 0, two_bytes(&values)))
}

/// 64 pointers, 1,048,576 bytes, 8 tables of 64 structures, 32 leads and a beat of 65,536 samples each, 1,024 QRS.
fn all_bounds() -> Vec<u8> {
    let mut rhythm = leads(32, 65_536, tables(&full_tables()), 1, bits(&mixed(8)));
    rhythm.flags = 0xFF;
    rhythm.stored.interval = 250;
    let mut beat = Beat {
        length: 16_384,
        fiducial: 1,
        qrs: (0..1024)
            .map(|k| zone(1 + 64 * k, 1 + 63 * k, 64 * (k + 1)))
            .collect(),
        stored: Stored::new(0, vec![bits(&mixed(16)); 32]),
    };
    beat.stored.interval = 250;
    rhythm.beat = Some(beat);

    let mut draft = Draft::default();
    draft.ids.extend(1000..1052);
    draft.put(1, &plain_fields());
    rhythm.put(&mut draft);
    let room = scp::RECORD_MAX - draft.lay_out().len();
    draft.put(1051, &vec![0x5A; room - 16]);
    draft.lay_out()
}

/// Eight tables of 64 structures: a switch to the next table, 62 values of 7 bits, and 0 in one bit, which is looked at
/// last.
fn full_tables() -> Vec<Vec<Code>> {
    let table = |number: i16| {
        let mut codes = vec![switch("1111110", number % 8 + 1)];
        codes.extend((0..62).map(|k| value(seven_bits(k), k - 31)));
        codes.push(value("0", 0));
        codes
    };
    (1..=8).map(table).collect()
}

/// A one, then a number in six bits.
fn seven_bits(number: i16) -> String {
    format!("1{number:06b}")
}

/// The structures compared for [`mixed`]. A zero is at place 64, so 65,536 of them take 64 times as many. A switch takes 1
/// more. A pair of values takes 62 less than two zeros, 66, as the two are as far from place 33, before it and behind it.
const fn compared_for_mixed(every: u32) -> u32 {
    let turns = 65_536 / every;
    let (switches, pairs) = (turns / 8, 3 * turns / 8);
    64 * 65_536 + switches - 62 * pairs
}

/// 65,536 values, all 0 but for a switch or a pair of other values that cancels out, once in twice `every` values.
fn mixed(every: usize) -> String {
    let mut letters = String::new();
    for n in 0..65_536 {
        let turn = n / every;
        match n % every {
            0 if turn % 8 == 0 => letters.push_str("11111100"),
            0 if turn % 2 == 0 => letters.push_str(&seven_bits(31 + (turn % 30) as i16)),
            1 if turn % 2 == 0 && turn % 8 != 0 => {
                letters.push_str(&seven_bits(31 - (turn % 30) as i16))
            }
            _ => letters.push('0'),
        }
    }
    letters
}

/// The bits of the longest stream.
const STREAM_BITS: u32 = 8 * 65_535;

/// One sample: a stream as long as can be of one-bit switches to the same table, with these bits at its end.
fn switches(end: &str) -> Vec<u8> {
    with(&leads(1, 1, switching(), 0, all_switches(end)))
}

fn switching() -> Vec<u8> {
    tables(&[vec![switch("0", 1), value("1", 5)]])
}

fn all_switches(end: &str) -> Vec<u8> {
    let switches = STREAM_BITS as usize - end.len();
    bits(&format!("{}{end}", "0".repeat(switches)))
}

/// The same in the beat's stream, the beat having one sample.
fn beat_of_switches(end: &str) -> Vec<u8> {
    let mut rhythm = leads(1, 1, switching(), 0, bits("1"));
    rhythm.flags = 1;
    rhythm.beat = Some(Beat {
        length: 2,
        fiducial: 1,
        qrs: vec![zone(1, 1, 1)],
        stored: Stored::new(0, vec![all_switches(end)]),
    });
    with(&rhythm)
}

/// Each table switches to the next by one bit, and has a value by two.
fn switches_through_all() -> Vec<u8> {
    let table = |number| {
        vec![
            switch("0", number % 8 + 1),
            value("10", number),
            value("11", 0),
        ]
    };
    let tables = tables(&(1..=8).map(table).collect::<Vec<_>>());
    with(&leads(1, 1, tables, 1, all_switches("10")))
}

/// The structures compared for the busiest lead that there can be: 64 for each bit but the last two, as each of them is
/// a code at place 64. More cannot be. There are 65,536 values and eight tables at most, so a stream this long comes back to a
/// table by switches. What ends that is another code of a table whose switch has one bit and place 64: it has two bits or more,
/// and place 63 or less.
const BUSIEST: u32 = 64 * (STREAM_BITS - 2) + 63;

/// One sample: a stream as long as can be of one-bit switches to the same table, which are last of 64 structures, then a value
/// of two bits, which is last but one.
fn busiest() -> Rhythm {
    let mut codes: Vec<Code> = (0..62).map(|k| value(format!("11{k:06b}"), k)).collect();
    codes.extend([value("10", 5), switch("0", 1)]);
    leads(1, 1, tables(&[codes]), 0, all_switches("10"))
}

/// The same with a beat of one sample, whose stream is as the lead's.
fn busiest_with_beat() -> Vec<u8> {
    let mut rhythm = busiest();
    rhythm.flags = 1;
    rhythm.beat = Some(Beat {
        length: 2,
        fiducial: 1,
        qrs: vec![zone(1, 1, 1)],
        stored: rhythm.stored.clone(),
    });
    with(&rhythm)
}

/// As many codes of 48 bits as fit a stream.
const LONGEST_CODES: u32 = STREAM_BITS / 48;

/// Every value has a prefix of 32 bits and a remainder of 16, and is last in its table.
fn longest_codes() -> Vec<u8> {
    let prefix = |k: usize| format!("{k:032b}");
    let mut codes: Vec<Code> = (1..64).map(|k| value(prefix(k), k as i16)).collect();
    codes.push(remainder(prefix(0), 16));
    let tables = tables(&vec![codes; 8]);
    let stream: String = (0..LONGEST_CODES)
        .map(|n| format!("{}{:016b}", prefix(0), (n * 31) % 65_536))
        .collect();
    with(&leads(1, LONGEST_CODES, tables, 0, bits(&stream)))
}

/// 64 prefixes of 32 bits, and a stream that goes along with them for 31.
fn nearly_a_code() -> Vec<u8> {
    let codes = (0..64).map(|k| value(format!("{:032b}", 2 * k + 1), k));
    let tables = tables(&vec![codes.collect(); 8]);
    with(&leads(1, 65_536, tables, 0, vec![0; 65_535]))
}

/// Leads that end with the last number of 32 bits, and zones up to it.
fn last_numbers() -> Vec<u8> {
    let mut rhythm = leads(2, 1, DEFAULT_TABLE.to_vec(), 1, vec![0; 8192]);
    rhythm.flags = 1;
    rhythm.spans = vec![
        Span {
            first: u32::MAX - 65_535,
            last: u32::MAX,
            id: 1,
        },
        Span {
            first: u32::MAX,
            last: u32::MAX,
            id: 2,
        },
    ];
    rhythm.stored.streams[1] = bits("1000");
    rhythm.beat = Some(Beat {
        length: 20,
        fiducial: 10,
        qrs: vec![
            zone(u32::MAX - 65_540, u32::MAX - 65_535, u32::MAX - 65_535),
            zone(u32::MAX - 5, u32::MAX - 1, u32::MAX - 1),
            zone(u32::MAX, u32::MAX, u32::MAX),
        ],
        stored: Stored::new(
            0,
            vec![bits("100 101 1100 1101 11100 11101 0 0 100 100"); 2],
        ),
    });
    with(&rhythm)
}

#[cfg(test)]
mod tests {
    use super::{all, ALL};

    /// The judge agrees with what is written down, and the bounds are reached.
    #[test]
    fn each_is_what_it_is_said_to_be() {
        for extreme in all() {
            let room = scp::SAMPLES_MAX;
            let read = judge::read_lead(&extreme.record, 1, room, room);
            let bound = read.as_ref().map_or(0, |lead| 64 * lead.bits);
            let compared = read.map(|lead| lead.compared);
            let answer = compared.map_err(|refused| refused.number);
            assert_eq!(answer, extreme.read, "{}", extreme.name);
            assert!(answer.unwrap_or(0) <= bound, "{}", extreme.name);
        }
        let bounds = all().find(|extreme| extreme.name == "all bounds at once");
        let record = bounds.unwrap().record;
        assert_eq!(record.len(), scp::RECORD_MAX);
        assert_eq!(judge::open(&record).unwrap().len(), 64);
        let lead = judge::lead(&record, 32).unwrap();
        assert_eq!((lead.leads, lead.last), (32, 65_536));
        assert!(judge::read_lead(&record, 32, 65_536, 65_536).is_ok());
        assert!(judge::read_lead(&record, 32, 65_536, 65_535).is_err());
    }

    /// The numbers themselves, where they are worked out above.
    #[test]
    fn structures_compared() {
        let compared = |name| ALL.iter().find(|extreme| extreme.0 == name).unwrap().1;
        assert_eq!(compared("all bounds at once"), Ok(8_104_448));
        assert_eq!(compared("switches, then a value"), Ok(524_281));
        assert_eq!(compared("codes of 48 bits, the last of 64"), Ok(699_008));
        assert_eq!(compared("the last sample numbers"), Ok(65_569));
        assert_eq!(compared("the busiest lead"), Ok(64 * 524_280 - 65));
        let with_beat = compared("the busiest lead, with a beat of the same kind");
        assert_eq!(with_beat, Ok(67_107_710));
    }
}
