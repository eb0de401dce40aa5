//! The safe calls, on what can be worked out by hand. `compare` has the many inputs.

use scp::raw::{self, ScpLead};
use scp::{Coded, Entry, IndexEntry, Job, Lead, Refusal, Step, ENTRY_MAX, FIRST_FIELD};

/// A file of `samples/`.
fn sample(name: &str) -> Vec<u8> {
    let folder = concat!(env!("CARGO_MANIFEST_DIR"), "/../../samples/");
    std::fs::read(format!("{folder}{name}")).unwrap()
}

/// Sections 0 and 1 alone, for the patient 007.
fn record() -> Vec<u8> {
    sample("007.scp")
}

#[test]
fn the_check_is_crc_ccitt() {
    assert_eq!(scp::crc(b"123456789"), 0x29B1);
    assert_eq!(scp::crc(b""), 0xFFFF);
    assert_eq!(scp::crc(&[0]), 0xE1F0);
}

#[test]
fn pointers_are_answered_as_stored() {
    let pointers = scp::open(&record()).unwrap();
    assert_eq!(pointers.len(), 12);
    let stored: Vec<_> = pointers.iter().map(|p| (p.id, p.length, p.index)).collect();
    assert_eq!(stored[..3], [(0, 136, 7), (1, 54, 143), (2, 0, 0)]);
    let present = pointers.iter().filter(|pointer| pointer.is_present());
    assert_eq!(present.count(), 2);
}

#[test]
fn a_field_is_a_part_of_the_record() {
    let record = record();
    let identifier = scp::field(&record, 2, 1).unwrap();
    assert_eq!(&record[identifier], b"007\0");
    let tags: Vec<u8> = scp::fields(&record)
        .unwrap()
        .map(|field| field.tag)
        .collect();
    assert_eq!(tags, [2, 14, 25, 26, 30]);
    for field in scp::fields(&record).unwrap() {
        assert_eq!(scp::field(&record, field.tag, 1), Ok(field.range));
    }
}

#[test]
fn a_walk_stays_at_its_end() {
    let record = record();
    let mut fields = scp::fields(&record).unwrap();
    assert_eq!(fields.by_ref().count(), 5);
    assert_eq!(fields.next(), None);
}

#[test]
fn refusals_have_a_number_and_words() {
    let record = record();
    let absent = Err(Refusal::ABSENT);
    assert_eq!(scp::field(&record, 2, 0), absent);
    assert_eq!(scp::field(&record, 255, 1), absent);
    assert_eq!(scp::walk_start(&record[1..]), Err(Refusal::LENGTH));
    let refusal = scp::open(&[]).unwrap_err();
    assert_eq!(
        refusal.to_string(),
        format!("1, rule broken: {}", refusal.words())
    );
    assert!(scp::fields(&[]).is_err());
}

#[test]
fn identifiers_are_the_same_byte_for_byte() {
    assert!(scp::same_identifier(b"007\0", b"007\0"));
    assert!(!scp::same_identifier(b"007\0", b"7\0"));
    assert!(!scp::same_identifier(b"007\0", b"007"));
    assert!(scp::same_identifier(b"", b""));
}

#[test]
fn a_step_shows_a_whole_field_or_the_end() {
    let mut section = [0; FIRST_FIELD].to_vec();
    section.extend([30, 2, 0, b'o', b'k', 255, 0, 0]);
    let step = Step {
        tag: 30,
        start: 19,
        length: 2,
        next: 21,
    };
    assert_eq!(scp::walk_step(&section, FIRST_FIELD), Some(step));
    assert_eq!(scp::walk_step(&section, step.next), None);
    assert_eq!(scp::walk_step(&section[..20], FIRST_FIELD), None);
    assert_eq!(scp::walk_step(&section, usize::MAX), None);
}

#[test]
fn a_lead_is_read_into_the_room_lent() {
    let record = sample("two-leads.scp");
    let mut out = [77; 10];
    let mut work = [5; 3];
    let lead = scp::read_lead(&record, 1, &mut out, &mut work).unwrap();
    let expected = Lead {
        id: 1,
        flags: 0,
        step: 5000,
        interval: 2000,
        first: 1,
        count: 8,
        compared: 0, // there is no Section 2
    };
    assert_eq!(lead, expected);
    assert_eq!(out, [10, 12, 13, 15, 18, 22, 20, 15, 77, 77]);
    assert_eq!(work, [5; 3], "no beat was subtracted");
    assert!(!lead.had_beat_subtracted());
    let refusal = scp::read_lead(&record, 1, &mut out[..7], &mut []).unwrap_err();
    assert_eq!(refusal, Refusal::ROOM);
    assert_eq!(out[..2], [10, 12]);
}

#[test]
fn work_space_is_zeros_once_a_beat_is_read() {
    let record = sample("beat.scp");
    let (mut out, mut work) = ([0; 40], [5; 9]);
    let short = scp::read_lead(&record, 1, &mut out, &mut work[..7]);
    assert_eq!(short.err(), Some(Refusal::ROOM));
    assert_eq!((work, out), ([5; 9], [0; 40]));
    let lead = scp::read_lead(&record, 1, &mut out, &mut work).unwrap();
    assert!(lead.had_beat_subtracted());
    assert_eq!(out[..10], [-2, -1, 0, 5, 42, 88, 59, -20, -4, 2]);
    assert_eq!(work, [0; 9]);

    let record = sample("refused-13.scp");
    let (mut out, mut work) = ([7; 40], [5; 9]);
    let refused = scp::read_lead(&record, 2, &mut out, &mut work);
    assert_eq!(refused.err(), Some(Refusal::SAMPLE));
    assert_eq!((work, out), ([0; 9], [7; 40]));
}

/// The structures compared in reading a sample's two leads.
fn compared(name: &str) -> [u32; 2] {
    let record = sample(name);
    [1, 2].map(|place| scp::samples(&record, place).unwrap().0.compared)
}

/// The places of all codes' structures are added up, switches included. Table 1 has 0, 1, -1, 2, -2, a switch and a remainder,
/// and table 2 a remainder, 0, 1, -1 and a switch.
#[test]
fn structures_compared_are_counted() {
    let [there, back] = [6, 5];
    let before = [2, 4, 3, 1, 7, 1, 7, 2, 1, 5];
    let between = [2, 1, 4, 2, 1];
    let after = [1, 2, 5, 3, 2];
    let published = [&before[..], &[there], &between, &[back], &after].concat();
    assert_eq!(published.iter().sum::<u32>(), 67);
    // 15 15 0 -128 127 1 1 1, all by table 2
    let by_table_2 = there + 1 + 1 + 2 + 1 + 1 + 3 * 3;
    assert_eq!(compared("own-tables.scp"), [67, by_table_2]);
    assert_eq!(compared("two-leads.scp"), [0, 0], "there is no Section 2");
}

/// The beat's stream counts once, though two zones of each lead use it, and padding counts for nothing. In the default table
/// 0 is at place 1, k at 2k, -k at 2k + 1, and every other number of 8 bits at 18.
#[test]
fn structures_compared_include_the_beats() {
    // 0 4 40 90 60 -20 -5 0, and 0 2 30 120 80 -10 -4 1
    let beats = [1 + 8 + 4 * 18 + 11 + 1, 1 + 4 + 4 * 18 + 9 + 2];
    // of -2 -1 0 1 2 over and over, 40 and 26 samples, the first differences: -2, then 1 four times and -4, over and over
    let firsts = [5 + 32 * 2 + 7 * 9, 5 + 20 * 2 + 5 * 9];
    // and the second ones: -2 -1, then 0 three times, -5 and 5, over and over
    let seconds = [5 + 3 + 24 + 7 * 11 + 7 * 10, 5 + 3 + 15 + 5 * 11 + 4 * 10];
    let with_beat = |residuals: [u32; 2]| [0, 1].map(|lead| beats[lead] + residuals[lead]);
    assert_eq!(with_beat(firsts), [225, 178]);
    assert_eq!(compared("beat.scp"), [225, 178]);
    assert_eq!(with_beat(seconds), [272, 206]);
    assert_eq!(compared("padded.scp"), [272, 206]);
}

/// However many codes were read before the fault: a refusal answers its number, and nothing else.
#[test]
fn refusals_have_no_structures_compared() {
    assert_eq!(size_of::<ScpLead>(), 20);
    for (name, place, out, refusal) in [
        ("refused-12.scp", 2, 40, Refusal::CODE),
        ("refused-13.scp", 2, 40, Refusal::SAMPLE),
        ("refused-14.scp", 2, 40, Refusal::LEFT_OVER_BITS),
        ("own-tables.scp", 1, 19, Refusal::ROOM),
        ("own-tables.scp", 3, 40, Refusal::ABSENT),
        ("refused-7.scp", 1, 40, Refusal::SECTION_2),
    ] {
        let read = raw::read_lead(&sample(name), place, &mut vec![0; out], &mut [0; 8]);
        let nothing = ScpLead {
            refusal: refusal.number(),
            ..ScpLead::default()
        };
        assert_eq!(read, nothing, "{name}");
    }
    for (name, sound) in [
        ("refused-12.scp", 67),
        ("refused-13.scp", 225),
        ("refused-14.scp", 67),
    ] {
        let (lead, _) = scp::samples(&sample(name), 1).unwrap();
        assert_eq!(lead.compared, sound, "{name}, the other lead");
    }
}

#[test]
fn entries_say_what_reading_finds() {
    for name in [
        "two-leads.scp",
        "limb-leads.scp",
        "own-tables.scp",
        "beat.scp",
        "padded.scp",
    ] {
        let record = sample(name);
        let leads = scp::leads(&record).unwrap();
        assert_eq!(leads.len(), leads[0].leads);
        for (place, entry) in (1..).zip(&leads) {
            let (lead, samples) = scp::samples(&record, place).unwrap();
            assert_eq!((samples.len(), lead.count), (entry.count(), entry.count()));
            assert_eq!((lead.id, lead.first), (entry.id, entry.first));
            assert_eq!(lead.flags, entry.flags);
            assert_eq!((lead.step, lead.interval), (entry.step, entry.interval));
            assert_eq!(scp::lead(&record, place), Ok(*entry));
        }
        let past = scp::samples(&record, leads.len() + 1);
        assert_eq!(past.err(), Some(Refusal::ABSENT));
    }
    let six = scp::lead(&sample("limb-leads.scp"), 6).unwrap();
    let expected = Entry {
        id: 64,
        flags: 3 << 3,
        order: 2,
        step: 5000,
        interval: 2000,
        first: 41,
        last: 80,
        leads: 6,
        bytes: 10,
    };
    assert_eq!(six, expected);
}

#[test]
fn each_rule_is_asked_alone() {
    for (name, broken) in [
        ("beat.scp", None),
        ("padded.scp", None),
        ("refused-2.scp", Some(2)),
        ("refused-7.scp", Some(7)),
        ("refused-8.scp", Some(8)),
        ("refused-9.scp", Some(9)),
        ("refused-12.scp", None),
    ] {
        let record = sample(name);
        let first = (0..=255).find(|&row| scp::breaks(&record, row));
        assert_eq!(first, broken, "{name}");
    }
    assert!(scp::breaks(&[], 1) && !scp::breaks(&[], 0) && !scp::breaks(&[], 10));
}

// ---- encoding

/// Section 2's data that name the default table.
const DEFAULT_TABLE: [u8; 2] = 19_999u16.to_le_bytes();

/// The two tables of EC71, C.2.7.3, as `own-tables.scp` has them.
fn example_tables() -> Vec<u8> {
    let record = sample("own-tables.scp");
    let pointer = scp::open(&record).unwrap()[2];
    let section = &record[pointer.index as usize - 1..][..pointer.length as usize];
    section[16..].to_vec()
}

/// The values of the published stream that has 92 bits.
const PUBLISHED: [i16; 20] = [
    1, 2, -1, 0, 3, 0, 4, 1, 0, -2, 0, 15, -1, 0, 13, 0, 1, -2, -1, 1,
];

#[test]
fn a_stream_is_shortest_with_switches_counted() {
    let tables = example_tables();
    let bits = |samples: &[i16]| scp::shortest(&tables, samples, 0).map(|(_, bits)| bits);
    assert_eq!(bits(&PUBLISHED), Ok(87), "P6");
    assert_eq!(bits(&[15]), Ok(12), "P7");
    assert_eq!(bits(&[15, 15]), Ok(22), "P7, through table 2");
    let (stream, bits) = scp::shortest(&tables, &PUBLISHED, 0).unwrap();
    assert_eq!((stream.len(), bits), (11, 87));
    assert_eq!(stream[10] & 1, 0, "the last byte is filled up with 0");
}

#[test]
fn a_stream_is_put_into_the_room_lent() {
    let samples = [14, 18, 22, 22, 13, 3, -2];
    let (mut work, mut out) = ([5; 9], [77; 11]);
    let coded = scp::encode_lead(&DEFAULT_TABLE, &samples, 2, &mut work, &mut out);
    assert_eq!(coded, Ok(Coded { bytes: 9, bits: 71 }));
    assert_eq!(out[..8], [0xFF, 0x83, 0xBF, 0xE1, 0x27, 0xBF, 0xF7, 0xBD]);
    assert_eq!((out[8] & 1, &out[9..]), (0, &[77, 77][..]));
    assert_eq!(work, [0; 9]);
}

#[test]
fn two_bytes_a_value_need_no_work_space() {
    let samples = [10, 12, 13, 15, 18, 22, 20, 15];
    let (mut work, mut out) = ([5; 3], [77; 17]);
    let coded = scp::encode_lead(&[], &samples, 1, &mut work, &mut out);
    assert_eq!(
        coded,
        Ok(Coded {
            bytes: 16,
            bits: 128
        })
    );
    let values = [10, 0, 2, 0, 1, 0, 2, 0, 3, 0, 4, 0, 254, 255, 251, 255];
    assert_eq!((&out[..16], out[16]), (&values[..], 77));
    assert_eq!(work, [5; 3]);
}

/// P9: a difference outside 16 bits has no code, whatever the tables are.
#[test]
fn no_stream_reads_to_a_difference_outside_16_bits() {
    let samples = [-32768, 32767, -32768];
    for (section2, left) in [
        (DEFAULT_TABLE.to_vec(), 0),
        (example_tables(), 0),
        (Vec::new(), 5),
    ] {
        let (mut work, mut out) = ([5; 6], [77; 9]);
        let refused = scp::encode_lead(&section2, &samples, 2, &mut work, &mut out);
        assert_eq!(refused.err(), Some(Refusal::NO_STREAM));
        assert_eq!((work, out), ([left; 6], [77; 9]));
    }
}

#[test]
fn encoding_is_refused_in_its_order() {
    let refused = |section2: &[u8], count: usize, order: u8, work: usize, out: usize| {
        let (mut work, mut out) = (vec![5; work], vec![77; out]);
        let refused = scp::encode_lead(section2, &vec![200; count], order, &mut work, &mut out);
        assert!(out.iter().all(|&byte| byte == 77), "nothing is shown");
        let cleared = !work.is_empty() && work.iter().all(|&byte| byte == 0);
        assert!(cleared || work.iter().all(|&byte| byte == 5));
        (refused.unwrap_err(), cleared)
    };
    let spare = [&DEFAULT_TABLE[..], &[0]].concat();
    assert_eq!(refused(&[9], 0, 0, 0, 0), (Refusal::WRITER_BOUNDS, false));
    assert_eq!(
        refused(&[9], 65_537, 0, 0, 0),
        (Refusal::WRITER_BOUNDS, false)
    );
    assert_eq!(refused(&[9], 1, 3, 0, 0), (Refusal::WRITER_BOUNDS, false));
    assert_eq!(refused(&[9], 1, 2, 0, 0), (Refusal::SECTION_2, false));
    assert_eq!(refused(&spare, 1, 2, 1, 9), (Refusal::SECTION_2, false));
    assert_eq!(refused(&DEFAULT_TABLE, 5, 0, 4, 99), (Refusal::ROOM, false));
    assert_eq!(
        refused(&example_tables(), 5, 0, 9, 99),
        (Refusal::ROOM, false)
    );
    assert_eq!(
        refused(&example_tables(), 5, 0, 10, 0),
        (Refusal::NO_STREAM, true)
    );
    assert_eq!(
        refused(&DEFAULT_TABLE, 20_165, 0, 20_165, 0),
        (Refusal::TOO_LONG, true)
    );
    assert_eq!(
        refused(&DEFAULT_TABLE, 20_164, 0, 20_164, 65_532),
        (Refusal::ROOM, true)
    );
    assert_eq!(refused(&[], 32_768, 0, 1, 0), (Refusal::TOO_LONG, false));
    assert_eq!(refused(&[], 32_767, 0, 1, 65_533), (Refusal::ROOM, false));
}

#[test]
fn room_is_made_for_a_stream() {
    let refused =
        |section2: &[u8], samples: &[i16], order| scp::shortest(section2, samples, order).err();
    let bounds = Some(Refusal::WRITER_BOUNDS);
    assert_eq!(refused(&DEFAULT_TABLE, &[], 0), bounds);
    assert_eq!(refused(&DEFAULT_TABLE, &vec![0; 65_537], 0), bounds);
    assert_eq!(refused(&DEFAULT_TABLE, &vec![0; 65_536], 0), None);
    assert_eq!(refused(&[], &vec![0; 32_767], 0), None);
    assert_eq!(refused(&[], &vec![0; 32_768], 0), Some(Refusal::TOO_LONG));
    assert_eq!(refused(&[1], &[0], 0), Some(Refusal::SECTION_2));
}

// ---- writing

/// The fields of a patient's record with the end mark.
const FIELDS: [u8; 26] = [
    2, 4, 0, b'0', b'0', b'7', 0, 14, 0, 0, 25, 4, 0, 0xE8, 7, 3, 14, 26, 3, 0, 9, 26, 53, 255, 0,
    0,
];

/// Two leads of different lengths by the default table.
const JOB: Job = Job {
    section1: &FIELDS,
    section2: &DEFAULT_TABLE,
    version: 13,
    flags: 0xFF,
    step: 5000,
    interval: 2000,
    order: 2,
    firsts: &[1, u32::MAX - 1],
    counts: &[7, 2],
    ids: &[1, 2],
    samples: &[14, 18, 22, 22, 13, 3, -2, -5, 7],
};

/// The refusal of a job with this room, and whether the work space was cleared. Nothing else is changed.
fn refused(job: Job, work: usize, out: usize) -> (Refusal, bool) {
    let (mut work, mut out) = (vec![5; work], vec![77; out]);
    let refused = scp::write_record(&job, &mut work, &mut out);
    assert!(out.iter().all(|&byte| byte == 77), "nothing is shown");
    let cleared = !work.is_empty() && work.iter().all(|&byte| byte == 0);
    assert!(cleared || work.iter().all(|&byte| byte == 5));
    (refused.unwrap_err(), cleared)
}

#[test]
fn a_record_is_put_into_the_room_lent() {
    let (mut work, mut out) = ([5; 9], vec![77; 300]);
    let bytes = scp::write_record(&JOB, &mut work, &mut out).unwrap();
    assert_eq!(work, [0; 9]);
    assert!(out[bytes..].iter().all(|&byte| byte == 77));
    let record = &out[..bytes];
    assert_eq!(scp::written(&JOB).unwrap(), record);
    let stored: Vec<_> = scp::open(record)
        .unwrap()
        .iter()
        .map(|p| (p.length, p.index))
        .collect();
    // Section 3 has 2 + 9 + 9 bytes of data, Section 6 has 6 + 2 + 2, then streams of 9 and 3 bytes
    let mut right = [(0, 0); 12];
    right[0] = (136, 7);
    right[1] = (42, 143);
    right[2] = (18, 185);
    right[3] = (36, 203);
    right[6] = (38, 239);
    assert_eq!(stored, right);
    assert_eq!(bytes, 276);
    for (length, index) in right.into_iter().filter(|pointer| pointer.0 != 0) {
        let section = &record[index as usize - 1..][..length as usize];
        assert_eq!(section[8..10], [13, 13], "one version in both places");
    }
}

#[test]
fn what_is_written_is_read_back() {
    // 14 18 0 -4 -9 -1 5, and -5 7
    let compared = [18 + 18 + 1 + 9 + 18 + 3 + 10, 11 + 14];
    for (section2, compared) in [(DEFAULT_TABLE.to_vec(), compared), (Vec::new(), [0, 0])] {
        let job = Job {
            section2: &section2,
            ..JOB
        };
        let record = scp::written(&job).unwrap();
        let identifier = scp::field(&record, 2, 1).unwrap();
        assert_eq!(&record[identifier], b"007\0");
        let (one, samples) = scp::samples(&record, 1).unwrap();
        assert_eq!(samples, JOB.samples[..7]);
        assert_eq!((one.id, one.first, one.flags), (1, 1, 0xFE));
        let (two, samples) = scp::samples(&record, 2).unwrap();
        assert_eq!(samples, JOB.samples[7..]);
        assert_eq!((two.id, two.first), (2, u32::MAX - 1));
        assert_eq!((two.step, two.interval), (5000, 2000));
        assert_eq!([one.compared, two.compared], compared);
        assert_eq!(scp::lead(&record, 2).unwrap().order, 2);
    }
}

#[test]
fn a_job_is_judged_before_its_samples() {
    let spare = [&FIELDS[..], &[0]].concat();
    let broken = Job {
        section1: &spare,
        section2: &[1],
        ..JOB
    };
    assert_eq!(
        refused(Job { order: 3, ..broken }, 0, 0),
        (Refusal::WRITER_BOUNDS, false)
    );
    assert_eq!(
        refused(
            Job {
                ids: &[1],
                ..broken
            },
            0,
            0
        ),
        (Refusal::WRITER_BOUNDS, false)
    );
    assert_eq!(refused(broken, 0, 0), (Refusal::SECTION_1, false));
    let section1 = &FIELDS[..];
    assert_eq!(
        refused(Job { section1, ..broken }, 0, 0),
        (Refusal::SECTION_2, false)
    );
}

#[test]
fn writing_is_refused_in_its_order() {
    let long = [&[9, 255, 255][..], &[7; 65_535]].concat().repeat(16);
    let long = [&long[..], &FIELDS].concat();
    let wide = Job {
        firsts: &[1],
        counts: &[3],
        ids: &[1],
        samples: &[-32768, 32767, -32768],
        ..JOB
    };
    assert_eq!(refused(wide, 2, 0), (Refusal::ROOM, false));
    assert_eq!(refused(wide, 3, 0), (Refusal::NO_STREAM, true));
    let section2 = &[][..];
    assert_eq!(
        refused(Job { section2, ..wide }, 3, 0),
        (Refusal::NO_STREAM, false)
    );
    let section1 = &long;
    assert_eq!(
        refused(Job { section1, ..JOB }, 7, 0),
        (Refusal::TOO_LONG, true)
    );
    assert_eq!(refused(JOB, 6, 999), (Refusal::ROOM, false));
    assert_eq!(refused(JOB, 7, 275), (Refusal::ROOM, true));
    assert_eq!(
        refused(Job { section2, ..JOB }, 1, 263),
        (Refusal::ROOM, false)
    );
}

#[test]
fn room_is_made_for_a_record() {
    let refused = |job: Job| scp::written(&job).err();
    assert_eq!((JOB.work_room(), refused(JOB)), (7 * 8, None));
    let samples = vec![0; 65_536];
    let longest = Job {
        firsts: &[1],
        counts: &[65_536],
        ids: &[1],
        samples: &samples,
        ..JOB
    };
    assert_eq!(refused(longest), None);
    let plain = Job {
        section2: &[],
        ..longest
    };
    assert_eq!(
        (plain.work_room(), refused(plain)),
        (0, Some(Refusal::TOO_LONG))
    );
    let counts = &[u32::MAX];
    let bounds = Some(Refusal::WRITER_BOUNDS);
    assert_eq!(refused(Job { counts, ..longest }), bounds);
    let none = Job {
        firsts: &[],
        counts: &[],
        ids: &[],
        samples: &[],
        ..JOB
    };
    assert_eq!((none.work_room(), refused(none)), (0, bounds));
}

// ---- the index

/// The entry of `007.scp`: the patient 007 on 2024-03-14, no leads. In bits: 000011, then the year 0000011111101000, the month
/// 0011, the day 01110, the leads 00000000, and 0.
const ENTRY: [u8; 8] = [0x0C, 0x1F, 0xA0, 0xDC, 0x00, b'0', b'0', b'7'];

/// How many bytes of [`FIELDS`] there are from the month on, and from the day on.
const MONTH_TO_END: usize = 11;
const DAY_TO_END: usize = 10;

/// A record with this identifier, of this month and day of 2024, with the two leads of [`JOB`] or with the first alone.
fn record_of(identifier: &[u8], date: [u8; 2], leads: usize) -> Vec<u8> {
    let length = identifier.len() as u8 + 1;
    let mut section1 = [&[2, length, 0][..], identifier, &FIELDS[6..]].concat();
    let at = section1.len() - MONTH_TO_END;
    section1[at..][..2].copy_from_slice(&date);
    let samples = JOB.counts[..leads].iter().sum::<u32>() as usize;
    let job = Job {
        section1: &section1,
        firsts: &JOB.firsts[..leads],
        counts: &JOB.counts[..leads],
        ids: &JOB.ids[..leads],
        samples: &JOB.samples[..samples],
        ..JOB
    };
    scp::written(&job).unwrap()
}

/// An index of these records, in order of arrival.
fn index_of(records: &[Vec<u8>]) -> Vec<u8> {
    let mut index = vec![0; records.len() * ENTRY_MAX];
    let used = records.iter().fold(0, |used, record| {
        scp::index_add(&mut index, used, record).unwrap()
    });
    index.truncate(used);
    index
}

/// An entry of 2024: identifier, month and day, leads.
type Shown<'a> = (&'a [u8], [u8; 2], u8);

/// An index's entries.
fn listed(index: &[u8]) -> Vec<Shown<'_>> {
    let shown = |entry: IndexEntry| {
        assert_eq!(entry.year, 2024);
        let date = [entry.month, entry.day];
        (&index[entry.identifier], date, entry.leads)
    };
    scp::index_entries(index).map(shown).collect()
}

#[test]
fn an_entry_is_five_bytes_and_the_identifier() {
    let mut index = [77; 10];
    assert_eq!(scp::index_add(&mut index, 0, &record()), Ok(8));
    assert_eq!((&index[..8], &index[8..]), (&ENTRY[..], &[77, 77][..]));
    let entry = IndexEntry {
        identifier: 5..8,
        year: 2024,
        month: 3,
        day: 14,
        leads: 0,
    };
    assert_eq!(entry.next(), 8);
    assert_eq!(scp::index_step(&index, 0), Some(entry));
    let six = index_of(&[sample("limb-leads.scp")]);
    assert_eq!(six[..5], [0x0C, 0x1F, 0xA0, 0xDC, 6 << 1]);
    let longest = index_of(&[record_of(&[b'x'; 63], [3, 31], 2)]);
    assert_eq!(longest.len(), ENTRY_MAX);
    assert_eq!(longest[..5], [0xFC, 0x1F, 0xA0, 0xFE, 2 << 1]);
}

#[test]
fn an_index_is_sorted_by_identifier_and_date() {
    let records = [
        record_of(b"7", [3, 2], 1),
        record_of(b"007", [3, 2], 2),
        record_of(b"0071", [3, 1], 2),
        record_of(b"007", [3, 2], 1), // the same date: behind the one before it, though it has fewer leads
        record_of(b"007", [2, 31], 2),
        record_of(b"00", [12, 31], 2),
        record_of(b"\xFF", [1, 1], 2),
    ];
    let index = index_of(&records);
    let order: [Shown; 7] = [
        (b"00", [12, 31], 2),
        (b"007", [2, 31], 2),
        (b"007", [3, 2], 2),
        (b"007", [3, 2], 1),
        (b"0071", [3, 1], 2),
        (b"7", [3, 2], 1),
        (b"\xFF", [1, 1], 2),
    ];
    assert_eq!(listed(&index), order);
    let mut entries = scp::index_entries(&index);
    assert_eq!((entries.by_ref().count(), entries.at()), (7, index.len()));
    assert_eq!((entries.next(), entries.at()), (None, index.len()));
    let mut entries = scp::index_entries(&index[..20]);
    assert_eq!((entries.by_ref().count(), entries.at()), (2, 15));
}

#[test]
fn a_lookup_shows_all_entries_of_an_identifier_and_no_others() {
    let records = [(&b"007"[..], 2), (b"7", 1), (b"0071", 1), (b"007", 1)];
    let index = index_of(&records.map(|(identifier, day)| record_of(identifier, [3, day], 1)));
    let found = |identifier| scp::index_find(&index, index.len(), identifier).unwrap();
    let entries: [Shown; 2] = [(b"007", [3, 1], 1), (b"007", [3, 2], 1)];
    assert_eq!(listed(found(b"007")), entries);
    assert_eq!(found(b"007"), &index[..16]);
    assert_eq!(found(b"0071"), &index[16..25]);
    assert_eq!(found(b"7"), &index[25..]);
    for none in [&b""[..], b"0", b"07", b"007\0", b"8", &[b'0'; 64]] {
        assert_eq!(found(none), b"", "{none:?}");
    }
    assert_eq!(scp::index_find(&[], 0, b"007"), Ok(&[][..]));
    assert_eq!(scp::index_find(&index, 16, b"7"), Ok(&[][..]));
    assert_eq!(scp::index_find(&index, 17, b"7"), Err(Refusal::INDEX));
    let past = scp::index_find(&index, index.len() + 1, b"7");
    assert_eq!(past, Err(Refusal::INDEX));
}

#[test]
fn only_whole_entries_by_the_rules_are_shown() {
    let changed = |at: usize, byte| {
        let mut index = ENTRY;
        index[at] = byte;
        (
            scp::index_step(&index, 0).is_some(),
            scp::index_find(&index, index.len(), b"").err(),
        )
    };
    let (whole, broken) = ((true, None), (false, Some(Refusal::INDEX)));
    assert_eq!(changed(0, 0x0C), whole);
    assert_eq!(changed(1, 0xFF), whole, "any year");
    assert_eq!(changed(4, 32 << 1), whole);
    assert_eq!(changed(0, 0x00), broken, "an empty identifier");
    assert_eq!(changed(0, 0x10), broken, "one that is cut off");
    assert_eq!(changed(6, 0), broken, "one with a NUL");
    assert_eq!(changed(3, 0x1C), broken, "month 0");
    assert_eq!(changed(2, 0xA3), broken, "month 15");
    assert_eq!(changed(3, 0xC0), broken, "day 0");
    assert_eq!(changed(4, 33 << 1), broken, "33 leads");
    assert_eq!(changed(4, 1), broken, "the last bit");
    for (length, at) in [(7, 0), (4, 0), (0, 0), (8, 8), (8, 1), (8, usize::MAX)] {
        assert_eq!(scp::index_step(&ENTRY[..length], at), None);
    }
}

/// A record with a byte of a section's data changed, and its checks put right.
fn changed(mut record: Vec<u8>, section: usize, at: usize, byte: u8) -> Vec<u8> {
    let pointer = scp::open(&record).unwrap()[section];
    let start = pointer.index as usize - 1;
    let end = start + pointer.length as usize;
    record[start + 16 + at] = byte;
    let check = scp::crc(&record[start + 2..end]);
    record[start..start + 2].copy_from_slice(&check.to_le_bytes());
    let check = scp::crc(&record[2..]);
    record[..2].copy_from_slice(&check.to_le_bytes());
    record
}

#[test]
fn adding_is_refused_in_its_order() {
    let refused = |index: &[u8], used, record: &[u8]| {
        let mut lent = index.to_vec();
        let refused = scp::index_add(&mut lent, used, record).unwrap_err();
        assert_eq!(lent, index, "a refusal changes nothing");
        refused
    };
    let sound = sample("two-leads.scp");
    let no_leads = changed(sound.clone(), 3, 0, 0);
    let [month, day] = [MONTH_TO_END, DAY_TO_END].map(|bytes| FIELDS.len() - bytes);
    let bad_date = changed(record_of(b"007", [3, 1], 1), 1, month, 13);
    let both = changed(bad_date.clone(), 3, 0, 33);
    let unsorted = [index_of(&[sample("7.scp")]), ENTRY.to_vec()].concat();
    assert_eq!(refused(&[], 1, &[]), Refusal::INDEX);
    assert_eq!(refused(&ENTRY, 9, &sound), Refusal::INDEX);
    assert_eq!(refused(&ENTRY, 7, &sound), Refusal::INDEX);
    assert_eq!(refused(&unsorted, unsorted.len(), &[]), Refusal::INDEX);
    assert_eq!(refused(&ENTRY, 8, &[]), Refusal::LENGTH);
    for number in 1..=6 {
        let record = sample(&format!("refused-{number}.scp"));
        assert_eq!(refused(&ENTRY, 8, &record).number(), number);
    }
    assert_eq!(refused(&ENTRY, 8, &no_leads), Refusal::SECTIONS_3_TO_6);
    assert_eq!(refused(&ENTRY, 8, &both), Refusal::SECTIONS_3_TO_6);
    assert_eq!(refused(&ENTRY, 8, &bad_date), Refusal::DATE);
    for (at, byte) in [(month, 0), (day, 0), (day, 32)] {
        let record = changed(record_of(b"007", [3, 1], 1), 1, at, byte);
        assert_eq!(refused(&ENTRY, 8, &record), Refusal::DATE);
    }
    assert_eq!(refused(&ENTRY, 8, &sound), Refusal::ROOM);
    assert_eq!(refused(&[0; 10], 0, &sound), Refusal::ROOM);
    assert_eq!(scp::index_add(&mut [0; 11], 0, &sound), Ok(11));
}

/// An index asks of Section 3 alone what reading asks of Sections 2 to 6.
#[test]
fn records_whose_leads_are_refused_have_an_entry() {
    for number in [7, 8, 9, 10, 12, 13, 14] {
        let index = index_of(&[sample(&format!("refused-{number}.scp"))]);
        assert_eq!(listed(&index), [(&b"007"[..], [3, 14], 2)], "{number}");
    }
}

/// The index of two, whose length is answered; the bytes behind it are not changed.
fn merged(a: &[u8], b: &[u8]) -> Vec<u8> {
    let both = a.len() + b.len();
    let mut out = vec![77; both + 3];
    assert_eq!(scp::index_merge(a, b, &mut out), Ok(both));
    assert_eq!(out.split_off(both), [77; 3]);
    let mut just_enough = vec![77; both];
    assert_eq!(scp::index_merge(a, b, &mut just_enough), Ok(both));
    assert_eq!(just_enough, out);
    out
}

#[test]
fn two_indexes_are_merged() {
    let a = index_of(&[
        record_of(b"00", [12, 31], 1),
        record_of(b"007", [3, 2], 2),
        record_of(b"8", [1, 1], 1),
    ]);
    let b = index_of(&[
        record_of(b"007", [2, 31], 1),
        record_of(b"007", [3, 2], 1), // the same date as in the other index
        record_of(b"0071", [3, 1], 1),
        record_of(b"70", [1, 1], 1),
    ]);
    let order: [Shown; 7] = [
        (b"00", [12, 31], 1),
        (b"007", [2, 31], 1),
        (b"007", [3, 2], 2),
        (b"007", [3, 2], 1),
        (b"0071", [3, 1], 1),
        (b"70", [1, 1], 1),
        (b"8", [1, 1], 1),
    ];
    assert_eq!(listed(&merged(&a, &b)), order);
    let mut other_order = order;
    other_order.swap(2, 3);
    assert_eq!(listed(&merged(&b, &a)), other_order);
    for index in [&a, &b] {
        assert_eq!(merged(index, &[]), *index);
        assert_eq!(merged(&[], index), *index);
    }
    assert_eq!(merged(&[], &[]), []);
    // both may be the same bytes: they are only read
    assert_eq!(merged(&ENTRY, &ENTRY), [ENTRY, ENTRY].concat());
}

/// Runs of records, each with an index of its own, give the index to which all are added one by one.
#[test]
fn runs_are_merged_to_what_is_added_one_by_one() {
    let people = [
        (&b"7"[..], 1),
        (b"007", 2),
        (b"7", 1),
        (b"0", 3),
        (b"007", 2),
    ];
    let records: Vec<_> = (0..10)
        .map(|turn| {
            let (identifier, day) = people[turn % people.len()];
            record_of(identifier, [3, day], 1 + turn % 2)
        })
        .collect();
    let all = index_of(&records);
    for first in 0..=records.len() {
        for second in first..=records.len() {
            let (one, two) = (&records[..first], &records[first..second]);
            let runs = [one, two, &records[second..]].map(index_of);
            let [one, two, three] = &runs;
            assert_eq!(merged(&merged(one, two), three), all, "{first}, {second}");
            assert_eq!(merged(one, &merged(two, three)), all, "{first}, {second}");
        }
    }
}

#[test]
fn merging_is_refused_in_its_order() {
    let refused = |a: &[u8], b: &[u8], room| {
        let mut out = vec![77; room];
        let refused = scp::index_merge(a, b, &mut out).unwrap_err();
        assert_eq!(out, vec![77; room], "a refusal changes nothing");
        refused
    };
    let seven = index_of(&[sample("7.scp")]);
    let unsorted = [&seven[..], &ENTRY].concat();
    for (a, b) in [
        (&unsorted[..], &seven[..]),
        (&seven, &unsorted),
        (&unsorted, &unsorted),
        (&ENTRY[..7], &[]),
        (&[], &ENTRY[1..]),
    ] {
        for room in [0, 13, 14, 99] {
            assert_eq!(refused(a, b, room), Refusal::INDEX);
        }
    }
    for room in [0, 6, 8, 13] {
        assert_eq!(refused(&seven, &ENTRY, room), Refusal::ROOM);
        assert_eq!(refused(&ENTRY, &seven, room), Refusal::ROOM);
    }
    assert_eq!(refused(&ENTRY, &[], 7), Refusal::ROOM);
    assert_eq!(refused(&[], &ENTRY, 7), Refusal::ROOM);
}

/// The C header has the table's numbers under their names, and no other.
#[test]
fn the_header_names_every_refusal() {
    let header = include_str!("../../include/scp.h");
    let named: Vec<(&str, u8)> = header
        .lines()
        .filter_map(|line| line.trim().strip_prefix("SCP_REFUSED_")?.split_once(" = "))
        .map(|(id, rest)| {
            let end = rest.find(|letter: char| !letter.is_ascii_digit());
            let number = &rest[..end.unwrap_or(rest.len())];
            (id, number.parse().expect("a number"))
        })
        .collect();
    let table: Vec<_> = Refusal::all().map(|one| (one.id(), one.number())).collect();
    assert_eq!(named, table);
}
