//! The writer: what it writes is read back, is no longer than other streams, and each refusal comes
//! in its turn.

use judge::make::{self, Rng, ToWrite};
use judge::{encode_lead, field, lead, open, read_lead, row, walk_start, write_record, Refused};

/// Room for anything.
const ROOM: usize = 10_000_000;

/// Section 2's data without a spare byte, as far as 2 bytes a table and 9 a structure go; empty if
/// it is absent.
fn section_2(record: &[u8]) -> Vec<u8> {
    let pointer = open(record).expect("it opens")[2];
    if pointer.length == 0 {
        return Vec::new();
    }
    let start = pointer.index as usize - 1;
    let data = &record[start + 16..start + pointer.length as usize];
    let number = |at: usize| usize::from(u16::from_le_bytes([data[at], data[at + 1]]));
    let tables = if number(0) == 19_999 { 0 } else { number(0) };
    let end = (0..tables).fold(2, |at, _| at + 2 + 9 * number(at));
    data[..end].to_vec()
}

#[test]
fn written_records_are_read_back() {
    let mut written = 0;
    for seed in 0..3_000 {
        let call = make::to_write(&mut Rng::new(seed));
        let Ok(record) = write_record(&call.writing(), call.work_len, call.out_len) else {
            continue;
        };
        written += 1;
        assert_eq!(open(&record).expect("it opens").len(), 12, "seed {seed}");
        assert!(record.len() <= call.out_len);
        let mut samples = Vec::new();
        for at in 0..call.ids.len() {
            let read = read_lead(&record, at + 1, call.counts[at] as usize, 0).expect("it reads");
            assert_eq!((read.id, read.first), (call.ids[at], call.firsts[at]));
            assert_eq!((read.step, read.interval), (call.step, call.interval));
            assert_eq!(read.flags, call.flags & 0xFE);
            samples.extend(read.samples);
        }
        assert!(samples == call.samples, "seed {seed}");
        let section = walk_start(&record).expect("it opens");
        assert_eq!(
            record[section.start + 16..][..call.section1.len()],
            call.section1
        );
        assert_eq!(section_2(&record), call.section2);
    }
    assert!(written > 500, "{written}");
}

#[test]
fn no_stored_stream_is_shorter() {
    let mut leads = 0;
    for seed in 0..3_000 {
        let made = make::made(&mut Rng::new(seed));
        if made.flags & 1 == 1 {
            continue;
        }
        for (at, made_lead) in made.leads.iter().enumerate() {
            let entry = lead(&made.record, at + 1).expect("it is there");
            let section2 = section_2(&made.record);
            let coded = encode_lead(&section2, &made_lead.samples, made.order, ROOM, ROOM);
            let coded = coded.expect("there is a stream");
            assert!(
                coded.bytes.len() <= entry.bytes as usize,
                "seed {seed}, lead {at}"
            );
            leads += 1;
        }
    }
    assert!(leads > 1_000, "{leads}");
}

/// Two leads by the default table.
fn call() -> ToWrite {
    let section1 = [
        &[2, 2, 0, 0x37, 0, 14, 0, 0][..],
        &[25, 4, 0, 1, 2, 3, 4, 26, 3, 0, 1, 2, 3, 255, 0, 0],
    ];
    ToWrite {
        section1: section1.concat(),
        section2: vec![0x1F, 0x4E],
        version: 13,
        flags: 255,
        step: 5000,
        interval: 2000,
        order: 2,
        firsts: vec![1, u32::MAX - 1],
        counts: vec![3, 2],
        ids: vec![1, 2],
        samples: vec![1, 2, 3, 4, 5],
        work_len: 3,
        out_len: ROOM,
    }
}

#[track_caller]
fn refuses(number: u8, work_cleared: bool, change: impl Fn(&mut ToWrite)) {
    let mut call = call();
    change(&mut call);
    let refused = Err(Refused {
        number,
        work_cleared,
    });
    assert_eq!(
        write_record(&call.writing(), call.work_len, call.out_len),
        refused
    );
}

#[test]
fn the_call_is_sound() {
    let call = call();
    let record = write_record(&call.writing(), 3, ROOM).expect("it is written");
    assert_eq!(record.len() % 2, 0);
    assert!(field(&record, 14, 1).expect("tag 14").is_empty());
    let short = write_record(&call.writing(), 3, record.len() - 1);
    assert_eq!(short.map_err(|refused| refused.number), Err(row::ROOM));
}

#[test]
fn row_17_comes_first() {
    let faults: [fn(&mut ToWrite); 14] = [
        |call| call.order = 3,
        |call| call.step = 0,
        |call| call.interval = 0,
        |call| call.firsts[1] = 0,
        |call| call.firsts[1] = u32::MAX,
        |call| call.counts[0] = 0,
        |call| call.counts[0] = 65_537,
        |call| call.counts = vec![u32::MAX, u32::MAX],
        |call| call.samples.push(1),
        |call| call.samples.clear(),
        |call| call.firsts.truncate(1),
        |call| call.counts.truncate(1),
        |call| call.ids.truncate(1),
        |call| (call.firsts, call.counts, call.ids) = (Vec::new(), Vec::new(), Vec::new()),
    ];
    for fault in faults {
        refuses(row::WRITER_BOUNDS, false, fault);
        refuses(row::WRITER_BOUNDS, false, |call| {
            fault(call);
            call.section1.clear();
            call.section2.push(0);
            (call.work_len, call.out_len) = (0, 0);
        });
    }
    refuses(row::WRITER_BOUNDS, false, |call| {
        call.firsts = vec![1; 33];
        call.counts = vec![1; 33];
        call.ids = vec![1; 33];
        call.samples = vec![1; 33];
    });
}

#[test]
fn then_6_7_and_11_for_work_space() {
    refuses(row::SECTION_1, false, |call| call.section1.push(0));
    refuses(row::SECTION_1, false, |call| {
        call.section1.truncate(21);
        call.section2 = vec![1];
    });
    refuses(row::SECTION_2, false, |call| {
        call.section2.push(0);
        call.work_len = 0;
    });
    refuses(row::ROOM, false, |call| {
        call.work_len = 2;
        call.samples[0] = -32_768;
        call.samples[1] = 32_767;
        call.samples[2] = -32_768;
    });
}

#[test]
fn then_15_for_all_leads_16_and_11_for_output() {
    let too_wide = |call: &mut ToWrite, at: usize| {
        call.samples[at..at + 3].copy_from_slice(&[-32_768, 32_767, -32_768]);
        call.out_len = 0;
    };
    refuses(row::NO_STREAM, true, |call| too_wide(call, 0));
    refuses(row::NO_STREAM, false, |call| {
        too_wide(call, 0);
        call.section2.clear();
        call.work_len = 0;
    });
    refuses(row::NO_STREAM, false, |call| {
        call.section2.clear();
        call.firsts = vec![1, 1];
        call.counts = vec![40_000, 3];
        call.samples = vec![0; 40_003];
        too_wide(call, 40_000);
    });
    refuses(row::TOO_LONG, false, |call| {
        call.section2.clear();
        call.firsts = vec![1, 1];
        call.counts = vec![32_768, 3];
        call.samples = vec![0; 32_771];
        call.out_len = 0;
    });
    refuses(row::TOO_LONG, true, |call| {
        let long = [vec![9, 255, 255], vec![7; 65_535]].concat();
        call.section1.splice(0..0, long.repeat(16));
        call.out_len = 0;
    });
    refuses(row::ROOM, true, |call| call.out_len = 0);
}
