//! Encoding a lead.

use std::hint::black_box;

use compare::encoding::extremes::{hostile, mixed, to_and_fro, wave, CROSSING, FALLING, RISING};
use compare::rhythm::{tables, DEFAULT_TABLE};
use scp::{SAMPLES_MAX, STREAM_MAX, TABLES_MAX};

use crate::measure::Table;
use crate::plain::Greedy;
use crate::reading::spelled_out;

/// All lines.
pub fn all(table: &mut Table) {
    beside_greedy(table);
    beside_the_judge(table);
}

/// 5,000 samples by the default table, named and spelled out, beside a greedy encoder. In a table that has one shortest code
/// for each value, and no switches, a greedy encoder finds the shortest stream too.
fn beside_greedy(table: &mut Table) {
    const COUNT: usize = 5000;
    let samples = wave(COUNT);
    let greedy = Greedy::new();
    let mut room = vec![0; STREAM_MAX];
    for (name, section2) in [
        (
            "encode 5,000 (19999), beside a greedy encoder",
            DEFAULT_TABLE.to_vec(),
        ),
        ("encode 5,000 (spelled out), beside the same", spelled_out()),
    ] {
        let mut call = Call::new(&section2, &samples, 2, 1);
        let bytes = call.encode();
        let plain = greedy.encode(&samples, &mut room);
        assert_eq!(plain.map(|(bytes, _)| bytes), Some(bytes));
        assert!(call.out[..bytes] == room[..bytes]);
        table.line(
            name,
            (COUNT, "Msamples"),
            || {
                black_box(call.encode());
            },
            || {
                black_box(greedy.encode(black_box(&samples), &mut room));
            },
        );
    }
}

/// 65,536 samples by 8 tables of 64 structures, beside the judge's search.
fn beside_the_judge(table: &mut Table) {
    let ring = |order| (tables(&hostile(order)), to_and_fro(SAMPLES_MAX), 0);
    let many = (tables(&mixed()), wave(SAMPLES_MAX), 1);
    for (name, (section2, samples, order)) in [
        ("encode 65,536, 8 tables of 64, beside the judge", many),
        ("  hostile: a ring of switches, rising", ring(RISING)),
        ("  hostile: the same, falling", ring(FALLING)),
        ("  hostile: the same, crossing", ring(CROSSING)),
    ] {
        let mut call = Call::new(&section2, &samples, order, TABLES_MAX);
        let judged = || {
            let samples = black_box(&samples);
            judge::encode_lead(&section2, samples, order, usize::MAX, STREAM_MAX)
        };
        let bytes = call.encode();
        assert!(judged().unwrap().bytes == call.out[..bytes]);
        table.line(
            name,
            (SAMPLES_MAX, "Msamples"),
            || {
                black_box(call.encode());
            },
            || drop(black_box(judged())),
        );
    }
}

/// A call with the room that it needs.
struct Call<'a> {
    section2: &'a [u8],
    samples: &'a [i16],
    order: u8,
    work: Vec<u8>,
    out: Vec<u8>,
}

impl<'a> Call<'a> {
    fn new(section2: &'a [u8], samples: &'a [i16], order: u8, tables: usize) -> Call<'a> {
        Call {
            section2,
            samples,
            order,
            work: vec![0; samples.len() * tables],
            out: vec![0; STREAM_MAX],
        }
    }

    /// Has the library encode, and answers how many bytes the stream has.
    fn encode(&mut self) -> usize {
        let samples = black_box(self.samples);
        let coded = scp::encode_lead(
            self.section2,
            samples,
            self.order,
            &mut self.work,
            &mut self.out,
        );
        coded.expect("there is a stream").bytes
    }
}
