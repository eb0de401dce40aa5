//! Records with a reference beat whose zones lie across leads of different spans.

use judge::make::Rng;

use crate::draft::Draft;
use crate::largest::plain_fields;
use crate::rhythm::{
    remainder, shortest, switch, tables, value, zone, Beat, Qrs, Rhythm, Span, Stored,
    DEFAULT_TABLE,
};

/// Leads of different spans with a reference beat, whose zones lie across the leads' ends, between them and beyond them.
pub fn beaten(rng: &mut Rng) -> Vec<u8> {
    let tables = any_tables(rng);
    let base = match rng.one_in(4) {
        true => rng.four().min(u32::MAX - 2000),
        false => 0,
    };
    let spans: Vec<Span> = (0..rng.within(1..=6)).map(|_| span(base, rng)).collect();
    let count = rng.within(1..=120);
    let fiducial = rng.within(1..=count) as u32;
    let qrs = zones(base, count as u32, fiducial, rng);
    // sums of the last are outside 16 bits now and then
    let size = rng.pick(&[40, 3000, 16_000, 17_500]);
    let length = |span: &Span| (span.last - span.first) as usize + 1;
    let counts: Vec<usize> = spans.iter().map(length).collect();
    let mut stored = streams(&tables, size, &counts, rng);
    let mut beat = Beat {
        length: count as u16,
        fiducial: fiducial as u16,
        qrs,
        stored: streams(&tables, size, &vec![count; counts.len()], rng),
    };
    match rng.below(10) {
        0 => spoil(&mut stored.streams, rng),
        1 => spoil(&mut beat.stored.streams, rng),
        _ => {}
    }
    let mut draft = Draft::default();
    draft.put(1, &plain_fields());
    let rhythm = Rhythm {
        flags: rng.byte() | 1,
        tables,
        spans,
        beat: Some(beat),
        stored,
    };
    rhythm.put(&mut draft);
    draft.lay_out()
}

/// Streams with these counts of samples, each sample of up to this size, a millisecond apart. Some have a byte more, which is
/// ignored, as carts pad streams (01, row 14; Q-1).
fn streams(tables: &[u8], size: usize, counts: &[usize], rng: &mut Rng) -> Stored {
    let order = if size > 8000 { 0 } else { rng.below(3) as u8 };
    let stream = |&count: &usize| {
        let wave: Vec<i16> = (0..count).map(|_| sample(size, rng)).collect();
        let mut stream = shortest(tables, order, &wave);
        if rng.one_in(3) {
            stream.push(rng.byte());
        }
        stream
    };
    let mut stored = Stored::new(order, counts.iter().map(stream).collect());
    stored.interval = 1000;
    stored
}

/// No Section 2, tables of the record's own, or the default table.
fn any_tables(rng: &mut Rng) -> Vec<u8> {
    match rng.below(4) {
        0 => Vec::new(),
        1 => own_tables(),
        _ => DEFAULT_TABLE.to_vec(),
    }
}

/// Tables with switches there and back, in which every value of 16 bits has a code.
fn own_tables() -> Vec<u8> {
    tables(&[
        vec![
            value("0", 0),
            value("100", 1),
            value("101", -1),
            switch("110", 2),
            remainder("111", 16),
        ],
        vec![remainder("0", 9), remainder("10", 12), switch("11", 1)],
    ])
}

/// Any span of up to 300 samples near the base.
fn span(base: u32, rng: &mut Rng) -> Span {
    let first = base + 1 + rng.below(400) as u32;
    let last = first + rng.small(299) as u32;
    Span {
        first,
        last,
        id: rng.byte(),
    }
}

/// Zones that rise through all leads' samples and past them, with a QRS of another type now and then.
fn zones(base: u32, count: u32, fiducial: u32, rng: &mut Rng) -> Vec<Qrs> {
    let mut next = base + 1 + rng.small(100) as u32;
    let mut all = Vec::new();
    while next < base + 800 && all.len() < 40 {
        let end = next + rng.below(count as usize) as u32;
        let (least, most) = ((end + fiducial).saturating_sub(count), next + fiducial - 1);
        let c = rng.within(least as usize..=most as usize) as u32;
        all.push(zone(next, c, end));
        next = end + 1 + rng.pick(&[0, 0, 1]) * rng.small(150) as u32;
        if rng.one_in(4) {
            all.push(Qrs {
                kind: 1 + rng.below(65_535) as u16,
                start: 0,
                fiducial: rng.four(),
                end: 0,
            });
        }
    }
    all
}

/// A sample of up to so much in size, often near 0 or at the end.
fn sample(size: usize, rng: &mut Rng) -> i16 {
    let size = size as i32;
    let sample = match rng.below(8) {
        0 => rng.pick(&[size, -size]),
        1 | 2 => rng.below(2 * size as usize + 1) as i32 - size,
        _ => rng.below(5) as i32 - 2,
    };
    sample as i16
}

/// Cuts a stream, lengthens it, or changes a byte of it.
fn spoil(streams: &mut [Vec<u8>], rng: &mut Rng) {
    let at = rng.below(streams.len());
    let stream = &mut streams[at];
    match rng.below(3) {
        0 => stream.truncate(stream.len() - 1 - rng.below(stream.len())),
        1 => stream.extend(rng.bytes_within(1..=3)),
        _ => {
            let at = rng.below(stream.len());
            stream[at] = rng.other_byte(stream[at]);
        }
    }
}
