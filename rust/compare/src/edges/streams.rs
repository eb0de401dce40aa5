//! Rows 12 to 14: values, samples and left-over bits.

use judge::row;

use super::edge::{two_leads, Edges};
use crate::rhythm::{
    bits, remainder, switch, tables, two_bytes, value, zone, Beat, Rhythm, Stored, DEFAULT_TABLE,
};

/// Adds them all.
pub fn add(edges: &mut Edges) {
    left_over(edges);
    left_over_otherwise(edges);
    left_over_with_a_beat(edges);
    codes(edges);
    switches(edges);
    differences(edges);
    beats(edges);
    order_of_faults(edges);
    compared(edges);
    compared_with_a_beat(edges);
}

/// A lead of `count` samples by this Section 2, empty if there is none, with this stream; the second lead stays sound or not.
fn lead(tables: &[u8], order: u8, count: u32, stream: Vec<u8>) -> Rhythm {
    let mut rhythm = two_leads();
    rhythm.tables = tables.to_vec();
    rhythm.spans[0].last = count;
    rhythm.stored.order = order;
    rhythm.stored.streams[0] = stream;
    rhythm
}

/// Bits and bytes after the last sample: 15 bits are ignored, whatever they hold, and 16 are too many (01, row 14; Q-1).
fn left_over(edges: &mut Edges) {
    let zeros = |count: usize| bits(&"0".repeat(count));
    for (refusal, samples, bytes) in [
        (0, 1, 1),
        (0, 8, 1),
        (row::CODE, 9, 1),
        (0, 9, 2),
        (0, 8, 2),
        (0, 1, 2),
        (0, 9, 3),
        (row::LEFT_OVER_BITS, 8, 3),
        (row::LEFT_OVER_BITS, 1, 3),
        (row::LEFT_OVER_BITS, 1, 4),
        (row::CODE, 1, 0),
    ] {
        let rhythm = lead(&DEFAULT_TABLE, 0, samples, zeros(8 * bytes));
        edges.rhythm(
            refusal,
            format!("{samples} samples of one bit in {bytes} bytes"),
            &rhythm,
        );
    }
    for (refusal, samples, ones) in [
        (0, 1, 7),
        (0, 8, 8),
        (0, 1, 15),
        (row::LEFT_OVER_BITS, 8, 16),
        (row::LEFT_OVER_BITS, 1, 23),
    ] {
        let letters = "0".repeat(samples) + &"1".repeat(ones);
        let rhythm = lead(&DEFAULT_TABLE, 0, samples as u32, bits(&letters));
        edges.rhythm(refusal, format!("{ones} ones left over"), &rhythm);
    }
}

/// The same where a switch is among the bits left over, which is a bit as any other, and without tables.
fn left_over_otherwise(edges: &mut Edges) {
    let two = tables(&[vec![value("0", 3), switch("1", 2)], vec![value("1", 4)]]);
    for (refusal, count, letters) in [
        (0, 1, "0 1"),
        (0, 1, "0 1 1 1 1 1 1 1 1"),
        (row::LEFT_OVER_BITS, 8, "00000000 1 1 1 1 1 1 1 1 1"),
        (row::LEFT_OVER_BITS, 1, "0 1 1 1 1 1 1 1 11111111 1"),
        (0, 2, "0 1 1 1 1 1 1 1"),
        (0, 9, "0 1 1 1 1 1 1 1 1 1"),
    ] {
        let name = format!("{count} samples in {letters}, with a switch in them");
        edges.rhythm(refusal, name, &lead(&two, 0, count, bits(letters)));
    }
    for (refusal, count, bytes) in [
        (0, 3, 6),
        (row::CODE, 3, 5),
        (0, 3, 7),
        (row::CODE, 3, 4),
        (row::LEFT_OVER_BITS, 3, 8),
        (row::LEFT_OVER_BITS, 3, 9),
        (0, 32_767, 65_535), // as long as a stream may be
    ] {
        for byte in [0, 1, 0xFF] {
            let rhythm = lead(&[], 0, count, vec![byte; bytes]);
            let name = format!("{count} samples of two bytes in {bytes} of {byte}");
            edges.rhythm(refusal, name, &rhythm);
        }
    }
}

/// The same in the beat's stream alone, and in the residual's alone: without tables, and by the default table in streams that
/// leave none of their bits or 7.
fn left_over_with_a_beat(edges: &mut Edges) {
    for (refusal, more) in [
        (0, &[0][..]),
        (0, &[0xFF]),
        (row::LEFT_OVER_BITS, &[0; 2]),
        (row::LEFT_OVER_BITS, &[0xFF; 2]),
    ] {
        for (tables, beat, residual) in [
            (&[][..], two_bytes(&[9, 1, 9, 9, 9]), two_bytes(&[5, 6, 7])),
            (&DEFAULT_TABLE, bits("1100 0 0 0 0"), bits("1100 100 0")),
            (&DEFAULT_TABLE, bits("100 100 0 0 0"), bits("100 100 100")),
        ] {
            for section in [5, 6] {
                let mut rhythm = beaten_by(tables, beat.clone(), residual.clone(), [0, 0]);
                stream_of(&mut rhythm, section).extend(more);
                let name =
                    format!("{more:?} more in Section {section}, with {beat:?}, {residual:?}");
                edges.rhythm(refusal, name, &rhythm);
            }
        }
    }
}

/// The first lead's stream in Section 5 or 6.
fn stream_of(rhythm: &mut Rhythm, section: u16) -> &mut Vec<u8> {
    match (&mut rhythm.beat, section) {
        (Some(beat), 5) => &mut beat.stored.streams[0],
        _ => &mut rhythm.stored.streams[0],
    }
}

/// Codes that match nothing, or are cut in the prefix or in the remainder.
fn codes(edges: &mut Edges) {
    for (refusal, count, letters) in [
        (0, 1, "1111111110 10000000"),
        (0, 1, "1111111111 1000000000000000"),
        (row::CODE, 1, "11111111"),
        (row::CODE, 1, "1111111110 000000"),
        (row::CODE, 1, "1111111111 00000000000000"),
        (row::CODE, 2, "1111111110 10000000 111111"),
    ] {
        let rhythm = lead(&DEFAULT_TABLE, 0, count, bits(letters));
        edges.rhythm(refusal, format!("{letters} by the default table"), &rhythm);
    }
    let gap = tables(&[vec![value("00", 1), remainder("01", 1)]]);
    for (refusal, letters) in [
        (0, "00000000"),
        (row::CODE, "10000000"),
        (0, "01100000"),
        (row::CODE, ""),
    ] {
        let rhythm = lead(&gap, 0, 1, bits(letters));
        edges.rhythm(refusal, format!("{letters} by a table with a gap"), &rhythm);
    }
}

/// Tables that nothing leads out of, that only switch, or that switch there and back.
fn switches(edges: &mut Edges) {
    let round = tables(&[vec![switch("0", 2)], vec![switch("0", 1)]]);
    edges.rhythm(
        row::CODE,
        "two tables that only switch",
        &lead(&round, 0, 1, vec![0; 100]),
    );
    let back = tables(&[
        vec![switch("1", 2), value("0", 1)],
        vec![switch("1", 1), value("0", 2)],
    ]);
    for (refusal, count, letters) in [
        (0, 2, "1 0 0"),
        (0, 3, "0 1 0 1 0"),
        (row::CODE, 2, "1111 0111"),
    ] {
        let rhythm = lead(&back, 0, count, bits(letters));
        edges.rhythm(
            refusal,
            format!("{count} samples in {letters}, there and back"),
            &rhythm,
        );
    }
}

/// Samples at the ends of 16 bits, and one beyond them.
fn differences(edges: &mut Edges) {
    for (refusal, order, values) in [
        (0, 0, &[32_767, -32_768][..]),
        (0, 1, &[32_767, 0]),
        (row::SAMPLE, 1, &[32_767, 1]),
        (0, 1, &[-32_768, 32_767, 32_767, 1]),
        (row::SAMPLE, 1, &[-32_768, 32_767, 32_767, 2]),
        (row::SAMPLE, 1, &[-32_768, -1]),
        (0, 1, &[0, -32_768]),
        (row::SAMPLE, 1, &[-1, -32_768]),
        (0, 2, &[32_767]),
        (0, 2, &[32_767, -32_768]),
        (0, 2, &[0, 16_383, 1]),
        (row::SAMPLE, 2, &[0, 16_383, 2]),
        (0, 2, &[0, -16_384, 0]),
        (row::SAMPLE, 2, &[0, -16_384, -1]),
        (row::SAMPLE, 2, &[-32_768, 32_767, -32_768]),
        (0, 2, &[32_767, 32_767, 0]),
        (row::SAMPLE, 2, &[32_767, 32_767, 1]),
        (0, 2, &[-32_768, -32_768, 32_767, -32_767]),
    ] {
        let rhythm = lead(&[], order, values.len() as u32, two_bytes(values));
        edges.rhythm(refusal, format!("{values:?} of order {order}"), &rhythm);
    }
}

/// Three samples with a beat of N 5 and F 3: its sample 2 is added to sample 2 of the lead. Without tables.
fn beaten(beat: &[i16], residual: &[i16], orders: [u8; 2]) -> Rhythm {
    beaten_by(&[], two_bytes(beat), two_bytes(residual), orders)
}

/// The same by this Section 2, empty if there is none, with these streams in both leads.
fn beaten_by(tables: &[u8], beat: Vec<u8>, residual: Vec<u8>, orders: [u8; 2]) -> Rhythm {
    let mut rhythm = two_leads();
    rhythm.tables = tables.to_vec();
    rhythm.flags = 1;
    rhythm.stored = Stored::new(orders[1], vec![residual; 2]);
    rhythm.beat = Some(Beat {
        length: 10,
        fiducial: 3,
        qrs: vec![zone(2, 3, 2)],
        stored: Stored::new(orders[0], vec![beat; 2]),
    });
    rhythm
}

/// Beats and sums at the ends of 16 bits.
fn beats(edges: &mut Edges) {
    for (refusal, beat, residual, orders) in [
        (0, &[9, 1, 9, 9, 9][..], &[5, 32_766, 5][..], [0, 0]),
        (row::SAMPLE, &[9, 1, 9, 9, 9], &[5, 32_767, 5], [0, 0]),
        (0, &[9, -1, 9, 9, 9], &[5, -32_767, 5], [0, 0]),
        (row::SAMPLE, &[9, -1, 9, 9, 9], &[5, -32_768, 5], [0, 0]),
        (0, &[9, -32_768, 9, 9, 9], &[5, 32_767, 5], [0, 0]),
        // only the zone's sample is added to, and by its own beat sample
        (
            0,
            &[32_767, 0, 32_767, 9, 9],
            &[32_767, 32_767, 32_767],
            [0, 0],
        ),
        // a residual or a beat outside 16 bits, whatever the sum and whoever uses it
        (
            row::SAMPLE,
            &[0, -30_000, 0, 0, 0],
            &[32_767, 1, -1],
            [0, 1],
        ),
        (row::SAMPLE, &[0, 0, 0, 32_767, 1], &[0, 0, 0], [1, 0]),
        (0, &[0, 0, 0, 32_767, 0], &[0, 0, 0], [1, 0]),
        (row::CODE, &[0, 0, 0, 0], &[0, 0, 0], [0, 0]),
        (row::LEFT_OVER_BITS, &[0, 0, 0, 0, 0, 0], &[0, 0, 0], [0, 0]),
        (0, &[1, 1, 1, 1, 1], &[1, 1, 1], [2, 1]),
    ] {
        let rhythm = beaten(beat, residual, orders);
        let name = format!("a beat of {beat:?} and {residual:?}, of orders {orders:?}");
        edges.rhythm(refusal, name, &rhythm);
    }
    // The beat is read though no zone uses it.
    let mut rhythm = beaten(&[0; 4], &[0; 3], [0, 0]);
    if let Some(beat) = &mut rhythm.beat {
        beat.qrs.clear();
    }
    edges.rhythm(row::CODE, "a beat cut short, and no zones", &rhythm);
}

/// With several faults the first that is met counts: the beat's before the residual's, 12 before 13 at one value, 14 at the end.
fn order_of_faults(edges: &mut Edges) {
    for (refusal, beat, residual, orders) in [
        (row::CODE, &[0; 4][..], &[32_767, 1, 0][..], [0, 1]),
        (row::LEFT_OVER_BITS, &[0; 6], &[32_767, 1, 0], [0, 1]),
        (row::LEFT_OVER_BITS, &[0; 6], &[0], [0, 0]),
        (row::SAMPLE, &[32_767, 1], &[0], [1, 0]),
        (row::SAMPLE, &[32_767, 1, 0, 0, 0, 0, 0], &[0], [1, 0]),
        (row::CODE, &[0, 1, 0, 0, 0], &[0, 32_767], [0, 0]),
        (
            row::LEFT_OVER_BITS,
            &[0, 1, 0, 0, 0],
            &[0, 32_767, 0, 0],
            [0, 0],
        ),
    ] {
        let rhythm = beaten(beat, residual, orders);
        let name = format!("a beat of {beat:?}, then {residual:?}, of orders {orders:?}");
        edges.rhythm(refusal, name, &rhythm);
    }
    // 13 at the second value, and the third is not there; 12 at the second, whatever it would be.
    for (refusal, values, extra) in [
        (row::SAMPLE, &[32_767, 1][..], 0),
        (row::CODE, &[32_767], 1),
    ] {
        let stream = [two_bytes(values), vec![1; extra]].concat();
        let name = format!("{values:?} and {extra} bytes for three samples");
        edges.rhythm(refusal, name, &lead(&[], 1, 3, stream));
    }
}

/// The places of the codes' structures in their tables: the first, the last, those after a switch, and with a switch among
/// the bits left over, which is not read.
fn compared(edges: &mut Edges) {
    let last = |code| {
        let eight_bits = (0..63).map(|k| value(format!("11{k:06b}"), k));
        eight_bits.chain([code]).collect::<Vec<_>>()
    };
    let values = tables(&[last(value("0", 5))]);
    let switching = tables(&[last(switch("0", 2)), last(value("10", 6))]);
    let own = tables(&[vec![value("10", 3), value("11", 4), switch("0", 1)]]);
    for (sum, tables, count, letters) in [
        (1, &DEFAULT_TABLE[..], 1, "0"),
        (17, &DEFAULT_TABLE, 1, "1111111101"),
        (18, &DEFAULT_TABLE, 1, "1111111110 00000000"),
        (19, &DEFAULT_TABLE, 1, "1111111111 0000000000000000"),
        (1 + 2 + 3, &DEFAULT_TABLE, 3, "0 100 101"),
        (64, &values, 1, "0"),
        (63, &values, 1, "11111110"),
        (3 * 64, &values, 3, "0 0 0"),
        (64 + 64, &switching, 1, "0 10"),
        (64 + 1, &switching, 1, "0 11000000"),
        (64 + 64 + 1, &switching, 2, "0 10 11000000"),
        (1, &own, 1, "10"),
        (3 + 1, &own, 1, "0 10"),
        (3 + 3 + 1, &own, 1, "0 0 10"),
        (3 + 1 + 3 + 2, &own, 2, "0 10 0 11"),
        (2, &own, 1, "11 0 0 0 0 0 0 10000000"),
    ] {
        let name = format!("{letters} for {count} samples, {sum} structures compared");
        edges.compared(sum, name, &lead(tables, 0, count, bits(letters)));
    }
    let plain = lead(&[], 0, 3, two_bytes(&[7, -8, 9]));
    edges.compared(0, "nothing compared without Section 2", &plain);
}

/// The same of the beat's five codes and the residual's three, however many zones use the beat.
fn compared_with_a_beat(edges: &mut Edges) {
    let (beat, residual) = (bits("100 0 0 0 101"), bits("1100 0 0"));
    let one_zone = beaten_by(&DEFAULT_TABLE, beat, residual, [0, 0]);
    for (name, qrs) in [
        ("no zone", vec![]),
        ("one zone", vec![zone(2, 3, 2)]),
        ("two zones", vec![zone(2, 3, 2), zone(3, 3, 3)]),
    ] {
        let mut rhythm = one_zone.clone();
        if let Some(beat) = &mut rhythm.beat {
            beat.qrs = qrs;
        }
        let sum = (2 + 1 + 1 + 1 + 3) + (4 + 1 + 1);
        edges.compared(sum, format!("structures compared with {name}"), &rhythm);
    }
    let plain = beaten(&[1; 5], &[1; 3], [0, 0]);
    edges.compared(0, "nothing compared for a beat without Section 2", &plain);
}
