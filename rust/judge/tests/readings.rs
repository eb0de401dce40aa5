//! Single rules, one record each, where a number is easily taken for another.

use judge::make::{mend, mend_size};
use judge::{field, lead, open, read_lead, row};

/// Sections with their data, laid one after another behind twelve pointers.
#[derive(Clone)]
struct Record(Vec<(u16, Vec<u8>)>);

impl Record {
    /// Leads 1 and 2 of samples 1 to 3 in two bytes each, order 0.
    fn plain() -> Self {
        let section_3 = [&[2, 0][..], &SPAN, &SPAN].concat();
        let section_6 = [&STEP_INTERVAL[..], &[0, 0, 6, 0, 6, 0], &SAMPLES, &SAMPLES].concat();
        Record(vec![
            (1, SECTION_1.to_vec()),
            (3, section_3),
            (6, section_6),
        ])
    }

    /// The same with a subtracted beat of N 2 and F 1 that is 10 20 in both leads, added to samples
    /// 2 and 3.
    fn beaten() -> Self {
        let zone = [0, 0, 2, 0, 0, 0, 2, 0, 0, 0, 3, 0, 0, 0];
        let section_4 = [&[4, 0, 1, 0, 1, 0][..], &zone].concat();
        let section_5 = [&STEP_INTERVAL[..], &[0, 9, 4, 0, 4, 0], &BEAT, &BEAT].concat();
        let mut record = Record::plain();
        record.data(3)[1] = 1;
        record.0.insert(2, (4, section_4));
        record.0.insert(3, (5, section_5));
        record
    }

    fn data(&mut self, id: u16) -> &mut Vec<u8> {
        let section = self.0.iter_mut().find(|section| section.0 == id);
        &mut section.expect("the section").1
    }

    fn without(mut self, id: u16) -> Self {
        self.0.retain(|section| section.0 != id);
        self
    }

    fn with(mut self, id: u16, data: &[u8]) -> Self {
        self.0.push((id, data.to_vec()));
        self
    }

    fn changed(mut self, id: u16, at: usize, byte: u8) -> Self {
        self.data(id)[at] = byte;
        self
    }

    /// The same with these streams in Section 5 or 6, and a spare byte behind them if they are odd.
    fn stored(mut self, id: u16, streams: [&[u8]; 2]) -> Self {
        let counts = streams.map(|stream| (stream.len() as u16).to_le_bytes());
        let data = self.data(id);
        data.truncate(6);
        data.extend(counts.concat());
        data.extend(streams.concat());
        data.resize(data.len().next_multiple_of(2), 0);
        self
    }

    fn bytes(&self) -> Vec<u8> {
        let mut bytes = [&[0; 10][..], &[136, 0, 0, 0, 0, 0], b"SCPECG"].concat();
        for id in 0..12 {
            bytes.extend([id, 0, 0, 0, 0, 0, 0, 0, 0, 0]);
        }
        bytes[24] = 136;
        bytes[28] = 7;
        for (id, data) in &self.0 {
            let length = 16 + data.len() as u32;
            let pointer = 22 + 10 * usize::from(*id);
            let index = bytes.len() as u32 + 1;
            bytes[pointer + 2..pointer + 6].copy_from_slice(&length.to_le_bytes());
            bytes[pointer + 6..pointer + 10].copy_from_slice(&index.to_le_bytes());
            let start = [
                &[0; 2][..],
                &id.to_le_bytes(),
                &length.to_le_bytes(),
                &[0; 8],
            ];
            bytes.extend(start.concat());
            bytes.extend(data);
        }
        mended(bytes)
    }

    /// The result of reading this lead, with room for all.
    fn read(&self, place: usize) -> Result<Vec<i16>, u8> {
        let read = read_lead(&self.bytes(), place, 3, 2);
        read.map(|lead| lead.samples)
            .map_err(|refused| refused.number)
    }

    /// The structures compared in reading this lead, and the bits of its codes.
    fn compared(&self, place: usize) -> Option<(u32, u32)> {
        let read = read_lead(&self.bytes(), place, 3, 2).ok()?;
        Some((read.compared, read.bits))
    }
}

/// Identifier 7, and the other fields that must be present.
const SECTION_1: [u8; 24] = [
    2, 2, 0, 0x37, 0, 14, 0, 0, 25, 4, 0, 1, 2, 3, 4, 26, 3, 0, 1, 2, 3, 255, 0, 0,
];
/// First 1, last 3, ID 8.
const SPAN: [u8; 9] = [1, 0, 0, 0, 3, 0, 0, 0, 8];
/// Step 5000, interval 2000.
const STEP_INTERVAL: [u8; 4] = [0x88, 0x13, 0xD0, 0x07];
const SAMPLES: [u8; 6] = [1, 0, 2, 0, 3, 0];
/// 10 20.
const BEAT: [u8; 4] = [10, 0, 20, 0];
/// Section 2's data that name the default table.
const DEFAULT_TABLE: [u8; 2] = [0x1F, 0x4E];

fn mended(mut bytes: Vec<u8>) -> Vec<u8> {
    mend_size(&mut bytes);
    mend(&mut bytes);
    bytes
}

fn opened(bytes: &[u8]) -> u8 {
    open(bytes).err().unwrap_or(0)
}

#[test]
fn the_records_are_sound() {
    assert_eq!(Record::plain().read(1), Ok(vec![1, 2, 3]));
    assert_eq!(Record::plain().read(2), Ok(vec![1, 2, 3]));
    assert_eq!(Record::beaten().read(1), Ok(vec![1, 12, 23]));
    assert_eq!(Record::beaten().read(2), Ok(vec![1, 12, 23]));
}

#[test]
fn sections_may_lie_anywhere() {
    let mut bytes = Record::plain().bytes();
    let last = bytes.len() - 38;
    bytes.insert(last, 0xAA);
    bytes[22 + 60 + 6] += 1;
    bytes.push(0xBB);
    let bytes = mended(bytes);
    assert_eq!(opened(&bytes), 0);
    assert_eq!(lead(&bytes, 2).map(|entry| entry.bytes), Ok(6));
}

#[test]
fn section_0_gives_3_and_its_check_alone_5() {
    let sound = Record::plain().bytes();
    for (at, byte) in [
        (8, 1),
        (10, 135),
        (10, 146),
        (16, b's'),
        (24, 0),
        (28, 8),
        (32, 2),
    ] {
        let mut bytes = sound.clone();
        bytes[at] = byte;
        assert_eq!(opened(&mended(bytes)), 3, "byte {at}");
    }
    let mut bytes = sound.clone();
    bytes[6] ^= 1;
    let check = judge::crc(&bytes[2..]).to_le_bytes();
    bytes[..2].copy_from_slice(&check);
    assert_eq!(opened(&bytes), 5);
}

#[test]
fn places_and_headers_give_4() {
    let least = Record(Vec::new()).bytes();
    assert_eq!((least.len(), opened(&least)), (142, 4));
    assert_eq!(opened(&Record::plain().without(1).bytes()), 4);
    let sound = Record::plain().bytes();
    let section_3 = 22 + 30;
    for (at, byte) in [
        (section_3 + 2, 37),
        (section_3 + 2, 14),
        (section_3 + 6, 143),
        (section_3 + 6, 7),
    ] {
        let mut bytes = sound.clone();
        bytes[at] = byte;
        assert_eq!(opened(&mended(bytes)), 4, "byte {at}");
    }
}

#[test]
fn absent_sections_have_any_index() {
    let mut bytes = Record::plain().bytes();
    bytes[22 + 20 + 6..22 + 20 + 10].fill(0xFF);
    let bytes = mended(bytes);
    assert_eq!(open(&bytes).map(|pointers| pointers[2].index), Ok(u32::MAX));
}

#[test]
fn section_2_is_judged_before_leads_and_never_by_opening() {
    for data in [&[][..], &[0x1F, 0x4E, 0, 0], &[0, 0]] {
        for record in [Record::plain(), Record::plain().without(3).without(6)] {
            let bytes = record.with(2, data).bytes();
            assert_eq!(opened(&bytes), 0);
            assert!(field(&bytes, 2, 1).is_ok());
            assert_eq!(lead(&bytes, 0), Err(row::SECTION_2));
        }
    }
    assert_eq!(
        Record::plain().changed(6, 4, 3).with(2, &[0, 0]).read(1),
        Err(row::SECTION_2)
    );
}

#[test]
fn all_leads_are_judged_before_the_place() {
    let broken = Record::plain().changed(3, 2 + 9, 0);
    assert_eq!(broken.read(1), Err(row::SECTIONS_3_TO_6));
    assert_eq!(
        Record::plain().changed(6, 4, 3).read(0),
        Err(row::SECTIONS_3_TO_6)
    );
    assert_eq!(
        Record::plain().changed(6, 6, 7).read(3),
        Err(row::SECTIONS_3_TO_6)
    );
    assert_eq!(Record::plain().read(0), Err(row::ABSENT));
    assert_eq!(Record::plain().read(3), Err(row::ABSENT));
}

#[test]
fn absent_sections_3_and_6() {
    assert_eq!(
        Record::plain().without(3).without(6).read(1),
        Err(row::ABSENT)
    );
    assert_eq!(
        Record::plain().without(3).read(1),
        Err(row::SECTIONS_3_TO_6)
    );
    assert_eq!(Record::plain().without(6).read(1), Err(row::ABSENT));
    assert_eq!(
        Record::plain().without(6).changed(3, 0, 0).read(1),
        Err(row::SECTIONS_3_TO_6)
    );
    assert_eq!(
        Record::beaten()
            .without(3)
            .without(6)
            .changed(4, 2, 0)
            .read(1),
        Err(row::ABSENT)
    );
}

#[test]
fn sections_4_and_5_are_needed_with_bit_0() {
    for section in [4, 5] {
        assert_eq!(
            Record::beaten().without(section).read(1),
            Err(row::SECTIONS_3_TO_6)
        );
        assert_eq!(
            Record::beaten().without(section).without(6).read(1),
            Err(row::SECTIONS_3_TO_6)
        );
        let unjudged = Record::beaten().changed(3, 1, 0xFE);
        assert_eq!(unjudged.clone().without(section).read(1), Ok(vec![1, 2, 3]));
        assert_eq!(
            unjudged.without(section).with(section, &[]).read(1),
            Ok(vec![1, 2, 3])
        );
    }
    assert_eq!(Record::beaten().without(6).read(1), Err(row::ABSENT));
    assert_eq!(
        Record::beaten().without(6).changed(4, 2, 3).read(1),
        Err(row::SECTIONS_3_TO_6)
    );
}

#[test]
fn bimodal_steps_and_intervals() {
    assert_eq!(
        Record::plain().changed(6, 5, 1).read(1),
        Err(row::AGREEMENT)
    );
    assert_eq!(
        Record::plain().changed(6, 5, 1).read(0),
        Err(row::AGREEMENT)
    );
    assert_eq!(
        Record::plain().changed(6, 5, 2).read(1),
        Err(row::SECTIONS_3_TO_6)
    );
    assert_eq!(
        Record::plain().changed(6, 5, 1).changed(6, 4, 3).read(1),
        Err(row::SECTIONS_3_TO_6)
    );
    assert_eq!(
        Record::beaten().changed(6, 0, 0).read(1),
        Err(row::AGREEMENT)
    );
    assert_eq!(
        Record::beaten().changed(6, 2, 0).read(1),
        Err(row::AGREEMENT)
    );
    assert_eq!(
        Record::beaten().changed(5, 0, 0).read(1),
        Err(row::AGREEMENT)
    );
}

#[test]
fn the_beat_has_1_to_65_536_samples() {
    assert_eq!(
        Record::beaten().changed(4, 0, 0).read(1),
        Err(row::SECTIONS_3_TO_6)
    );
    assert_eq!(
        Record::beaten().changed(4, 0, 1).read(1),
        Err(row::SECTIONS_3_TO_6)
    );
    assert_eq!(
        Record::beaten().changed(4, 2, 0).read(1),
        Err(row::SECTIONS_3_TO_6)
    );
    assert_eq!(
        Record::beaten().changed(4, 2, 3).read(1),
        Err(row::SECTIONS_3_TO_6)
    );
}

#[test]
fn zones_go_by_the_samples_of_the_record() {
    let later = Record::beaten().changed(3, 2, 3).changed(3, 6, 5);
    assert_eq!(later.read(1), Ok(vec![21, 2, 3]));
    let beyond = Record::beaten().changed(3, 2, 100).changed(3, 6, 102);
    assert_eq!(beyond.read(1), Ok(vec![1, 2, 3]));
}

#[test]
fn room_is_judged_before_streams() {
    let number = |record: &Record, out_len, work_len| {
        let read = read_lead(&record.bytes(), 1, out_len, work_len);
        read.map_or_else(
            |refused| (refused.number, refused.work_cleared),
            |lead| (0, lead.work_cleared),
        )
    };
    let empty = |section| {
        let mut record = Record::beaten();
        record.data(section)[6] = 0;
        let streams = record.data(section).len() - 10;
        record.data(section).truncate(10 + streams / 2);
        record
    };
    for section in [5, 6] {
        assert_eq!(number(&empty(section), 2, 2), (11, false));
        assert_eq!(number(&empty(section), 3, 1), (11, false));
        assert_eq!(number(&empty(section), 3, 2), (12, true));
    }
    assert_eq!(number(&Record::beaten(), 3, 2), (0, true));
    assert_eq!(number(&Record::plain(), 3, 0), (0, false));
}

#[test]
fn another_leads_stream_is_not_met() {
    let mut record = Record::plain();
    record.data(6)[6] = 4;
    record.data(6).drain(10..12);
    assert_eq!(record.read(1), Err(row::CODE));
    assert_eq!(record.read(2), Ok(vec![1, 2, 3]));
}

/// By the default table 1 1 1 takes 9 bits and 2 1 0 takes 8: up to 15 bits left over are ignored,
/// whatever they hold, and 16 or more are refused (01, row 14; Q-1).
#[test]
fn bits_left_over() {
    let sound: &[u8] = &[0x92, 0];
    for (stream, read) in [
        (sound, Ok(vec![1, 1, 1])),
        (&[0x92, 0, 0], Ok(vec![1, 1, 1])),
        (&[0x92, 0x7F, 0xFF], Ok(vec![1, 1, 1])),
        (&[0x92, 0, 0, 0], Err(row::LEFT_OVER_BITS)),
        (&[0xC8], Ok(vec![2, 1, 0])),
        (&[0xC8, 0xFF], Ok(vec![2, 1, 0])),
        (&[0xC8, 0, 0], Err(row::LEFT_OVER_BITS)),
        (&[0xC8, 0xFF, 0xFF], Err(row::LEFT_OVER_BITS)),
    ] {
        let record = Record::plain().with(2, &DEFAULT_TABLE);
        let record = record.stored(6, [stream, sound]);
        assert_eq!(record.read(1), read, "{stream:X?}");
        assert_eq!(record.read(2), Ok(vec![1, 1, 1]), "{stream:X?}");
    }
}

/// Without Section 2 that is one byte, and two are refused.
#[test]
fn bytes_left_over() {
    for (more, read) in [
        (&[][..], Ok(vec![1, 2, 3])),
        (&[0], Ok(vec![1, 2, 3])),
        (&[0xFF], Ok(vec![1, 2, 3])),
        (&[0, 0], Err(row::LEFT_OVER_BITS)),
        (&[0xFF; 2], Err(row::LEFT_OVER_BITS)),
        (&[0; 3], Err(row::LEFT_OVER_BITS)),
    ] {
        let record = Record::plain().stored(6, [&[&SAMPLES, more].concat(), &SAMPLES]);
        assert_eq!(record.read(1), read, "{more:X?}");
        assert_eq!(record.read(2), Ok(vec![1, 2, 3]), "{more:X?}");
    }
    let cut = Record::plain().stored(6, [&SAMPLES[..5], &SAMPLES]);
    assert_eq!(cut.read(1), Err(row::CODE));
}

/// The beat alike: 3 2 takes 9 bits, and 2 2 takes 8; the residual is 1 1 1.
#[test]
fn bits_left_over_of_the_beat() {
    let (sound, residual): (&[u8], &[u8]) = (&[0xE6, 0], &[0x92, 0]);
    for (stream, read) in [
        (sound, Ok(vec![1, 4, 3])),
        (&[0xE6, 0x7F, 0xFF], Ok(vec![1, 4, 3])),
        (&[0xE6, 0, 0, 0], Err(row::LEFT_OVER_BITS)),
        (&[0xCC, 0xFF], Ok(vec![1, 3, 3])),
        (&[0xCC, 0, 0], Err(row::LEFT_OVER_BITS)),
        (&[0xCC, 0xFF, 0xFF], Err(row::LEFT_OVER_BITS)),
    ] {
        let record = Record::beaten().with(2, &DEFAULT_TABLE);
        let record = record.stored(5, [stream, sound]).stored(6, [residual; 2]);
        assert_eq!(record.read(1), read, "{stream:X?}");
        assert_eq!(record.read(2), Ok(vec![1, 4, 3]), "{stream:X?}");
    }
}

#[test]
fn the_beat_is_read_first_and_whole() {
    let no_zone = Record::beaten().changed(4, 4, 0);
    assert_eq!(no_zone.read(1), Ok(vec![1, 2, 3]));
    let left_over = |more: &[u8]| {
        let stream = [&BEAT, more].concat();
        no_zone.clone().stored(5, [&stream, &BEAT])
    };
    assert_eq!(left_over(&[0xFF]).read(1), Ok(vec![1, 2, 3]));
    for more in [[0, 0], [0xFF, 0xFF]] {
        let record = left_over(&more);
        assert_eq!(record.read(1), Err(row::LEFT_OVER_BITS));
        assert_eq!(record.read(2), Ok(vec![1, 2, 3]));
        let record = record.stored(6, [&[], &SAMPLES]);
        assert_eq!(record.read(1), Err(row::LEFT_OVER_BITS));
    }
}

/// A padded beat and a padded residual read to what they read to without the padding: of two bytes
/// a value, and by the default table, where 12 bits are left over of the beat and 15 of the residual.
#[test]
fn padded_streams_read_as_unpadded_ones() {
    let by_table = Record::beaten().with(2, &DEFAULT_TABLE);
    let ten_twenty: &[u8] = &[0xFF, 0x82, 0xBF, 0xE1, 0x40];
    for (record, beat, residual, read) in [
        (Record::beaten(), &BEAT[..], &SAMPLES[..], [1, 12, 23]),
        (by_table, ten_twenty, &[0x92, 0], [1, 11, 21]),
    ] {
        let pad = |stream: &[u8], byte| [stream, &[byte]].concat();
        let whole = record.stored(5, [beat; 2]).stored(6, [residual; 2]);
        assert_eq!(whole.read(1), Ok(read.to_vec()));
        for byte in [0, 0x55, 0xFF] {
            let (beat, residual) = (&pad(beat, byte), &pad(residual, byte));
            let beats_padded = whole.clone().stored(5, [beat, beat]);
            let residuals_padded = whole.clone().stored(6, [residual, residual]);
            let both_padded = beats_padded.clone().stored(6, [residual, residual]);
            for padded in [beats_padded, residuals_padded, both_padded] {
                assert_eq!(padded.read(1), Ok(read.to_vec()), "{byte:X}");
                assert_eq!(padded.read(2), Ok(read.to_vec()), "{byte:X}");
            }
        }
    }
}

#[test]
fn residuals_and_sums_have_16_bits_of_their_own() {
    let mut sum = Record::beaten();
    sum.data(6)[12..14].copy_from_slice(&32_758i16.to_le_bytes());
    assert_eq!(sum.read(1), Err(row::SAMPLE));
    sum.data(6)[12..14].copy_from_slice(&32_757i16.to_le_bytes());
    assert_eq!(sum.read(1), Ok(vec![1, 32_767, 23]));
    let mut residual = Record::beaten().changed(6, 4, 1);
    residual.data(5)[10..12].copy_from_slice(&(-9i16).to_le_bytes());
    residual.data(6)[12..14].copy_from_slice(&32_767i16.to_le_bytes());
    assert_eq!(residual.read(1), Err(row::SAMPLE));
}

/// By the default table 1 1 1 takes the second structure three times, and 2 1 0 the fourth, the
/// second and the first. Bits left over are no codes. Without Section 2 nothing is compared (02,
///
#[test]
fn structures_compared() {
    let by_table = Record::plain().with(2, &DEFAULT_TABLE);
    for (stream, compared) in [
        (&[0x92, 0][..], (6, 9)),
        (&[0x92, 0x7F, 0xFF], (6, 9)),
        (&[0xC8], (7, 8)),
        (&[0xC8, 0xFF], (7, 8)),
    ] {
        let record = by_table.clone().stored(6, [stream, &[0x92, 0]]);
        assert_eq!(record.compared(1), Some(compared), "{stream:X?}");
        assert_eq!(record.compared(2), Some((6, 9)), "{stream:X?}");
    }
    assert_eq!(Record::plain().compared(1), Some((0, 48)));
    assert_eq!(Record::beaten().compared(1), Some((0, 80)));
}

/// The beat's stream counts once with the residual's, whether no zone uses it, one or two. 3 2 takes
/// the sixth and the fourth structure, and the residual is 1 1 1.
#[test]
fn structures_compared_with_a_beat() {
    let by_table = Record::beaten().with(2, &DEFAULT_TABLE);
    let record = by_table.stored(5, [&[0xE6, 0]; 2]);
    let record = record.stored(6, [&[0x92, 0], &[0xC8]]);
    let mut two_zones = record.clone().changed(4, 4, 2).changed(4, 6 + 10, 2);
    two_zones
        .data(4)
        .extend([0, 0, 3, 0, 0, 0, 3, 0, 0, 0, 3, 0, 0, 0]);
    for (record, read) in [
        (record.clone().changed(4, 4, 0), vec![1, 1, 1]),
        (record, vec![1, 4, 3]),
        (two_zones, vec![1, 4, 4]),
    ] {
        assert_eq!(record.read(1), Ok(read));
        assert_eq!(record.compared(1), Some((10 + 6, 18)));
        assert_eq!(record.compared(2), Some((10 + 7, 17)));
    }
}

/// Section 2's data with one table of 64 structures: 62 of 8 bits that begin with 11, then the value
/// 7 as 10, and last what the bit 0 alone means: its mode and base value.
fn full_table(mode: u8, base_value: u8) -> Vec<u8> {
    let eight_bits = |k| [8, 8, 1, k, 0, k << 2 | 3, 0, 0, 0];
    let mut data = vec![1, 0, 64, 0];
    data.extend((0..62).flat_map(eight_bits));
    data.extend([2, 2, 1, 7, 0, 1, 0, 0, 0]);
    data.extend([1, 1, mode, base_value, 0, 0, 0, 0, 0]);
    data
}

/// At most 64 times the bits of the codes are compared: as many where each code is one bit at place
/// 64, and nearly as many where a stream as long as can be has switches of this kind to their own
/// table, then two or three values of two bits at place 63 each.
#[test]
fn at_most_64_times_the_bits_are_compared() {
    let zeros = Record::plain().with(2, &full_table(1, 5));
    let zeros = zeros.stored(6, [&[0]; 2]);
    assert_eq!(zeros.read(1), Ok(vec![5, 5, 5]));
    assert_eq!(zeros.compared(1), Some((64 * 3, 3)));

    let switches = |end| [vec![0; 65_534], vec![end]].concat();
    let (two, three) = (switches(0b1010), switches(0b10_1010));
    let switching = full_table(0, 1);
    let bits = 8 * 65_535;
    let busy = Record::plain().with(2, &switching).stored(6, [&three, &[]]);
    let of_three = 64 * (bits - 6) + 3 * 63;
    assert_eq!(of_three, 33_553_725);
    assert_eq!(busy.read(1), Ok(vec![7, 7, 7]));
    assert_eq!(busy.compared(1), Some((of_three, bits)));

    let beaten = Record::beaten().with(2, &switching);
    let busy = beaten.stored(5, [&two, &[]]).stored(6, [&three, &[]]);
    let of_two = 64 * (bits - 4) + 2 * 63;
    assert_eq!(of_two + of_three, 67_107_515);
    assert_eq!(busy.read(1), Ok(vec![7, 14, 14]));
    assert_eq!(busy.compared(1), Some((of_two + of_three, 2 * bits)));
    assert_eq!(busy.read(2), Err(row::CODE));
}
