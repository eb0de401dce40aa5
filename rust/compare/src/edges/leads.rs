//! Rows 8 to 10: Sections 3 to 6, their agreement, and whether there is a lead.

use judge::row;

use super::edge::{headed, two_leads, Edges};
use crate::rhythm::{two_bytes, zone, Beat, Qrs, Rhythm, Span, Stored};

/// The refusal where the rules of Sections 3 to 6 are broken.
const BROKEN: u8 = row::SECTIONS_3_TO_6;

/// Adds them all.
pub fn add(edges: &mut Edges) {
    presence(edges);
    not_needed(edges);
    lead_counts(edges);
    spans(edges);
    section_3_ends(edges);
    stored(edges);
    stored_ends(edges);
    bimodal(edges);
    agreement(edges);
    beats(edges);
    qrs_counts(edges);
    section_4_ends(edges);
    zones(edges);
}

/// The two leads with a beat of N 5 and F 3 subtracted, and these QRS; L is 10 and the interval 2,000.
fn beaten(qrs: &[Qrs]) -> Rhythm {
    let mut rhythm = two_leads();
    rhythm.flags = 1;
    rhythm.beat = Some(Beat {
        length: 10,
        fiducial: 3,
        qrs: qrs.to_vec(),
        stored: Stored::new(0, vec![two_bytes(&[1, 2, 3, 4, 5]); 2]),
    });
    rhythm
}

/// Which of Sections 3 to 6 are there.
fn presence(edges: &mut Edges) {
    let rhythm = beaten(&[]);
    let sections = [
        (3, rhythm.definition()),
        (4, rhythm.beat.as_ref().map_or(Vec::new(), Beat::places)),
        (
            5,
            rhythm
                .beat
                .as_ref()
                .map_or(Vec::new(), |beat| beat.stored.data()),
        ),
        (6, rhythm.stored.data()),
    ];
    for present in 0..16 {
        let ids: Vec<u16> = (3..=6).filter(|id| present & 1 << (id - 3) != 0).collect();
        for beat in [0, 1] {
            let mut draft = headed();
            for (id, data) in sections.iter().filter(|section| ids.contains(&section.0)) {
                let mut data = data.clone();
                if *id == 3 {
                    data[1] = 0xFE | beat;
                }
                draft.put(*id, &data);
            }
            let name = format!("Sections {ids:?}, bit 0 being {beat}");
            edges.read(refusal_of(&ids, beat), name, &draft);
        }
    }
}

/// The result of reading a lead with these of Sections 3 to 6, bit 0 being as it is.
fn refusal_of(ids: &[u16], beat: u8) -> u8 {
    let there = |id| ids.contains(&id);
    match (there(3), there(6)) {
        (false, false) => row::ABSENT,
        (false, true) => BROKEN,
        (true, _) if beat == 1 && !(there(4) && there(5)) => BROKEN,
        (true, false) => row::ABSENT,
        (true, true) => 0,
    }
}

/// Sections that are not needed, and one that says nothing.
fn not_needed(edges: &mut Edges) {
    let mut draft = headed();
    draft.put(4, &[1; 3]);
    draft.put(5, &[]);
    two_leads().put(&mut draft);
    edges.read(0, "any Sections 4 and 5, bit 0 being 0", &draft);
    let mut draft = headed();
    draft.put(3, &[0, 0]);
    edges.read(BROKEN, "Section 3 without leads, no Section 6", &draft);
}

/// Section 3: the number of leads.
fn lead_counts(edges: &mut Edges) {
    for count in [0, 1, 2, 31, 32, 33, 255] {
        let mut rhythm = two_leads();
        rhythm.spans = vec![rhythm.spans[0]; count];
        rhythm.stored.streams = vec![rhythm.stored.streams[0].clone(); count];
        let refusal = if (1..=32).contains(&count) { 0 } else { BROKEN };
        edges.rhythm(refusal, format!("{count} leads"), &rhythm);
    }
}

/// Section 3: the first and last sample of a lead.
fn spans(edges: &mut Edges) {
    for (refusal, first, last) in [
        (0, 1, 1),
        (0, 1, 65_536),
        (0, 2, 65_537),
        (0, u32::MAX, u32::MAX),
        (0, u32::MAX - 65_535, u32::MAX),
        (BROKEN, 0, 0),
        (BROKEN, 0, 1),
        (BROKEN, 2, 1),
        (BROKEN, u32::MAX, 1),
        (BROKEN, 1, 65_537),
        (BROKEN, 1, u32::MAX),
        (BROKEN, u32::MAX - 65_536, u32::MAX),
    ] {
        // The second lead's entry is judged where the first lead is asked for.
        let mut rhythm = two_leads();
        rhythm.spans[1] = Span { first, last, id: 2 };
        edges.rhythm(
            refusal,
            format!("a second lead of samples {first} to {last}"),
            &rhythm,
        );
    }
}

/// Section 3: where its data end.
fn section_3_ends(edges: &mut Edges) {
    let definition = two_leads().definition();
    for (refusal, lost, more) in [
        (0, 0, 0),
        (BROKEN, 2, 0),
        (BROKEN, 10, 0),
        (BROKEN, 0, 2),
        (BROKEN, 20, 0),
    ] {
        let mut data = definition[..definition.len() - lost].to_vec();
        data.resize(data.len() + more, 0);
        edges.with_section(
            refusal,
            3,
            &data,
            format!("Section 3 of {} bytes, not 20", data.len()),
        );
    }
    let mut rhythm = two_leads();
    rhythm.spans.pop();
    rhythm.stored.streams.pop();
    let data = [rhythm.definition(), vec![9; 3]].concat();
    edges.section_of(
        &rhythm,
        BROKEN,
        3,
        &data,
        "Section 3 with three spare bytes",
    );
    edges.rhythm(0, "Section 3 with one spare byte", &rhythm);
}

impl Edges {
    /// Adds the two leads with other data in one section.
    fn with_section(&mut self, refusal: u8, id: u16, data: &[u8], name: impl Into<String>) {
        self.section_of(&two_leads(), refusal, id, data, name);
    }

    /// Adds a record with these sections, and other data in one of them.
    fn section_of(
        &mut self,
        rhythm: &Rhythm,
        refusal: u8,
        id: u16,
        data: &[u8],
        name: impl Into<String>,
    ) {
        let mut draft = headed();
        rhythm.put(&mut draft);
        draft.replace(id, data);
        self.read(refusal, name, &draft);
    }
}

/// A change of Section 5 or 6.
type Change = fn(&mut Stored);

/// The edges that Sections 5 and 6 have in common.
fn stored(edges: &mut Edges) {
    for (refusal, name, change) in stored_changes() {
        let mut rhythm = two_leads();
        change(&mut rhythm.stored);
        edges.rhythm(refusal, format!("Section 6 {name}"), &rhythm);
        let mut rhythm = beaten(&[]);
        if let Some(beat) = &mut rhythm.beat {
            change(&mut beat.stored);
        }
        edges.rhythm(refusal, format!("Section 5 {name}"), &rhythm);
        rhythm.flags = 0;
        edges.rhythm(0, format!("Section 5 {name}, bit 0 being 0"), &rhythm);
    }
}

/// The changes, and what reading the first lead gives after each.
fn stored_changes() -> [(u8, &'static str, Change); 14] {
    [
        (0, "as it is", |_| {}),
        (BROKEN, "with step 0", |stored| stored.step = 0),
        (BROKEN, "with interval 0", |stored| stored.interval = 0),
        (BROKEN, "with order 3", |stored| stored.order = 3),
        (BROKEN, "with order 255", |stored| stored.order = 255),
        (BROKEN, "with no streams", |stored| stored.streams.clear()),
        (BROKEN, "with one stream too few", |stored| {
            stored.streams.pop();
        }),
        (BROKEN, "with one stream too many", |stored| {
            stored.streams.push(vec![0; 6]);
        }),
        (0, "with a byte more for the first lead", |stored| {
            stored.streams[0].push(0xFF);
        }),
        (
            row::LEFT_OVER_BITS,
            "with two bytes more for the first lead",
            |stored| {
                stored.streams[0].extend([0; 2]);
            },
        ),
        (0, "with a byte more for the second lead", |stored| {
            stored.streams[1].push(0);
        }),
        (0, "with two bytes more for the second lead", |stored| {
            stored.streams[1].extend([0; 2]);
        }),
        (0, "with nothing for the second lead", |stored| {
            stored.streams[1].clear();
        }),
        (row::CODE, "with nothing for the first lead", |stored| {
            stored.streams[0].clear();
        }),
    ]
}

/// Where the data of Sections 5 and 6 end.
fn stored_ends(edges: &mut Edges) {
    for id in [5, 6] {
        let rhythm = beaten(&[]);
        let data = match (id, &rhythm.beat) {
            (5, Some(beat)) => beat.stored.data(),
            _ => rhythm.stored.data(),
        };
        for length in [0, 2, 4, 6, 8, 10, data.len() - 2, data.len() + 2] {
            let mut data = data.clone();
            data.resize(length, 0);
            let name = format!("Section {id} of {length} bytes");
            edges.section_of(&rhythm, BROKEN, id, &data, name);
        }
        // A byte count that takes all 16 bits to be seen wrong.
        let mut wrong = data.clone();
        wrong[7] = 1;
        edges.section_of(
            &rhythm,
            BROKEN,
            id,
            &wrong,
            format!("Section {id} with 256 bytes more said"),
        );
    }
}

/// Bimodal compression.
fn bimodal(edges: &mut Edges) {
    for (refusal, sixth) in [
        (0, 0),
        (row::AGREEMENT, 1),
        (BROKEN, 2),
        (BROKEN, 3),
        (BROKEN, 128),
        (BROKEN, 255),
    ] {
        let mut rhythm = two_leads();
        rhythm.stored.sixth = sixth;
        edges.rhythm(refusal, format!("bimodal {sixth}"), &rhythm);
        let mut rhythm = beaten(&[]);
        if let Some(beat) = &mut rhythm.beat {
            beat.stored.sixth = sixth;
        }
        edges.rhythm(0, format!("Section 5's reserved byte {sixth}"), &rhythm);
    }
    let mut rhythm = beaten(&[]);
    rhythm.stored.sixth = 1;
    rhythm.spans[1].first = 0;
    edges.rhythm(BROKEN, "bimodal 1 and a first sample 0", &rhythm);
}

/// Steps and intervals that differ.
fn agreement(edges: &mut Edges) {
    for (step, interval) in [
        (5001, 2000),
        (5000 + 256, 2000),
        (5000, 2001),
        (5000, 2000 + 256),
    ] {
        let mut rhythm = beaten(&[]);
        (rhythm.stored.step, rhythm.stored.interval) = (step, interval);
        edges.rhythm(
            row::AGREEMENT,
            format!("step {step} and interval {interval} in Section 6"),
            &rhythm,
        );
        rhythm.flags = 0;
        edges.rhythm(
            0,
            format!("step {step} and interval {interval}, bit 0 being 0"),
            &rhythm,
        );
    }
}

/// The beat's length and its fiducial.
fn beats(edges: &mut Edges) {
    for (refusal, length, interval, fiducial, count) in [
        (BROKEN, 0, 2000, 1, 0),
        (BROKEN, 1, 2000, 1, 0),
        (0, 2, 2000, 1, 1),
        (0, 3, 2000, 1, 1),
        (0, 10, 2000, 5, 5),
        (BROKEN, 10, 2000, 6, 5),
        (BROKEN, 10, 2000, 0, 5),
        (BROKEN, 10, 2000, 5 + 256, 5),
        (0, 11, 2000, 5, 5),
        (BROKEN, 65, 65_535, 1, 0),
        (0, 66, 65_535, 1, 1),
        (row::CODE, 16_384, 250, 65_535, 5),
        (BROKEN, 16_385, 250, 1, 5),
        (BROKEN, 65_535, 1, 1, 5),
    ] {
        let mut rhythm = beaten(&[]);
        rhythm.stored.interval = interval;
        if let Some(beat) = &mut rhythm.beat {
            (beat.length, beat.fiducial, beat.stored.interval) = (length, fiducial, interval);
            let samples: Vec<i16> = (0..count).collect();
            beat.stored.streams = vec![two_bytes(&samples); 2];
        }
        let name = format!("a beat of {length} ms at {interval} us, with fiducial {fiducial}");
        edges.rhythm(refusal, name, &rhythm);
    }
}

/// The number of QRS.
fn qrs_counts(edges: &mut Edges) {
    let other = |fiducial| Qrs {
        kind: 1,
        ..zone(0, fiducial, 0)
    };
    for count in [0, 1, 1023, 1024, 1025] {
        let refusal = if count <= 1024 { 0 } else { BROKEN };
        let qrs: Vec<Qrs> = (0..count).map(other).collect();
        edges.rhythm(refusal, format!("{count} QRS"), &beaten(&qrs));
    }
}

/// Where the data of Section 4 end.
fn section_4_ends(edges: &mut Edges) {
    let rhythm = beaten(&[zone(1, 1, 1), zone(2, 2, 2)]);
    let places = rhythm.beat.as_ref().map_or(Vec::new(), Beat::places);
    for length in [0, 2, 4, 6, 18, 20, 32] {
        let name = format!("Section 4 of {length} bytes, not 34");
        edges.section_of(&rhythm, BROKEN, 4, &places[..length], name);
    }
    for more in [1, 2, 3, 100] {
        let data = [&places[..], &vec![0xEE; more]].concat();
        edges.section_of(
            &rhythm,
            0,
            4,
            &data,
            format!("{more} bytes after the zones"),
        );
    }
}

/// Zones: N is 5 and F 3, so that sample n gets beat sample n-C+3.
fn zones(edges: &mut Edges) {
    for (refusal, qrs) in zone_cases() {
        let words: Vec<String> = qrs
            .iter()
            .map(|q| format!("type {} {}-{} C {}", q.kind, q.start, q.end, q.fiducial))
            .collect();
        let name = format!("zones {}", words.join(", "));
        edges.rhythm(refusal, name, &beaten(&qrs));
    }
}

/// QRS, and what reading a lead gives with them.
fn zone_cases() -> Vec<(u8, Vec<Qrs>)> {
    let other = |kind, start, end| Qrs {
        kind,
        ..zone(start, u32::MAX, end)
    };
    vec![
        (0, vec![zone(1, 3, 5)]),
        (BROKEN, vec![zone(1, 4, 5)]),
        (BROKEN, vec![zone(1, 2, 5)]),
        (BROKEN, vec![zone(1, 3, 6)]),
        (0, vec![zone(1, 0, 2)]),
        (0, vec![zone(2, 0, 2)]),
        (BROKEN, vec![zone(2, 0, 3)]),
        (BROKEN, vec![zone(0, 0, 0)]),
        (BROKEN, vec![zone(0, 0, 2)]),
        (BROKEN, vec![zone(2, 2, 1)]),
        (BROKEN, vec![zone(1, 3, 0)]),
        (0, vec![zone(1, 1, 1), zone(2, 2, 2)]),
        (BROKEN, vec![zone(1, 1, 1), zone(1, 1, 1)]),
        (BROKEN, vec![zone(1, 1, 2), zone(2, 2, 3)]),
        (BROKEN, vec![zone(3, 3, 3), zone(1, 1, 1)]),
        (0, vec![zone(1, 1, 1), other(1, 0, 0), zone(2, 2, 2)]),
        (BROKEN, vec![zone(2, 2, 2), other(1, 0, 0), zone(2, 2, 2)]),
        (BROKEN, vec![other(1, 1, 0)]),
        (BROKEN, vec![other(1, 0, 1)]),
        (BROKEN, vec![other(256, 7, 7)]),
        (0, vec![other(65_535, 0, 0)]),
        (0, vec![zone(1000, 1000, 1000)]),
        (BROKEN, vec![zone(1000, 1003, 1000)]),
        (0, vec![zone(u32::MAX, u32::MAX, u32::MAX)]),
        (0, vec![zone(u32::MAX - 4, u32::MAX - 2, u32::MAX)]),
        (BROKEN, vec![zone(u32::MAX - 5, u32::MAX - 2, u32::MAX)]),
        (BROKEN, vec![zone(u32::MAX, 0, u32::MAX)]),
        (BROKEN, vec![zone(u32::MAX, 1, u32::MAX)]),
        (BROKEN, vec![zone(1, u32::MAX, 1)]),
    ]
}
