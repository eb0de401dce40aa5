//! Rows 8 and 9: each rule and bound of Sections 3 to 6, and their agreement.

use crate::beat::beat_count;
use crate::make::draft::{Draft, Holds};
use crate::make::plan::{put_four, put_two};
use crate::make::rhythm::{Beat, Qrs};
use crate::make::rng::Rng;

/// Row 8.
pub fn damage(rng: &mut Rng, draft: &mut Draft) {
    let Some(rhythm) = &draft.rhythm else { return };
    let (leads, beaten) = (rhythm.leads.len(), rhythm.beat.is_some());
    match rng.below(8) {
        0 | 1 => break_section_3(rng, draft, leads),
        2 if beaten => break_stored(rng, draft, 5, leads),
        3..=6 if beaten => break_section_4(rng, draft),
        _ if draft.plan.has(6) => break_section_6(rng, draft, leads),
        _ => break_section_3(rng, draft, leads),
    }
}

/// Row 9.
pub fn disagree(rng: &mut Rng, draft: &mut Draft) {
    let flip = rng.other_byte(0);
    let at = rng.below(4);
    match rng.below(4) {
        _ if draft.holds != Holds::Beat => edit(draft, 6, |data| data[5] = 1),
        0 => edit(draft, 6, |data| data[5] = 1),
        1 => edit(draft, 5, |data| data[at % 2] ^= flip),
        _ => edit(draft, 6, |data| data[at] ^= flip),
    }
}

/// Changes a section's data, where there are at least the 6 bytes that Sections 4 to 6 start with.
fn edit(draft: &mut Draft, id: u16, change: impl FnOnce(&mut Vec<u8>)) {
    match draft.plan.data(id) {
        Some(data) if data.len() >= 6 => change(data),
        _ => {}
    }
}

fn break_section_3(rng: &mut Rng, draft: &mut Draft, leads: usize) {
    let lead = 2 + 9 * rng.below(leads);
    let number = rng.pick(&[0, 33, 255, leads as u8 + 1, leads as u8 - 1]);
    let first = 1 + rng.small(1000) as u32;
    let case = rng.below(7);
    if case == 6 && draft.plan.has(6) {
        return draft.plan.remove(3);
    }
    let length = rng.below(3);
    edit(draft, 3, |data| match case {
        0 => data[0] = number,
        1 => put_four(data, lead, 0),
        2 => {
            put_four(data, lead, first + 1);
            put_four(data, lead + 4, first);
        }
        3 => {
            put_four(data, lead, first);
            put_four(data, lead + 4, first + 65_536);
        }
        4 => {
            put_four(data, lead, first);
            put_four(data, lead + 4, u32::MAX);
        }
        _ => wrong_length(data, length),
    });
}

/// Even numbers of bytes less or more, or none left.
fn wrong_length(data: &mut Vec<u8>, case: usize) {
    match case {
        0 => data.truncate(data.len() - 2),
        1 => data.extend([0; 2]),
        _ => data.clear(),
    }
}

fn break_section_6(rng: &mut Rng, draft: &mut Draft, leads: usize) {
    if rng.one_in(6) {
        let bimodal = rng.pick(&[2, 2, 3, 255]);
        edit(draft, 6, |data| data[5] = bimodal);
    } else {
        break_stored(rng, draft, 6, leads);
    }
}

/// The rules that Sections 5 and 6 share.
fn break_stored(rng: &mut Rng, draft: &mut Draft, id: u16, leads: usize) {
    let count = 6 + 2 * rng.below(leads);
    let order = rng.pick(&[3, 3, 4, 255]);
    let other = rng.other_byte(0);
    let length = rng.below(3);
    let case = rng.below(if id == 5 { 6 } else { 5 });
    if case == 5 {
        return draft.plan.remove(5);
    }
    edit(draft, id, |data| match case {
        0 => put_two(data, 0, 0),
        1 => put_two(data, 2, 0),
        2 => data[4] = order,
        3 => data[count + usize::from(other % 2)] ^= other,
        _ => wrong_length(data, length),
    });
}

fn break_section_4(rng: &mut Rng, draft: &mut Draft) {
    match rng.below(10) {
        0 => draft.plan.remove(4),
        1 => {
            let length = 2 * rng.below(3);
            edit(draft, 4, |data| data.truncate(length));
        }
        2 => cut_zones(rng, draft),
        case => {
            if let Some(rhythm) = &mut draft.rhythm {
                let interval = rhythm.interval;
                match &mut rhythm.beat {
                    Some(beat) if case == 3 => too_many_qrs(rng, beat),
                    Some(beat) if case <= 5 => break_beat(rng, beat, interval),
                    Some(beat) => break_qrs(rng, beat, interval),
                    None => {}
                }
            }
            draft.renew(rng);
        }
    }
}

/// Fewer bytes than the number of QRS needs.
fn cut_zones(rng: &mut Rng, draft: &mut Draft) {
    let less = 2 * rng.below(4);
    edit(draft, 4, |data| {
        let number = (data.len() - 6) / 14 + 1;
        data.truncate(data.len() - less.min(data.len() - 6));
        put_two(data, 4, number as u16);
    });
}

/// Over 1,024 QRS, each of them sound.
fn too_many_qrs(rng: &mut Rng, beat: &mut Beat) {
    let other = Qrs {
        qrs_type: 1,
        start: 0,
        fiducial: 0,
        end: 0,
    };
    beat.qrs.resize(rng.pick(&[1025, 1025, 1026, 4000]), other);
}

/// L and F out of their rules; zones move with F, so that they stay inside the beat.
fn break_beat(rng: &mut Rng, beat: &mut Beat, interval: u16) {
    let count = beat_count(beat.length, interval);
    let fiducial = match rng.below(4) {
        0 => return beat.length = 0,
        1 if interval > 1000 => return beat.length = 1,
        1 => return beat.length = 65_535,
        2 => 0,
        _ => u16::try_from(count + 1).unwrap_or(0),
    };
    for qrs in &mut beat.qrs {
        let moved = qrs.fiducial.wrapping_add(fiducial.into());
        qrs.fiducial = moved.wrapping_sub(beat.fiducial.into());
    }
    beat.fiducial = fiducial;
}

/// One more QRS that breaks a rule, after sound ones.
fn break_qrs(rng: &mut Rng, beat: &mut Beat, interval: u16) {
    if rng.one_in(8) {
        beat.qrs.clear();
    }
    let last = beat.qrs.iter().rfind(|qrs| qrs.qrs_type == 0);
    let end = last.map_or(0, |qrs| qrs.end);
    let count = beat_count(beat.length, interval) as u32;
    beat.qrs
        .push(broken_qrs(rng, end, beat.fiducial.into(), count));
}

/// A zone that starts at 0, at the end of the one before or earlier, is empty, or has samples
/// outside the beat, by a little or by so much that 32 bits wrap; or another type with a zone.
fn broken_qrs(rng: &mut Rng, end: u32, f: u32, count: u32) -> Qrs {
    let zone = |start: u32, fiducial: u32, end: u32| Qrs {
        qrs_type: 0,
        start,
        fiducial,
        end,
    };
    let next = end.saturating_add(1);
    let later = next.saturating_add(count);
    let more = rng.pick(&[0, 0, 1, 2]);
    match rng.below(10) {
        0 => zone(end, end, end),
        1 => zone(1, 1, 1),
        2 => zone(0, 0, 0),
        3 => zone(next.saturating_add(1), next, next),
        4 => zone(
            next,
            next.saturating_add(f + more),
            next.saturating_add(more + 1),
        ),
        5 => zone(later, later.wrapping_add(f).wrapping_sub(count + 1), later),
        6 => zone(u32::MAX, more, u32::MAX),
        _ => {
            let (start, end) = rng.pick(&[(1, 0), (0, 1), (7, 7)]);
            Qrs {
                qrs_type: rng.within(1..=65_535) as u16,
                ..zone(start, next, end)
            }
        }
    }
}
