//! Rows 12 to 14: streams that run out or match nothing, samples of more than 16 bits, and bits
//! left over.

use crate::make::draft::Draft;
use crate::make::rhythm::Rhythm;
use crate::make::rng::Rng;
use crate::make::streams::left_over;
use crate::reading::MOST_LEFT_OVER;
use crate::stream::Put;
use crate::tables::Tables;

/// Row 12, in Section 6 or 5.
pub fn run_out(rng: &mut Rng, draft: &mut Draft) {
    with_rhythm(draft, |rhythm, _| {
        let lead = rng.below(rhythm.leads.len());
        if rng.one_in(4) {
            let more = rng.within(1..=20);
            let samples = &mut rhythm.leads[lead].samples;
            samples.resize((samples.len() + more).min(65_536), 0);
            return;
        }
        let stream = any_stream(rng, rhythm, lead);
        match rng.below(4) {
            0 => stream.clear(),
            1 => stream.truncate(rng.below(stream.len().max(1))),
            // of a padded one the first byte cut is no loss
            2 => stream.truncate(stream.len().saturating_sub(rng.within(1..=2))),
            _ => stream.fill_with(|| rng.byte()),
        }
    });
    draft.renew(rng);
}

/// Row 14, in Section 6 or 5: fewer samples than the stream has, or one to three bytes more than it
/// had. One alone is allowed where the stream is not padded, so that both sides of the bound are met.
pub fn leave_over(rng: &mut Rng, draft: &mut Draft) {
    with_rhythm(draft, |rhythm, tables| {
        let lead = rng.below(rhythm.leads.len());
        if rng.one_in(3) && drop_samples(rng, rhythm, tables, lead) {
            return;
        }
        let more = rng.bytes_within(1..=3);
        let stream = any_stream(rng, rhythm, lead);
        if stream.len() + more.len() <= 65_535 {
            stream.extend(more);
        }
    });
    draft.renew(rng);
}

/// Takes just so many samples from a lead's end that too many bits are left over, now and then one
/// fewer; whether it has so many.
fn drop_samples(rng: &mut Rng, rhythm: &mut Rhythm, tables: Option<&Tables>, lead: usize) -> bool {
    let stream = &rhythm.streams[lead];
    let samples = &mut rhythm.leads[lead].samples;
    let leaves_too_many = |count: &usize| {
        let left = left_over(stream, tables, *count);
        left.is_some_and(|left| left > MOST_LEFT_OVER)
    };
    let most = (1..samples.len()).rev().find(leaves_too_many);
    if let Some(most) = most {
        samples.truncate(most + usize::from(rng.one_in(3)));
    }
    most.is_some()
}

/// Row 13: in a residual, a beat or a sum. By tables of its own a record may get other streams than
/// meant.
pub fn overflow(rng: &mut Rng, draft: &mut Draft) {
    with_rhythm(draft, |rhythm, tables| match rhythm.beat {
        Some(_) if rng.coin() => overflow_sum(rng, rhythm, tables),
        _ => overflow_stream(rng, rhythm, tables),
    });
    draft.renew(rng);
}

fn with_rhythm(draft: &mut Draft, change: impl FnOnce(&mut Rhythm, Option<&Tables>)) {
    if let Some(rhythm) = &mut draft.rhythm {
        change(rhythm, draft.tables.as_ref());
    }
}

/// The lead's stream in Section 6 or, at times, in Section 5.
fn any_stream<'a>(rng: &mut Rng, rhythm: &'a mut Rhythm, lead: usize) -> &'a mut Vec<u8> {
    match &mut rhythm.beat {
        Some(beat) if rng.coin() => &mut beat.streams[lead],
        _ => &mut rhythm.streams[lead],
    }
}

/// The code of each value in the first table that can be found, or two bytes; all values have 16
/// bits.
fn coded(tables: Option<&Tables>, values: &[i32]) -> Vec<u8> {
    let Some(tables) = tables else {
        return values
            .iter()
            .flat_map(|&value| (value as i16).to_le_bytes())
            .collect();
    };
    let mut put = Put::default();
    for &value in values {
        if let Some(code) = tables[0].iter().find(|code| code.gives(value)) {
            put.code(code, value);
        }
    }
    put.bytes()
}

/// Values that reach a limit of 16 bits and then go one or more beyond it.
fn overflowing(rng: &mut Rng, order: u8, count: usize) -> Vec<i32> {
    let end: i32 = rng.pick(&[32_767, -32_768]);
    let near = end - end.signum() * rng.small(3) as i32;
    let over = end.signum() * (1 + rng.small(8) as i32) + end - near;
    let start = match order {
        2 => vec![near, near],
        _ => vec![near],
    };
    let mut values = start;
    let calm = rng.small(count.saturating_sub(values.len() + 1));
    values.extend(vec![0; calm]);
    values.push(over);
    values.resize(count.max(values.len()), 0);
    values
}

fn overflow_stream(rng: &mut Rng, rhythm: &mut Rhythm, tables: Option<&Tables>) {
    let lead = rng.below(rhythm.leads.len());
    let beat_count = rhythm
        .beat
        .as_ref()
        .map_or(0, |beat| beat.samples[lead].len());
    match &mut rhythm.beat {
        Some(beat) if beat_count > 3 && beat_count < 1000 && rng.coin() => {
            beat.order = rng.within(1..=2) as u8;
            let values = overflowing(rng, beat.order, beat_count);
            beat.streams[lead] = coded(tables, &values);
        }
        _ => {
            rhythm.order = rng.within(1..=2) as u8;
            let made = &mut rhythm.leads[lead];
            made.first = made.first.min(1000);
            let values = overflowing(rng, rhythm.order, made.samples.len().clamp(4, 5000));
            made.samples = vec![0; values.len()];
            rhythm.streams[lead] = coded(tables, &values);
        }
    }
}

/// A residual in plain values that is 0 but for one sample of a zone, which the beat takes over an
/// end of 16 bits.
fn overflow_sum(rng: &mut Rng, rhythm: &mut Rhythm, tables: Option<&Tables>) {
    let lead = rng.below(rhythm.leads.len());
    let Some(beat) = &rhythm.beat else { return };
    let made = &rhythm.leads[lead];
    let count = made.samples.len().min(5000);
    let added = beat.added(lead, made.first, count);
    let places: Vec<usize> = (0..count).filter(|&place| added[place] != 0).collect();
    if places.is_empty() {
        return;
    }
    let place = rng.pick(&places);
    let by = i32::from(added[place]);
    let over = if by > 0 { 32_768 } else { -32_769 };
    let mut values = vec![0; count];
    values[place] = over - by;
    rhythm.order = 0;
    rhythm.leads[lead].samples.truncate(count);
    rhythm.streams[lead] = coded(tables, &values);
}

#[cfg(test)]
mod tests {
    use super::leave_over;
    use crate::make::draft::{Coding, Draft, Holds, Wish};
    use crate::make::rng::Rng;
    use crate::make::streams::left_over;
    use crate::reading::MOST_LEFT_OVER;

    /// The bits left over of each stream of Sections 5 and 6.
    fn all_left_over(draft: &Draft) -> Vec<usize> {
        let Some(rhythm) = &draft.rhythm else {
            return Vec::new();
        };
        let residuals = rhythm.leads.iter().map(|lead| lead.samples.len());
        let residuals = residuals.zip(&rhythm.streams);
        let beats = rhythm.beat.iter().flat_map(|beat| {
            let counts = beat.samples.iter().map(Vec::len);
            counts.zip(&beat.streams)
        });
        let left = |(count, stream): (usize, &Vec<u8>)| {
            left_over(stream, draft.tables.as_ref(), count).expect("it has its samples")
        };
        residuals.chain(beats).map(left).collect()
    }

    #[test]
    fn both_sides_of_the_bound_are_met() {
        for (coding, most) in [
            (Coding::TwoBytes, 8),
            (Coding::Default, MOST_LEFT_OVER),
            (Coding::Own, MOST_LEFT_OVER),
        ] {
            let (mut allowed, mut refused) = (0, 0);
            for seed in 0..600 {
                let rng = &mut Rng::new(seed);
                let wish = Wish {
                    coding: Some(coding),
                    holds: Some(rng.pick(&[Holds::Leads, Holds::Beat])),
                };
                let mut draft = Draft::new(rng, wish);
                leave_over(rng, &mut draft);
                let left = all_left_over(&draft);
                allowed += left.iter().filter(|&&left| left == most).count();
                let over = |&&left: &&usize| left == MOST_LEFT_OVER + 1;
                refused += left.iter().filter(over).count();
            }
            println!("{coding:?}: {most} bits left {allowed} times, one too many {refused} times");
            assert!(allowed > 10 && refused > 10, "{coding:?}");
        }
    }
}
