//! Each call of the library on an input, held against the judge's.

use std::ops::Range;

use judge::make::Rng;
use scp::{raw, Refusal};

use crate::answers::{hold, number, same, Difference};
use crate::index;
use crate::leads;
use crate::lent::{Lent, Room};
use crate::tally::{Call, Tally};

/// Steps of the walk that are taken at places of any kind.
const STEPS: usize = 12;
/// Lookups of fields that are in an accepted record.
const LOOKUPS: usize = 4;

/// Makes every call on an input, by the library and by the judge.
pub fn compare(input: &[u8], rng: &mut Rng, tally: &mut Tally) -> Result<(), Difference> {
    let lent = Lent::new(input, rng);
    let record = lent.lent();
    open(record, rng, tally)?;
    walk(record, rng, tally)?;
    fields(record, rng, tally)?;
    identifiers(record, rng, tally)?;
    crc(record, rng, tally)?;
    leads::compare(record, rng, tally)?;
    wrapper(record)?;
    // with numbers of its own, so that what is made after it does not depend on it
    index::compare(record, &mut rng.clone(), tally)?;
    hold(lent.is_untouched(), "lent bytes were changed")
}

/// Opening, with guards around the room for its numbers.
fn open(record: &[u8], rng: &mut Rng, tally: &mut Tally) -> Result<(), Difference> {
    let judged = judge::open(record);
    let number = number(&judged);
    let pointers = judged.unwrap_or_default();
    let numbers: Vec<u32> = pointers
        .iter()
        .flat_map(|pointer| [pointer.id.into(), pointer.length, pointer.index])
        .collect();
    let mut room = Room::new(rng);
    // SAFETY: `record` is lent for the call, which only reads it; the place has the room that the call asks for.
    let opened = unsafe { raw::scp_open(record.as_ptr(), record.len(), room.place()) };
    let expected = raw::ScpOpened {
        refusal: number,
        count: pointers.len() as u32,
    };
    same("scp_open", opened, expected)?;
    hold(
        room.holds(&numbers),
        "scp_open: the numbers differ, or others were changed",
    )?;
    tally.answer(Call::Open, number);
    Ok(())
}

/// The walk: its start, all steps from there, and steps at any place of any bytes.
fn walk(record: &[u8], rng: &mut Rng, tally: &mut Tally) -> Result<(), Difference> {
    let judged = judge::walk_start(record);
    // SAFETY: `record` is lent for the call, which only reads it.
    let start = unsafe { raw::scp_walk_start(record.as_ptr(), record.len()) };
    same("scp_walk_start", start, part(&judged))?;
    tally.answer(Call::WalkStart, number(&judged));

    let section = judged.unwrap_or_else(|_| some_part(record, rng));
    let section = &record[section];
    let mut at = scp::FIRST_FIELD;
    while let Some(shown) = step(section, at, tally)? {
        at = shown.next;
    }
    for place in [
        0,
        1,
        section.len(),
        usize::MAX,
        usize::MAX - 1,
        usize::MAX - 2,
    ] {
        step(section, place, tally)?;
    }
    for _ in 0..STEPS {
        step(section, rng.below(section.len() + 4), tally)?;
    }
    Ok(())
}

/// One step of the walk. At the end nothing is shown, and the place stays.
fn step(section: &[u8], at: usize, tally: &mut Tally) -> Result<Option<judge::Step>, Difference> {
    let judged = judge::walk_step(section, at);
    // SAFETY: `section` is lent for the call, which only reads it.
    let step = unsafe { raw::scp_walk_step(section.as_ptr(), section.len(), at) };
    let expected = raw::ScpStep {
        more: judged.is_some().into(),
        tag: judged.map_or(0, |step| step.tag),
        start: judged.map_or(0, |step| step.start),
        length: judged.map_or(0, |step| step.length),
        next: judged.map_or(at, |step| step.next),
    };
    same("scp_walk_step", step, expected)?;
    tally.answer(Call::WalkStep, 0);
    Ok(judged)
}

/// Lookups: what is in the record, what is not, and what cannot be.
fn fields(record: &[u8], rng: &mut Rng, tally: &mut Tally) -> Result<(), Difference> {
    field(record, 2, 1, tally)?;
    field(record, rng.byte(), rng.below(4), tally)?;
    let Ok(section) = judge::walk_start(record) else {
        return Ok(());
    };
    for occurrence in [0, 2, usize::MAX] {
        field(record, 2, occurrence, tally)?;
        field(record, 255, occurrence, tally)?;
    }
    field(record, 255, 1, tally)?;
    let tags: Vec<u8> = steps(&record[section]).map(|step| step.tag).collect();
    for _ in 0..LOOKUPS {
        let tag = rng.pick(&tags);
        let count = tags.iter().filter(|&&other| other == tag).count();
        field(record, tag, rng.below(count + 2), tally)?;
    }
    Ok(())
}

/// One lookup.
fn field(record: &[u8], tag: u8, occurrence: usize, tally: &mut Tally) -> Result<(), Difference> {
    let judged = judge::field(record, tag, occurrence);
    // SAFETY: `record` is lent for the call, which only reads it.
    let found = unsafe { raw::scp_field(record.as_ptr(), record.len(), tag, occurrence) };
    let call = format!("scp_field, tag {tag}, occurrence {occurrence}");
    same(&call, found, part(&judged))?;
    tally.answer(Call::Field, number(&judged));
    Ok(())
}

/// Identifiers: any two parts, a part and its copy, its beginning, and its copy with one byte changed.
fn identifiers(record: &[u8], rng: &mut Rng, tally: &mut Tally) -> Result<(), Difference> {
    let one = &record[some_part(record, rng)];
    let other = &record[some_part(record, rng)];
    let copy = one.to_vec();
    let begun = &one[..rng.below(one.len() + 1)];
    let mut changed = one.to_vec();
    if !changed.is_empty() {
        let at = rng.below(changed.len());
        changed[at] = rng.other_byte(changed[at]);
    }
    for other in [other, &copy, begun, &changed, &[]] {
        identifier(one, other, tally)?;
        identifier(other, one, tally)?;
    }
    identifier(&[], &[], tally)
}

/// One comparison of identifiers.
fn identifier(a: &[u8], b: &[u8], tally: &mut Tally) -> Result<(), Difference> {
    // SAFETY: both are lent for the call, which only reads them.
    let answer = unsafe { raw::scp_same_identifier(a.as_ptr(), a.len(), b.as_ptr(), b.len()) };
    same(
        "scp_same_identifier",
        answer,
        judge::same_identifier(a, b).into(),
    )?;
    tally.answer(Call::SameIdentifier, 0);
    Ok(())
}

/// The check, of all and of a part.
fn crc(record: &[u8], rng: &mut Rng, tally: &mut Tally) -> Result<(), Difference> {
    for bytes in [record, &record[some_part(record, rng)], &[]] {
        // SAFETY: `bytes` is lent for the call, which only reads it.
        let answer = unsafe { raw::scp_crc(bytes.as_ptr(), bytes.len()) };
        same("scp_crc", answer, judge::crc(bytes))?;
        tally.answer(Call::Crc, 0);
    }
    Ok(())
}

/// The safe wrapper says the same as the calls below it.
fn wrapper(record: &[u8]) -> Result<(), Difference> {
    let stored = scp::open(record).map_err(Refusal::number);
    let judged = judge::open(record);
    same("open", number(&stored), number(&judged))?;
    let (stored, judged) = (stored.unwrap_or_default(), judged.unwrap_or_default());
    same("open", stored.len(), judged.len())?;
    for (stored, judged) in stored.iter().zip(&judged) {
        let both = (judged.id, judged.length, judged.index);
        same("open", (stored.id, stored.length, stored.index), both)?;
    }

    let found = scp::field(record, 2, 1).map_err(Refusal::number);
    same("field", found, judge::field(record, 2, 1))?;
    let section = judge::walk_start(record);
    let start = scp::walk_start(record).map_err(Refusal::number);
    same("walk_start", &start, &section)?;

    let shown: Vec<_> = scp::fields(record).map_or_else(|_| Vec::new(), Iterator::collect);
    let section = section.unwrap_or(0..0);
    let judged: Vec<_> = steps(&record[section.clone()])
        .map(|step| scp::Field {
            tag: step.tag,
            range: section.start + step.start..section.start + step.next,
        })
        .collect();
    hold(shown == judged, "fields: not those of the judge's walk")?;
    same(
        "same_identifier",
        scp::same_identifier(record, record),
        true,
    )?;
    same("crc", scp::crc(record), judge::crc(record))
}

/// The judge's steps over the fields of a section.
fn steps(section: &[u8]) -> impl Iterator<Item = judge::Step> + '_ {
    let first = judge::walk_step(section, scp::FIRST_FIELD);
    std::iter::successors(first, |step| judge::walk_step(section, step.next))
}

/// Some part of the bytes, short as often as not.
fn some_part(bytes: &[u8], rng: &mut Rng) -> Range<usize> {
    let start = rng.below(bytes.len() + 1);
    let left = bytes.len() - start;
    let most = if rng.coin() { left } else { left.min(64) };
    start..start + rng.below(most + 1)
}

/// The part that the library is to answer: with a refusal all else is 0.
pub fn part(judged: &Result<Range<usize>, u8>) -> raw::ScpPart {
    let range = judged.clone().unwrap_or(0..0);
    raw::ScpPart {
        refusal: number(judged),
        start: range.start,
        length: range.len(),
    }
}
