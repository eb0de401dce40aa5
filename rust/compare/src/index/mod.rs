//! The index, held against the judge's: records added one by one, with room of every kind of length; identifiers looked up;
//! entries at any place; bytes that are no index (02, Q-13); and indexes merged.

pub mod edges;
pub mod merging;

use judge::make::{self, Rng};
use judge::{IndexEntry, IndexStep};
use scp::{raw, Refusal};

use crate::answers::{hold, number, same, Difference};
use crate::calls::part;
use crate::lent::Lent;
use crate::tally::{Call, Put, Tally};

/// The bytes of an entry before its identifier.
pub const HEAD: usize = 5;
/// Steps that are taken at places of any kind.
const STEPS: usize = 12;
/// Room beyond what is in use, at most.
const BEHIND: usize = 200;

/// The bytes of an entry, by the numbers before its identifier: its length, year, month, day, leads, and the bit that is 0.
/// They need not be by the rules.
pub fn entry(numbers: [u64; 6], identifier: &[u8]) -> Vec<u8> {
    let widths = [6, 16, 4, 5, 8, 1];
    let mut head = 0_u64;
    for (number, width) in numbers.into_iter().zip(widths) {
        head = head << width | number;
    }
    [&head.to_be_bytes()[8 - HEAD..], identifier].concat()
}

/// Makes the calls on a record, as it is and with a date that an entry can have: with a sound index and with bytes that are
/// mostly none. The bytes of the record are looked at as an index, too.
pub fn compare(record: &[u8], rng: &mut Rng, tally: &mut Tally) -> Result<(), Difference> {
    let sound = make::index(rng);
    let used = sound.len();
    let broken = make::broken_index(rng);
    let dated = make::dated(rng, record.to_vec());
    let dated = Lent::new(&dated, rng);
    for record in [record, dated.lent()] {
        let room = used + rng.below(scp::ENTRY_MAX + 8);
        add(&resized(&sound, room, rng), used, record, rng, tally)?;
        add(&broken.bytes, broken.used, record, rng, tally)?;
    }
    wrapper(
        &resized(&sound, used + scp::ENTRY_MAX, rng),
        used,
        dated.lent(),
    )?;
    wrapper(&broken.bytes, broken.used, dated.lent())?;
    match rng.coin() {
        true => look(&sound, used, rng, tally)?,
        false => look(&broken.bytes, broken.used, rng, tally)?,
    }
    step_about(record, record.len().min(BEHIND), rng, tally)?;
    hold(
        dated.is_untouched(),
        "scp_index_add: the record was changed",
    )
}

/// The bytes of an index, those in use or more, with others behind them so that they are this many; or cut to this many.
fn resized(index: &[u8], room: usize, rng: &mut Rng) -> Vec<u8> {
    let mut bytes = index.to_vec();
    bytes.truncate(room);
    let more = room - bytes.len();
    bytes.extend(rng.bytes(more));
    bytes
}

/// The bytes of a record's entry; 0 if it has none.
fn size(record: &[u8]) -> usize {
    judge::index_entry(record).map_or(0, |entry| HEAD + entry.identifier.len())
}

/// Adds a record to an index, with guards around it, and compares the answer and every byte of the index with the judge's. The
/// bytes in use then, if it was not refused.
pub fn add(
    index: &[u8],
    used: usize,
    record: &[u8],
    rng: &mut Rng,
    tally: &mut Tally,
) -> Result<Option<Vec<u8>>, Difference> {
    let judged = judge::index_add(index, used, record);
    by_library(index, used, record, &judged, rng)?;
    tally.answer(Call::IndexAdd, number(&judged));
    Ok(judged.ok())
}

/// Has the library add a record, with guards around the index, and compares what comes back with what is expected: the answer,
/// the bytes in use, and all other bytes as they were.
pub fn by_library(
    index: &[u8],
    used: usize,
    record: &[u8],
    expected: &Result<Vec<u8>, u8>,
    rng: &mut Rng,
) -> Result<(), Difference> {
    let mut lent = Lent::new(index, rng);
    let answer = raw::index_add(lent.lent_to_change(), used, record);
    let bytes = expected.as_deref().unwrap_or(&[]);
    let right = raw::ScpIndexed {
        refusal: number(expected),
        used: bytes.len(),
    };
    let call = format!("scp_index_add, {} bytes, {used} in use", index.len());
    same(&call, answer, right)?;
    let words = format!("{call}: the index differs, or other bytes were changed");
    hold(lent.holds(bytes), &words)
}

/// Looks up identifiers in an index that is lent, and steps over its entries and to other places. All of it must come back as
/// it was.
pub fn look(index: &[u8], used: usize, rng: &mut Rng, tally: &mut Tally) -> Result<(), Difference> {
    let lent = Lent::new(index, rng);
    let index = lent.lent();
    for identifier in identifiers(index, rng) {
        let identifier = Lent::new(&identifier, rng);
        find(index, used, identifier.lent(), tally)?;
        hold(
            identifier.is_untouched(),
            "scp_index_find: the identifier was changed",
        )?;
    }
    step_about(index, used, rng, tally)?;
    hold(lent.is_untouched(), "the index was changed by looking")
}

/// Steps over the entries that any bytes begin with, and to this place and others.
fn step_about(
    index: &[u8],
    place: usize,
    rng: &mut Rng,
    tally: &mut Tally,
) -> Result<(), Difference> {
    let mut at = 0;
    while let Some(shown) = step(index, at, tally)? {
        at = shown.next;
    }
    for place in [place, index.len(), usize::MAX, usize::MAX - HEAD + 1] {
        step(index, place, tally)?;
    }
    for _ in 0..STEPS {
        step(index, rng.below(index.len() + 4), tally)?;
    }
    steps_of_wrapper(index)
}

/// Identifiers to look up: one that is there and others close to it, some that can never be there, and 007.
fn identifiers(index: &[u8], rng: &mut Rng) -> Vec<Vec<u8>> {
    let there: Vec<_> = steps(index).collect();
    let one = match there.len() {
        0 => rng.bytes_within(0..=64),
        count => there[rng.below(count)].entry.identifier.to_vec(),
    };
    let end = one.len().saturating_sub(1);
    let mut changed = one.clone();
    if !changed.is_empty() {
        changed[end] = rng.other_byte(changed[end]);
    }
    let longer = [&one[..], &[rng.byte()]].concat();
    let with_nul = [&one[..], &[0]].concat();
    let begun = one[..end].to_vec();
    let never = vec![b'7'; rng.pick(&[64, 65, 127, 128, 319])];
    let mut all = vec![one, begun, longer, with_nul, changed, never];
    all.extend([vec![], b"007".to_vec(), b"7".to_vec()]);
    all
}

/// One lookup.
pub fn find(
    index: &[u8],
    used: usize,
    identifier: &[u8],
    tally: &mut Tally,
) -> Result<(), Difference> {
    let judged = judge::index_find(index, used, identifier);
    // SAFETY: both are lent for the call, which only reads them.
    let found = unsafe {
        raw::scp_index_find(
            index.as_ptr(),
            index.len(),
            used,
            identifier.as_ptr(),
            identifier.len(),
        )
    };
    let call = format!("scp_index_find, {used} bytes in use, {identifier:?}");
    same(&call, found, part(&judged))?;
    let safe = scp::index_find(index, used, identifier).map_err(Refusal::number);
    let place = safe.map(|part| {
        let start = part.as_ptr() as usize - index.as_ptr() as usize;
        start..start + part.len()
    });
    same("index_find", &place, &judged)?;
    match judged {
        Ok(part) if part.is_empty() => tally.answer(Call::IndexFindNothing, 0),
        judged => tally.answer(Call::IndexFind, number(&judged)),
    }
    Ok(())
}

/// One step. Where no entry is shown the place stays.
pub fn step<'a>(
    index: &'a [u8],
    at: usize,
    tally: &mut Tally,
) -> Result<Option<IndexStep<'a>>, Difference> {
    let judged = judge::index_step(index, at);
    // SAFETY: `index` is lent for the call, which only reads it.
    let shown = unsafe { raw::scp_index_step(index.as_ptr(), index.len(), at) };
    let none = raw::ScpIndexEntry {
        next: at,
        ..Default::default()
    };
    let expected = judged.map_or(none, |step| raw::ScpIndexEntry {
        more: 1,
        month: step.entry.month,
        day: step.entry.day,
        leads: step.entry.leads,
        year: step.entry.year,
        start: step.start,
        length: step.entry.identifier.len(),
        next: step.next,
    });
    same(&format!("scp_index_step at {at}"), shown, expected)?;
    let call = match judged {
        Some(_) => Call::IndexStep,
        None => Call::IndexStepNone,
    };
    tally.answer(call, 0);
    Ok(judged)
}

/// The judge's steps over the entries of an index.
pub fn steps(index: &[u8]) -> impl Iterator<Item = IndexStep<'_>> {
    let first = judge::index_step(index, 0);
    std::iter::successors(first, |step| judge::index_step(index, step.next))
}

/// The safe wrapper shows the entries that the judge does.
fn steps_of_wrapper(index: &[u8]) -> Result<(), Difference> {
    let judged: Vec<_> = steps(index)
        .map(|step| scp::IndexEntry {
            identifier: step.start..step.next,
            year: step.entry.year,
            month: step.entry.month,
            day: step.entry.day,
            leads: step.entry.leads,
        })
        .collect();
    let shown: Vec<_> = scp::index_entries(index).collect();
    same("index_entries", &shown, &judged)?;
    same(
        "index_step",
        scp::index_step(index, 0).as_ref(),
        judged.first(),
    )?;
    let ends = shown.iter().map(scp::IndexEntry::next);
    hold(
        ends.eq(steps(index).map(|step| step.next)),
        "next: not where the judge's next entry is",
    )
}

/// The safe wrapper adds what the judge does.
fn wrapper(index: &[u8], used: usize, record: &[u8]) -> Result<(), Difference> {
    let judged = judge::index_add(index, used, record);
    let mut bytes = index.to_vec();
    let added = scp::index_add(&mut bytes, used, record).map_err(Refusal::number);
    same("index_add", number(&added), number(&judged))?;
    let in_use = judged.unwrap_or_default();
    same("index_add", added.unwrap_or(0), in_use.len())?;
    hold(
        bytes.starts_with(&in_use) && bytes[in_use.len()..] == index[in_use.len()..],
        "index_add: not the judge's index",
    )
}

/// Adds records one by one as they arrive, each with just enough room, with one byte too little and with more; looks at what
/// has come of it; and asks that it is the index that is built afresh from all of them, and the one that is made of runs of
/// them. The safe wrapper adds them to one buffer, of which the bytes that are never in use stay as they were.
pub fn build(records: &[Vec<u8>], rng: &mut Rng, tally: &mut Tally) -> Result<(), Difference> {
    let buffer = rng.bytes(records.len() * scp::ENTRY_MAX + BEHIND);
    let (mut kept, mut kept_used) = (Lent::new(&buffer, rng), 0);
    let mut index = Vec::new();
    for (arrived, record) in records.iter().enumerate() {
        let record = Lent::new(record, rng);
        index = add_with_every_room(index, record.lent(), rng, tally)
            .map_err(|difference| format!("record {arrived}: {difference}"))?;
        if let Ok(used) = scp::index_add(kept.lent_to_change(), kept_used, record.lent()) {
            kept_used = used;
        }
        hold(
            record.is_untouched(),
            "scp_index_add: the record was changed",
        )?;
    }
    let afresh = judge::built_index(records.iter().map(Vec::as_slice));
    same("bytes in use", kept_used, afresh.len())?;
    let is_afresh = index == afresh && kept.holds(&afresh);
    hold(is_afresh, "one by one: not the index that is built afresh")?;
    tally.built.indexes += 1;

    let used = index.len();
    let behind = rng.small(BEHIND);
    look(&resized(&index, used + behind, rng), used, rng, tally)?;
    for identifier in steps(&index).map(|step| step.entry.identifier) {
        find(&index, used, identifier, tally)?;
    }
    let broken = make::broken_index(rng);
    look(&broken.bytes, broken.used, rng, tally)?;
    merging::in_runs(records, &index, rng, tally)
}

/// Adds a record to an index, all of which is in use, with room of every kind of length: the index with the record in it, or as
/// it was if the record is refused.
fn add_with_every_room(
    index: Vec<u8>,
    record: &[u8],
    rng: &mut Rng,
    tally: &mut Tally,
) -> Result<Vec<u8>, Difference> {
    let used = index.len();
    let enough = used + size(record);
    for room in [enough, enough.saturating_sub(1)] {
        add(&resized(&index, room, rng), used, record, rng, tally)?;
    }
    let room = enough + 1 + rng.small(BEHIND);
    let added = add(&resized(&index, room, rng), used, record, rng, tally)?;
    if let Ok(entry) = judge::index_entry(record) {
        put(&index, entry, &mut tally.built.put);
    }
    Ok(added.unwrap_or(index))
}

/// Counts an entry that is put into an index, and where it goes.
fn put(index: &[u8], new: IndexEntry, counts: &mut Put) {
    let key = |entry: &IndexEntry| (entry.year, entry.month, entry.day);
    let there = || steps(index).map(|step| step.entry);
    let is_before =
        |other: &IndexEntry| (new.identifier, key(&new)) < (other.identifier, key(other));
    let is_equal = |other: &IndexEntry| {
        new.identifier == other.identifier && key(&new) == key(other) && new.leads != other.leads
    };
    let begins = |other: &IndexEntry| {
        let (one, other) = (new.identifier, other.identifier);
        one != other && (one.starts_with(other) || other.starts_with(one))
    };
    counts.entries += 1;
    counts.before += u64::from(there().any(|other| is_before(&other)));
    counts.behind_equal += u64::from(there().any(|other| is_equal(&other)));
    counts.begun += u64::from(there().any(|other| begins(&other)));
}
