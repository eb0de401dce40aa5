//! Merging, held against the judge's: pairs of indexes of every kind, sound and broken, with room of every kind of length; and
//! indexes that are made of runs of records, merged in any grouping.

use judge::make::{self, LentIndex, Rng};
use scp::{raw, Refusal};

use super::{put, steps, BEHIND};
use crate::answers::{hold, number, same, Difference};
use crate::lent::{Lent, Space};
use crate::tally::{Call, Tally};

/// An index with this many times the entries of another is much longer.
const MUCH_LONGER: usize = 20;

/// Merges two indexes, with room of every kind of length; and pairs of which one or both are mostly no index, with enough room
/// and with too little.
pub fn compare(rng: &mut Rng, tally: &mut Tally) -> Result<(), Difference> {
    let [a, b] = make::two_indexes(rng);
    let enough = a.len() + b.len();
    let more = enough + 1 + rng.small(BEHIND);
    for room in [enough, more, enough.saturating_sub(1), rng.below(enough)] {
        merge(&a, &b, room, rng, tally)?;
    }
    wrapper(&a, &b, more)?;
    count(&a, &b, tally);

    let [one, other] = [broken(rng), broken(rng)];
    for (a, b) in [(&one, &b), (&a, &one), (&one, &other)] {
        let enough = a.len() + b.len();
        merge(a, b, enough + rng.small(BEHIND), rng, tally)?;
        merge(a, b, rng.below(enough), rng, tally)?;
        wrapper(a, b, enough)?;
    }
    Ok(())
}

/// Bytes that are mostly no index.
fn broken(rng: &mut Rng) -> Vec<u8> {
    let LentIndex { mut bytes, used } = make::broken_index(rng);
    bytes.truncate(used);
    bytes
}

/// Merges two indexes, and compares the answer and every byte that is lent with the judge's. The index of both, if it was not
/// refused.
pub fn merge(
    a: &[u8],
    b: &[u8],
    room: usize,
    rng: &mut Rng,
    tally: &mut Tally,
) -> Result<Option<Vec<u8>>, Difference> {
    let judged = judge::index_merge(a, b, room);
    by_library(a, b, room, &judged, rng)?;
    tally.answer(Call::IndexMerge, number(&judged));
    Ok(judged.ok())
}

/// Has the library merge two indexes, with guards around both and around the output, and compares what comes back with what is
/// expected: the answer, the index in the output, and all other bytes as they were.
pub fn by_library(
    a: &[u8],
    b: &[u8],
    room: usize,
    expected: &Result<Vec<u8>, u8>,
    rng: &mut Rng,
) -> Result<(), Difference> {
    let [a, b] = [a, b].map(|index| Lent::new(index, rng));
    let mut out = Space::new(room, rng);
    let answer = raw::index_merge(a.lent(), b.lent(), out.lent());
    let bytes = expected.as_deref().unwrap_or(&[]);
    let right = raw::ScpIndexed {
        refusal: number(expected),
        used: bytes.len(),
    };
    let lengths = (a.lent().len(), b.lent().len());
    let call = format!("scp_index_merge, {lengths:?} bytes, {room} in the output");
    same(&call, answer, right)?;
    let words = format!("{call}: an index that was lent was changed");
    hold(a.is_untouched() && b.is_untouched(), &words)?;
    let words = format!("{call}: the index differs, or other bytes were changed");
    hold(out.holds(bytes), &words)
}

/// The safe wrapper merges what the judge does.
fn wrapper(a: &[u8], b: &[u8], room: usize) -> Result<(), Difference> {
    let judged = judge::index_merge(a, b, room);
    let mut out = vec![0xEE; room];
    let merged = scp::index_merge(a, b, &mut out).map_err(Refusal::number);
    same("index_merge", number(&merged), number(&judged))?;
    let index = judged.unwrap_or_default();
    same("index_merge", merged.unwrap_or(0), index.len())?;
    let rest = vec![0xEE; room - index.len()];
    let right = [index, rest].concat();
    hold(out == right, "index_merge: not the judge's index")
}

/// Counts two indexes that are merged, and where the entries of the second go among those of the first.
fn count(a: &[u8], b: &[u8], tally: &mut Tally) {
    let [one, other] = [a, b].map(|index| steps(index).count());
    let (fewer, more) = (one.min(other), one.max(other));
    let merged = &mut tally.merged;
    merged.pairs += 1;
    merged.empty += u64::from(fewer == 0);
    merged.longer += u64::from(fewer > 0 && more >= MUCH_LONGER * fewer);
    for step in steps(b) {
        put(a, step.entry, &mut merged.put);
    }
}

/// Cuts records into runs, in their order of arrival, and adds those of each run to an index of its own; merges two neighbours,
/// any two, until there is one; and asks that it is the index to which all were added one by one.
pub fn in_runs(
    records: &[Vec<u8>],
    one_by_one: &[u8],
    rng: &mut Rng,
    tally: &mut Tally,
) -> Result<(), Difference> {
    let (mut indexes, mut left) = (Vec::new(), records);
    while !left.is_empty() {
        // a run may have no records
        let (run, behind) = left.split_at(rng.small(left.len()));
        indexes.push(added(run));
        left = behind;
    }
    let with_entries = indexes.iter().filter(|index| !index.is_empty()).count();
    tally.merged.in_runs += u64::from(with_entries > 1);
    while indexes.len() > 1 {
        let at = rng.below(indexes.len() - 1);
        let behind = indexes.remove(at + 1);
        let room = indexes[at].len() + behind.len();
        let merged = merge(&indexes[at], &behind, room, rng, tally)?;
        indexes[at] = merged.ok_or("in runs: an index of a run is refused")?;
    }
    let index = indexes.pop().unwrap_or_default();
    hold(
        index == one_by_one,
        "in runs: not the index that is built one by one",
    )
}

/// The index of these records, which the library adds one by one; one that is refused has no entry.
fn added(records: &[Vec<u8>]) -> Vec<u8> {
    let mut index = vec![0; records.len() * scp::ENTRY_MAX];
    let used = records.iter().fold(0, |used, record| {
        scp::index_add(&mut index, used, record).unwrap_or(used)
    });
    index.truncate(used);
    index
}
