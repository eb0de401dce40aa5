//! How the index grows: building one of more and more entries, and working with each.

use std::hint::black_box;

use judge::make::Rng;

use crate::index::{self, grouped};
use crate::measure::{shown, Table};
use crate::{memory, plain};

/// The numbers of entries, as far as they are below the largest.
const SIZES: [usize; 5] = [10_000, 30_000, 100_000, 300_000, 1_000_000];

/// What is done with an index of each size.
pub const WORKS: [&str; 4] = ["built", "1,000 merged in", "one added", "one looked up"];

/// What was measured of an index.
pub struct Grown {
    pub entries: usize,
    /// How long the library takes for each of [`WORKS`].
    pub seconds: [f64; WORKS.len()],
    bytes: usize,
    /// The most bytes that building it allocates at once, the index among them and the arrivals not: the library's side, and the
    /// plain one.
    peaks: [usize; 2],
}

/// All lines, with indexes of up to this many entries; and then a table of the time for each entry, and of the memory.
pub fn all(table: &mut Table, largest: usize) -> Vec<Grown> {
    let below = SIZES.into_iter().filter(|&size| size < largest);
    let all = below.chain([largest]).map(|size| grown(table, size));
    let all: Vec<Grown> = all.collect();
    show_each_entry(&all);
    all
}

/// An index of this many entries: it is built from entries in a random order, and then worked with.
fn grown(table: &mut Table, entries: usize) -> Grown {
    let arrivals = arrivals(entries);
    let one_by_one = || arrivals.chunks_exact(arrivals.len() / entries);
    let by_library = || merged_runs(black_box(one_by_one()));
    let by_plain = || plain::index_sorted(black_box(one_by_one()));
    let index = by_library();
    assert!(by_plain().as_ref() == Some(&index));
    let name = format!("index of {} entries, build it", grouped(entries));
    let built = index::line(table, &name, entries, by_library, by_plain);
    let [merged, added, found] = index::worked_with(table, &index, entries);
    Grown {
        entries,
        seconds: [built, merged, added, found],
        bytes: index.len(),
        peaks: [memory::peak_of(by_library), memory::peak_of(by_plain)],
    }
}

/// The bytes of this many entries in the order in which they arrive: a random one, always the same.
fn arrivals(entries: usize) -> Vec<u8> {
    let mut places: Vec<usize> = (0..entries).collect();
    let mut rng = Rng::new(1);
    for last in (1..entries).rev() {
        places.swap(last, rng.below(last + 1));
    }
    places.into_iter().flat_map(index::made).collect()
}

/// The index of entries in the order in which they arrive. Each is an index of its own, and the last two indexes are merged
/// while the earlier one is not larger: so each entry is merged about as often as in a merge sort.
fn merged_runs<'a>(arrivals: impl Iterator<Item = &'a [u8]>) -> Vec<u8> {
    let mut runs: Vec<Vec<u8>> = Vec::new();
    for arrival in arrivals {
        let mut run = arrival.to_vec();
        while runs.last().is_some_and(|last| last.len() <= run.len()) {
            let earlier = runs.pop().unwrap_or_default();
            run = merged(&earlier, &run);
        }
        runs.push(run);
    }
    let later_first = runs.into_iter().rev();
    let all = later_first.reduce(|later, earlier| merged(&earlier, &later));
    all.unwrap_or_default()
}

/// The index of two.
fn merged(earlier: &[u8], later: &[u8]) -> Vec<u8> {
    let mut both = vec![0; earlier.len() + later.len()];
    let used = scp::index_merge(earlier, later, &mut both);
    assert_eq!(used, Ok(both.len()));
    both
}

/// Shows the time of each work divided by the entries, the size of the index, and the peaks of the memory.
fn show_each_entry(all: &[Grown]) {
    println!(
        "\n{:<28}{:>11}{:>11}{:>11}{:>11}{:>12}{:>11}{:>12}",
        "time per entry; memory",
        "built",
        "merged",
        "added",
        "looked up",
        "index size",
        "peak",
        "plain peak"
    );
    for grown in all {
        let name = format!("index of {} entries", grouped(grown.entries));
        let [built, merged, added, found] = grown.seconds.map(|s| shown(s / grown.entries as f64));
        let [library, plain] = grown.peaks.map(megabytes);
        let bytes = megabytes(grown.bytes);
        println!("{name:<28}{built:>11}{merged:>11}{added:>11}{found:>11}{bytes:>12}{library:>11}{plain:>12}");
    }
}

fn megabytes(bytes: usize) -> String {
    format!("{:.2} MB", bytes as f64 / 1e6)
}
