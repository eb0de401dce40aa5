//! An index of many records, made as a merge sort makes a sorted list: each record is a run of one by itself, and runs are
//! merged into longer ones.
//!
//! Only neighbours are merged, the earlier one first, so that equal entries stay in the order of arrival. The index then has
//! the bytes that adding the records one by one gives, whichever neighbours are merged when: that is proved of the library.

use scp::{Refusal, ENTRY_MAX};

/// The index of some records that arrived one after the other.
pub struct Run {
    index: Vec<u8>,
    records: usize,
}

impl Run {
    /// The run of one record, if the library does not refuse it.
    pub fn of(record: &[u8]) -> Result<Run, Refusal> {
        let mut index = vec![0; ENTRY_MAX];
        let used = scp::index_add(&mut index, 0, record)?;
        index.truncate(used);
        Ok(Run { index, records: 1 })
    }

    /// The run of an index, whose records arrived one after the other.
    pub fn of_index(index: Vec<u8>) -> Run {
        let records = scp::index_entries(&index).count();
        Run { index, records }
    }

    /// This run and the one that arrived after it, in one.
    fn with(&self, later: &Run) -> Run {
        Run {
            index: merged(&self.index, &later.index),
            records: self.records + later.records,
        }
    }
}

/// The runs of all records that arrived so far, in the order of arrival. Each has more records than the one after it.
#[derive(Default)]
pub struct Runs(Vec<Run>);

impl Runs {
    /// Takes the run that arrived next. The last two are merged while the earlier one has no more records than the later one.
    /// Of runs of one record each, these two are equally long: so n records are merged in time n log n.
    pub fn push(&mut self, run: Run) {
        self.0.push(run);
        while let [.., earlier, later] = &self.0[..] {
            if earlier.records > later.records {
                break;
            }
            let both = earlier.with(later);
            self.0.truncate(self.0.len() - 2);
            self.0.push(both);
        }
    }

    /// An index with all of these records added to it. Short runs are merged first.
    pub fn added_to(&self, index: &[u8]) -> Vec<u8> {
        let runs = self.0.iter().rev();
        let all = runs.fold(Vec::new(), |later, run| merged(&run.index, &later));
        merged(index, &all)
    }
}

/// The index of two, of which the second one arrived later.
fn merged(earlier: &[u8], later: &[u8]) -> Vec<u8> {
    let mut both = vec![0; earlier.len() + later.len()];
    let used = scp::index_merge(earlier, later, &mut both);
    both.truncate(used.expect("both are indexes, and there is room for them"));
    both
}

#[cfg(test)]
mod tests {
    use super::{Run, Runs};

    /// More than 256, and no power of 2.
    const RECORDS: usize = 300;

    /// Where the identifier of an entry starts.
    const IDENTIFIER: usize = 5;

    /// The entry of one of seven patients, 14 March 2024. Equal ones differ in their leads, which are no part of the order.
    fn entry(number: usize) -> Vec<u8> {
        let (patient, leads) = ((number * 5 % 7) as u8, (number % 33) as u8);
        vec![0x04, 0x1F, 0xA0, 0xDC, leads << 1, b'0' + patient]
    }

    /// The index of these entries: sorted by identifier, equal ones in order of arrival.
    fn index(entries: &[Vec<u8>]) -> Vec<u8> {
        let mut entries = entries.to_vec();
        entries.sort_by_key(|entry| entry[IDENTIFIER]);
        entries.concat()
    }

    /// However many entries there are, and however many of them are in the index before.
    #[test]
    fn equal_entries_stay_in_order_of_arrival() {
        let entries: Vec<Vec<u8>> = (0..RECORDS).map(entry).collect();
        for old in [0, 1, 100] {
            let (before, arriving) = entries.split_at(old);
            let mut runs = Runs::default();
            assert_eq!(runs.added_to(&index(before)), index(before));
            for (number, entry) in arriving.iter().enumerate() {
                runs.push(Run::of_index(entry.clone()));
                let all = index(&entries[..=old + number]);
                assert_eq!(runs.added_to(&index(before)), all, "{old}, {number}");
            }
        }
    }

    /// Two runs of as many records never wait: there is one for each binary digit 1 of the number of records.
    #[test]
    fn few_runs_wait() {
        let mut runs = Runs::default();
        for number in 1..=RECORDS {
            runs.push(Run::of_index(entry(number)));
            let records: Vec<usize> = runs.0.iter().map(|run| run.records).collect();
            let digits = (0..usize::BITS).rev().map(|place| 1 << place);
            let wanted: Vec<usize> = digits.filter(|digit| number & digit != 0).collect();
            assert_eq!(records, wanted);
        }
    }
}
