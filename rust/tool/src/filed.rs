//! An entry of an index, as it is shown: a record by its identifier and its date.

use scp::IndexEntry;

use crate::escape;
use crate::reading::{Reading, RECORDING_DATE};
use crate::text::{counted, parted};

/// An entry, with the bytes of its identifier.
#[derive(Clone, Copy)]
pub struct Filed<'a> {
    pub identifier: &'a [u8],
    pub date: Date,
    /// How many leads the record has, 0 if it has no Section 3.
    pub leads: u8,
}

/// A year, a month and a day. The month need not have that day.
#[derive(Clone, Copy, PartialEq, Eq, PartialOrd, Ord)]
pub struct Date {
    year: u16,
    month: u8,
    day: u8,
}

impl<'a> Filed<'a> {
    /// An entry of an index, or of a part of one.
    pub fn of(index: &'a [u8], entry: &IndexEntry) -> Filed<'a> {
        Filed {
            identifier: &index[entry.identifier.clone()],
            date: Date {
                year: entry.year,
                month: entry.month,
                day: entry.day,
            },
            leads: entry.leads,
        }
    }

    /// All entries of an index, or of a part of one.
    pub fn all(index: &'a [u8]) -> impl Iterator<Item = Filed<'a>> {
        scp::index_entries(index).map(|entry| Filed::of(index, &entry))
    }

    /// What entries are sorted by. Slices of bytes are in the index's order: a shorter one comes before a longer one that
    /// begins with it.
    pub fn key(&self) -> (&'a [u8], Date) {
        (self.identifier, self.date)
    }

    /// The identifier in quotes, every byte of it to be seen.
    pub fn quoted(&self) -> String {
        escape::quoted(self.identifier)
    }
}

impl Date {
    /// Year, month and day, as the header field is shown.
    pub fn told(&self) -> String {
        format!("{:04}-{:02}-{:02}", self.year, self.month, self.day)
    }

    /// That it is not in the calendar, if it is not.
    pub fn remark(&self) -> Option<&'static str> {
        let [low, high] = self.year.to_le_bytes();
        Reading::of(RECORDING_DATE, &[low, high, self.month, self.day]).remark
    }
}

/// How many entries and identifiers an index has, and from which date to which.
#[derive(Default)]
pub struct Extent {
    pub entries: usize,
    pub identifiers: usize,
    /// The first and the last date, if there is an entry.
    pub dates: Option<(Date, Date)>,
}

impl Extent {
    /// The extent of an index. Its entries are sorted, so that those of an identifier are together.
    pub fn of(index: &[u8]) -> Extent {
        let mut extent = Extent::default();
        let mut last = None;
        for Filed {
            identifier, date, ..
        } in Filed::all(index)
        {
            extent.entries += 1;
            extent.identifiers += usize::from(last != Some(identifier));
            last = Some(identifier);
            let (from, to) = extent.dates.unwrap_or((date, date));
            extent.dates = Some((from.min(date), to.max(date)));
        }
        extent
    }

    /// All of it, in words.
    pub fn told(&self) -> String {
        let identifiers = parted(&counted(self.identifiers, "identifier"));
        let entries = how_many(self.entries);
        match self.dates {
            None => entries,
            Some((from, to)) if from == to => {
                format!("{entries} of {identifiers}, on {}", from.told())
            }
            Some((from, to)) => {
                let (from, to) = (from.told(), to.told());
                format!("{entries} of {identifiers}, from {from} to {to}")
            }
        }
    }
}

/// A number of entries, in words.
pub fn how_many(entries: usize) -> String {
    match entries {
        0 => "no entry".to_string(),
        1 => "1 entry".to_string(),
        entries => parted(&format!("{entries} entries")),
    }
}
