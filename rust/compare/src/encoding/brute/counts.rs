//! Counts what was special about the sets of tables and leads that were tried.

use std::collections::BTreeSet;
use std::fmt;

use super::search::Found;
use crate::rhythm::Code;

/// How many sets of tables and leads there were, and what was special about them.
#[derive(Default)]
pub struct Counts {
    /// Sets of tables. Each has at least two tables and a switch.
    pub sets: u64,
    /// Sets with a table that switches to itself.
    pub own: u64,
    /// Sets with switches that go around through several tables.
    pub cyclic: u64,
    /// Sets with a table that has several codes for one value.
    pub several: u64,
    /// Sets of which some lead has several shortest streams.
    pub tied_sets: u64,
    /// Leads.
    pub leads: u64,
    /// Leads that have no stream.
    pub none: u64,
    /// Leads whose stream switches tables.
    pub switching: u64,
    /// Leads with several shortest streams.
    pub tied: u64,
    /// Leads whose stream was also found by counting.
    pub counted: u64,
    /// Streams that were read in counting.
    pub read: u64,
    /// The longest stream that was found, in bits.
    pub longest: usize,
}

impl fmt::Display for Counts {
    fn fmt(&self, f: &mut fmt::Formatter<'_>) -> fmt::Result {
        writeln!(
            f,
            "brute force: {} sets of 2 to 4 tables with switches: {} with a switch to the own table, {} with a cycle \
             through several, {} with several codes for one value, {} with a tie",
            self.sets, self.own, self.cyclic, self.several, self.tied_sets
        )?;
        writeln!(
            f,
            "brute force: {} leads of 1 to 5 values: {} without a stream, {} streams that switch, {} chosen at a tie, up \
             to {} bits",
            self.leads, self.none, self.switching, self.tied, self.longest
        )?;
        write!(
            f,
            "brute force: {} of them found by counting as well, {} streams read",
            self.counted, self.read
        )
    }
}

impl Counts {
    /// Counts a set of tables.
    pub fn set(&mut self, tables: &[Vec<Code>]) {
        let numbers = || 1..=tables.len();
        let own = numbers().any(|table| targets(tables, table).any(|to| to == table));
        self.sets += 1;
        self.own += u64::from(own);
        self.cyclic += u64::from(numbers().any(|table| goes_around(tables, table)));
        self.several += u64::from(tables.iter().any(|table| has_several(table)));
    }

    /// Counts a lead, and whether its stream was found by counting too.
    pub fn lead(&mut self, found: &Option<Found>, counted: bool) {
        self.leads += 1;
        self.counted += u64::from(counted);
        match found {
            None => self.none += 1,
            Some(found) => {
                self.switching += u64::from(found.switches);
                self.tied += u64::from(found.ways > 1);
                self.longest = self.longest.max(found.bits);
            }
        }
    }
}

/// The tables that a table switches to.
fn targets(tables: &[Vec<Code>], from: usize) -> impl Iterator<Item = usize> + '_ {
    let switches = tables[from - 1].iter().filter(|code| code.mode == 0);
    switches.map(|code| code.base as usize)
}

/// Whether switches lead from a table through others and back.
fn goes_around(tables: &[Vec<Code>], table: usize) -> bool {
    let others = |from| targets(tables, from).filter(move |to| *to != from);
    let mut reached: BTreeSet<usize> = others(table).collect();
    for _ in 0..tables.len() {
        let more: Vec<usize> = reached.iter().flat_map(|&from| others(from)).collect();
        reached.extend(more);
    }
    reached.contains(&table)
}

/// Whether a table has several codes for one value.
fn has_several(table: &[Code]) -> bool {
    let values: Vec<i16> = table
        .iter()
        .filter(|code| code.mode == 1 && code.remainder == 0)
        .map(|code| code.base)
        .collect();
    values.len() > values.iter().collect::<BTreeSet<_>>().len()
}
