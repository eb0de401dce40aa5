//! Counting inputs, calls and answers.

use std::collections::BTreeMap;
use std::fmt;

use crate::inputs::Kind;

/// The calls that are compared.
#[derive(Clone, Copy, Debug, PartialEq, Eq, PartialOrd, Ord)]
pub enum Call {
    /// `scp_open`
    Open,
    /// `scp_field`
    Field,
    /// `scp_walk_start`
    WalkStart,
    /// `scp_walk_step`
    WalkStep,
    /// `scp_same_identifier`
    SameIdentifier,
    /// `scp_crc`
    Crc,
    /// `scp_breaks`: the row that is broken, or 0
    Breaks,
    /// `scp_lead`
    Lead,
    /// `scp_read_lead`, with the work space untouched
    ReadLead,
    /// `scp_read_lead`, with the work space cleared: the reading of a beat had begun
    ReadLeadWithBeat,
    /// `scp_encode_lead`, with the work space untouched
    EncodeLead,
    /// `scp_encode_lead`, with the work space cleared: the search had begun
    EncodeLeadSearched,
    /// `scp_index_add`
    IndexAdd,
    /// `scp_index_find`, with entries found, or refused
    IndexFind,
    /// `scp_index_find`, with nothing found
    IndexFindNothing,
    /// `scp_index_step`, with an entry shown
    IndexStep,
    /// `scp_index_step`, with none shown
    IndexStepNone,
    /// `scp_index_merge`
    IndexMerge,
}

/// Leads that were read by comparing structures of code tables.
#[derive(Clone, Copy, Debug, Default, PartialEq, Eq)]
pub struct Compared {
    /// How many.
    pub leads: u64,
    /// Those with a beat, whose stream counts too.
    pub with_beat: u64,
    /// The structures compared for all of them.
    pub structures: u64,
    /// The most of them for one lead.
    pub most: u32,
}

/// Entries that were put into an index, and where.
#[derive(Clone, Copy, Debug, Default, PartialEq, Eq)]
pub struct Put {
    /// All of them.
    pub entries: u64,
    /// Those that were put before others.
    pub before: u64,
    /// Those that were put behind an equal one, which has another number of leads.
    pub behind_equal: u64,
    /// Those of an identifier that begins another one's, or begins with it.
    pub begun: u64,
}

/// Indexes that were built from records, one by one and afresh.
#[derive(Clone, Copy, Debug, Default, PartialEq, Eq)]
pub struct Built {
    /// How many.
    pub indexes: u64,
    /// The entries that were added to them.
    pub put: Put,
}

/// Indexes that were merged.
#[derive(Clone, Copy, Debug, Default, PartialEq, Eq)]
pub struct Merged {
    /// How many pairs of sound ones.
    pub pairs: u64,
    /// Pairs of which one or both are empty.
    pub empty: u64,
    /// Pairs of which one is much longer than the other, which is not empty.
    pub longer: u64,
    /// The entries of the second ones, put into the first ones.
    pub put: Put,
    /// Indexes that were made of two or more runs of records.
    pub in_runs: u64,
}

/// How many inputs of each kind there were, and how often each call answered what.
#[derive(Default)]
pub struct Tally {
    inputs: BTreeMap<&'static str, u64>,
    answers: BTreeMap<(Call, u8), u64>,
    samples: u64,
    /// The leads that were read by comparing structures.
    pub compared: Compared,
    every_place: u64,
    to_encode: u64,
    bits: u64,
    /// The indexes that were built.
    pub built: Built,
    /// The indexes that were merged.
    pub merged: Merged,
}

impl Compared {
    /// Counts the structures compared in reading a lead by a call, if there were any.
    pub fn count(&mut self, call: Call, structures: u32) {
        if structures > 0 {
            self.leads += 1;
            self.with_beat += u64::from(call == Call::ReadLeadWithBeat);
            self.structures += u64::from(structures);
            self.most = self.most.max(structures);
        }
    }
}

impl Tally {
    /// Counts an input.
    pub fn input(&mut self, kind: Kind) {
        *self.inputs.entry(kind.name()).or_default() += 1;
    }

    /// Counts an answer of a call: 0, or the refusal.
    pub fn answer(&mut self, call: Call, number: u8) {
        *self.answers.entry((call, number)).or_default() += 1;
    }

    /// Counts samples that were read.
    pub fn samples(&mut self, count: usize) {
        self.samples += count as u64;
    }

    /// Counts a record that was asked for every place that a lead can have.
    pub fn every_place(&mut self) {
        self.every_place += 1;
    }

    /// Counts a lead to encode.
    pub fn to_encode(&mut self) {
        self.to_encode += 1;
    }

    /// Counts the bits of a stream that was encoded.
    pub fn bits(&mut self, count: u32) {
        self.bits += u64::from(count);
    }

    /// How often a call answered a number.
    pub fn times(&self, call: Call, number: u8) -> u64 {
        self.answers.get(&(call, number)).copied().unwrap_or(0)
    }

    /// The numbers among these that a call never answered.
    pub fn never_reached(&self, call: Call, numbers: &[u8]) -> Vec<u8> {
        let reached = |number| self.answers.contains_key(&(call, number));
        let missing = numbers.iter().filter(|&&number| !reached(number));
        missing.copied().collect()
    }
}

impl fmt::Display for Compared {
    fn fmt(&self, f: &mut fmt::Formatter<'_>) -> fmt::Result {
        write!(
            f,
            "{} leads read by comparing structures ({} with a beat), {} of these in all, {} at most",
            self.leads, self.with_beat, self.structures, self.most
        )
    }
}

impl fmt::Display for Put {
    fn fmt(&self, f: &mut fmt::Formatter<'_>) -> fmt::Result {
        write!(
            f,
            "{} entries ({} before others, {} behind an equal one, {} begin another or with it)",
            self.entries, self.before, self.behind_equal, self.begun
        )
    }
}

impl fmt::Display for Tally {
    fn fmt(&self, f: &mut fmt::Formatter<'_>) -> fmt::Result {
        let total: u64 = self.inputs.values().sum();
        let kinds: Vec<_> = self
            .inputs
            .iter()
            .map(|(kind, count)| format!("{count} {kind}"))
            .collect();
        writeln!(f, "compare: {total} inputs ({})", kinds.join(", "))?;
        for (call, count, words) in self.calls() {
            writeln!(f, "  {:19}{count:>9}  {words}", format!("{call:?}"))?;
        }
        let all: u64 = self.answers.values().sum();
        let (samples, records) = (self.samples, self.every_place);
        writeln!(f, "compare: {records} records asked for every place")?;
        writeln!(f, "compare: {}", self.compared)?;
        writeln!(
            f,
            "compare: {} leads to encode, streams of {} bits in all",
            self.to_encode, self.bits
        )?;
        let (built, merged) = (self.built, self.merged);
        writeln!(f, "compare: {} indexes built, {}", built.indexes, built.put)?;
        writeln!(
            f,
            "compare: {} pairs of indexes merged ({} with an empty one, {} with a much longer one), {}",
            merged.pairs, merged.empty, merged.longer, merged.put
        )?;
        writeln!(
            f,
            "compare: {} indexes made of two or more runs of records",
            merged.in_runs
        )?;
        write!(
            f,
            "compare: {all} answers, with {samples} samples, all as the judge's"
        )
    }
}

impl Tally {
    /// For each call, how often it was made, and how often it answered each number.
    fn calls(&self) -> Vec<(Call, u64, String)> {
        let mut calls: Vec<(Call, u64, Vec<String>)> = Vec::new();
        for (&(call, number), count) in &self.answers {
            if calls.last().map(|last| last.0) != Some(call) {
                calls.push((call, 0, Vec::new()));
            }
            if let Some((_, total, words)) = calls.last_mut() {
                *total += count;
                words.push(format!("{number}: {count}"));
            }
        }
        calls
            .into_iter()
            .map(|(call, total, words)| (call, total, words.join("  ")))
            .collect()
    }
}
