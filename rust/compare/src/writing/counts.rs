//! Counting jobs, calls and answers.

use std::collections::BTreeMap;
use std::fmt;

use judge::Refused;

/// The answer of a call, as finely as the rules distinguish.
#[derive(Clone, Copy, Debug, PartialEq, Eq, PartialOrd, Ord)]
pub enum Answer {
    /// Written, with no search: there is no Section 2.
    Written,
    /// Written after a search: the work space is zeros.
    WrittenSearched,
    /// 6
    Header,
    /// 7
    Tables,
    /// 11 for work space
    WorkSpace,
    /// 11 for output, with no search
    Output,
    /// 11 for output, after a search
    OutputSearched,
    /// 15, with no search
    NoStream,
    /// 15, after a search
    NoStreamSearched,
    /// 16, with no search
    TooLong,
    /// 16, after a search
    TooLongSearched,
    /// 17
    Bounds,
}

/// All of them: a run that never meets one says nothing of it.
pub const ANSWERS: [Answer; 12] = [
    Answer::Written,
    Answer::WrittenSearched,
    Answer::Header,
    Answer::Tables,
    Answer::WorkSpace,
    Answer::Output,
    Answer::OutputSearched,
    Answer::NoStream,
    Answer::NoStreamSearched,
    Answer::TooLong,
    Answer::TooLongSearched,
    Answer::Bounds,
];

impl Answer {
    /// The judge's answer. Without Section 2 no work space is needed, and 11 is for the output.
    pub fn of(judged: &Result<Vec<u8>, Refused>, has_tables: bool) -> Answer {
        match judged {
            Ok(_) if has_tables => Answer::WrittenSearched,
            Ok(_) => Answer::Written,
            Err(refused) => match (refused.number, refused.work_cleared) {
                (6, _) => Answer::Header,
                (7, _) => Answer::Tables,
                (11, false) if has_tables => Answer::WorkSpace,
                (11, false) => Answer::Output,
                (11, true) => Answer::OutputSearched,
                (15, false) => Answer::NoStream,
                (15, true) => Answer::NoStreamSearched,
                (16, false) => Answer::TooLong,
                (16, true) => Answer::TooLongSearched,
                _ => Answer::Bounds,
            },
        }
    }
}

/// How many jobs there were, and how often the call answered what.
#[derive(Default)]
pub struct Counts {
    /// Jobs, each with the room that it came with and with others.
    pub jobs: u64,
    /// Jobs of several leads that are not equally long.
    pub unequal: u64,
    /// Jobs whose record was written and read back.
    pub written: u64,
    /// The bytes of these records.
    pub bytes: u64,
    /// The leads read back.
    pub leads: u64,
    /// The samples read back.
    pub samples: u64,
    answers: BTreeMap<Answer, u64>,
}

impl Counts {
    /// Counts an answer.
    pub fn answer(&mut self, answer: Answer) {
        *self.answers.entry(answer).or_default() += 1;
    }

    /// The answers that were never given.
    pub fn never_reached(&self) -> Vec<Answer> {
        let reached = |answer: &Answer| self.answers.contains_key(answer);
        let missing = ANSWERS.iter().filter(|&answer| !reached(answer));
        missing.copied().collect()
    }
}

impl fmt::Display for Counts {
    fn fmt(&self, f: &mut fmt::Formatter<'_>) -> fmt::Result {
        let (jobs, unequal) = (self.jobs, self.unequal);
        writeln!(
            f,
            "writing: {jobs} jobs ({unequal} with leads of different lengths)"
        )?;
        for (answer, count) in &self.answers {
            writeln!(f, "  {:19}{count:>9}", format!("{answer:?}"))?;
        }
        let all: u64 = self.answers.values().sum();
        writeln!(f, "writing: {all} answers, all as the judge's")?;
        write!(
            f,
            "writing: {} records of {} bytes read back, {} leads with {} samples",
            self.written, self.bytes, self.leads, self.samples
        )
    }
}
