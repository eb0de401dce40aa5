//! Showing a refusal.

use std::path::Path;

use scp::Refusal;

use crate::explain::{self, Looked};
use crate::input::{Input, Size};
use crate::output::Output;
use crate::paths::shown;
use crate::verdict::{self, Word};

/// How many things found are shown; a record can break one rule in a great many places.
const FOUND_SHOWN: usize = 8;

/// The label of a rule's words, so that nobody takes them for what was found.
const BROKEN: &str = "rule broken";

/// Who decided, and who explains.
pub const NOTE: &str = "The proved library decided; the explanation is not proved.";

/// A refusal of a record, of one of its leads or of an index, for people: its number and why.
#[derive(Clone)]
pub struct Refused {
    pub refusal: Refusal,
    /// Refused, or absent: a record that has not what is asked for may be sound.
    pub word: Word,
    /// The things found: at least one in a record.
    pub found: Vec<String>,
}

impl Refused {
    /// A refusal where the lead at a place was asked for.
    pub fn of(input: &Input, place: usize, refusal: Refusal) -> Refused {
        if let Some(absent) = verdict::absent(&input.bytes, place, refusal) {
            return Refused {
                refusal,
                word: Word::Absent,
                found: vec![absent],
            };
        }
        let foreign = explain::foreign(&input.bytes).into_iter();
        let found = explain::found(&Looked::at(input, place), refusal);
        Refused {
            refusal,
            word: Word::Refused,
            found: foreign.chain(found).collect(),
        }
    }

    /// The same with as little as says what is wrong: the first thing found, after that the file looks like no record at all.
    /// It takes no more memory than that, however much was found.
    pub fn in_short(mut self, input: &Input) -> Refused {
        self.found
            .truncate(1 + usize::from(explain::foreign(&input.bytes).is_some()));
        self.found.shrink_to_fit();
        self
    }

    /// A refusal of a record that was to be added to an index.
    pub fn of_adding(input: &Input, refusal: Refusal) -> Refused {
        let foreign = explain::foreign(&input.bytes).into_iter();
        let found = explain::found_in_adding(&Looked::at(input, 1), refusal);
        Refused {
            refusal,
            word: Word::Refused,
            found: foreign.chain(found).collect(),
        }
    }

    /// A refusal of an index.
    pub fn of_index(index: &[u8], refusal: Refusal) -> Refused {
        Refused {
            refusal,
            word: Word::Refused,
            found: explain::found_in_index(index),
        }
    }

    /// The line that starts what is shown of it.
    pub fn heading(&self, file: &Path, size: Size) -> String {
        let (name, number) = (shown(file), self.refusal.number());
        match self.word {
            Word::Absent => format!(
                "{name}: absent, number {number} ({size}): {}",
                self.found[0]
            ),
            _ => format!("{name}: refused, number {number} ({size})"),
        }
    }

    /// All of it in one line, after the one that starts it.
    pub fn in_line(&self, heading: &str) -> String {
        let (rule, found) = (self.refusal.words(), self.found.join("; "));
        format!("{heading}; {BROKEN}: {rule}; found: {found}")
    }

    /// The lines below that: what the rule asks, and what was found.
    pub fn lines(&self) -> Vec<String> {
        match self.word {
            Word::Absent => Vec::new(),
            _ => told(self.refusal, &self.found),
        }
    }

    /// Who decided, where something was explained.
    pub fn note(&self) -> Option<&'static str> {
        (self.word == Word::Refused).then_some(NOTE)
    }

    /// All of it, in lines.
    pub fn text(&self, file: &Path, input: &Input) -> Vec<String> {
        let mut lines = vec![self.heading(file, input.size)];
        lines.extend(self.lines());
        if let Some(note) = self.note() {
            lines.extend([String::new(), note.to_string()]);
        }
        lines
    }
}

/// The rule in words and this that was found, in lines.
pub fn told(refusal: Refusal, found: &[String]) -> Vec<String> {
    let mut lines = vec![line(BROKEN, refusal.words())];
    lines.extend(found_lines(found));
    lines
}

/// This that was found, in lines.
pub fn found_lines(found: &[String]) -> Vec<String> {
    let mut lines = Vec::new();
    let mut label = "found";
    for one in found.iter().take(FOUND_SHOWN) {
        lines.push(line(label, one));
        label = "";
    }
    if found.len() > FOUND_SHOWN {
        let more = found.len() - FOUND_SHOWN;
        lines.push(line("", &format!("and {more} more")));
    }
    lines
}

/// A line with a label.
fn line(label: &str, words: &str) -> String {
    format!("  {label:width$}  {words}", width = BROKEN.len())
}

/// Says who decided, and who explains.
pub fn footnote(output: &mut Output) {
    output.block();
    output.line(NOTE);
}
