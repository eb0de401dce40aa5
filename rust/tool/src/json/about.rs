//! A file, and the decision on it or on a lead.

use std::io;
use std::path::Path;

use serde::Serialize;

use crate::input::Size;
use crate::refused::{self, Refused};
use crate::text::{hex, reason};
use crate::verdict::Word;

/// A file: the verdict on it, and what it holds where that is shown.
#[derive(Serialize)]
pub struct About<T> {
    #[serde(flatten)]
    name: Name,
    /// How long it is, where that is known.
    #[serde(skip_serializing_if = "Option::is_none")]
    bytes: Option<u64>,
    #[serde(flatten)]
    decision: Decision,
    /// The place of the lead that the refusal is of, if it is of one.
    #[serde(skip_serializing_if = "Option::is_none")]
    lead: Option<usize>,
    /// Why it could not be read.
    #[serde(skip_serializing_if = "Option::is_none")]
    error: Option<String>,
    #[serde(flatten)]
    content: Option<T>,
    /// Who decided, and who explains.
    #[serde(skip_serializing_if = "Option::is_none")]
    note: Option<&'static str>,
}

/// The name of a file.
#[derive(Serialize)]
pub struct Name {
    file: String,
    /// The name's bytes in hex, where they are no text.
    #[serde(skip_serializing_if = "Option::is_none")]
    file_bytes: Option<String>,
}

impl Name {
    pub fn of(file: &Path) -> Name {
        Name {
            file: file.to_string_lossy().into_owned(),
            file_bytes: match file.to_str() {
                Some(_) => None,
                None => Some(hex(file.as_os_str().as_encoded_bytes())),
            },
        }
    }
}

/// The decision on a record or on a lead.
#[derive(Clone, Serialize)]
pub struct Decision {
    verdict: Word,
    refusal: Option<u8>,
    /// The rule in words, where it is broken.
    #[serde(skip_serializing_if = "Option::is_none")]
    rule: Option<&'static str>,
    /// What breaks it, where something is refused or absent.
    #[serde(skip_serializing_if = "Option::is_none")]
    found: Option<Vec<String>>,
}

impl Decision {
    /// Accepted, or refused.
    pub fn of(refused: Option<&Refused>) -> Decision {
        match refused {
            None => Decision::without_refusal(Word::Accepted),
            Some(refused) => Decision {
                verdict: refused.word,
                refusal: Some(refused.refusal.number()),
                rule: (refused.word == Word::Refused).then(|| refused.refusal.words()),
                found: Some(refused.found.clone()),
            },
        }
    }

    fn without_refusal(verdict: Word) -> Decision {
        Decision {
            verdict,
            refusal: None,
            rule: None,
            found: None,
        }
    }
}

impl<T> About<T> {
    fn new(file: &Path, decision: Decision) -> About<T> {
        About {
            name: Name::of(file),
            bytes: None,
            decision,
            lead: None,
            error: None,
            content: None,
            note: None,
        }
    }

    /// A file of this size that was accepted or refused.
    pub fn judged(file: &Path, size: Size, refused: Option<&Refused>) -> About<T> {
        About {
            bytes: match size {
                Size::Exactly(bytes) => Some(bytes),
                Size::Over(_) => None,
            },
            ..About::new(file, Decision::of(refused))
        }
    }

    /// The same where the refusal is of the lead at a place.
    pub fn of_lead(mut self, place: Option<usize>) -> About<T> {
        self.lead = place;
        self
    }

    /// The same with what the file holds.
    pub fn holding(mut self, content: Option<T>) -> About<T> {
        self.content = content;
        self
    }

    /// The same with a note on who decided, if something was explained: for an object that is not one of many.
    pub fn noted(mut self) -> About<T> {
        self.note = (self.decision.verdict == Word::Refused).then_some(refused::NOTE);
        self
    }
}

/// No content.
#[derive(Serialize)]
pub struct Nothing {}

/// A file that could not be read, and why.
pub fn unread(file: &Path, error: &io::Error) -> About<Nothing> {
    About {
        error: Some(reason(error)),
        ..About::new(file, Decision::without_refusal(Word::Unread))
    }
}
