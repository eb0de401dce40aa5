//! Answers held against each other.

use std::fmt::Debug;

/// A difference: the call, and both answers.
pub type Difference = String;

/// 0, or the refusal.
pub fn number<T>(answer: &Result<T, u8>) -> u8 {
    answer.as_ref().err().copied().unwrap_or(0)
}

/// Asks that the library's answer is the judge's.
pub fn same<T: PartialEq + Debug>(call: &str, library: T, judge: T) -> Result<(), Difference> {
    if library == judge {
        return Ok(());
    }
    Err(format!(
        "{call}: the library answers {library:?}, the judge {judge:?}"
    ))
}

/// Asks that something holds.
pub fn hold(holds: bool, words: &str) -> Result<(), Difference> {
    if holds {
        return Ok(());
    }
    Err(words.to_string())
}
