//! `tigmavresh index merge INDEX OTHER...`: indexes merged into an index.

use std::io;
use std::path::{Path, PathBuf};

use super::{complain, hold, judged, put, refuse};
use crate::filed::{how_many, Filed};
use crate::held::Held;
use crate::input::{self, Input, Reader};
use crate::json;
use crate::output::Output;
use crate::paths::shown;
use crate::runs::{Run, Runs};
use crate::status::Status;
use crate::tally::Tally;
use crate::text::parted;

/// Merges indexes into an index, which is then put in its place; or none of them.
pub fn run(index: &Path, others: &[PathBuf], json: bool, output: &mut Output) -> Status {
    let (held, bytes) = match hold(index, "nothing was merged", json, output) {
        Ok(held) => held,
        Err(status) => return status,
    };
    let (mut runs, mut tally, mut reader) = (Runs::default(), Tally::default(), Reader::default());
    for other in others {
        match read(other, &held, &mut reader) {
            Ok(input) => take(other, input, &mut runs, &mut tally, json, output),
            Err(error) => {
                tally.not_read += 1;
                complain(other, &error, json, output);
            }
        }
    }
    let merged = runs.added_to(&bytes);
    let kept = keep(held, &bytes, &merged, &tally);
    let now = match kept {
        Ok(true) => &merged,
        _ => &bytes,
    };
    let done = Done::of(&bytes, now, matches!(kept, Ok(true)));
    conclude(index, &done, &tally, json, output);
    match kept {
        Ok(_) => tally.status(),
        Err(error) => {
            output.complain(index, &error);
            Status::NotDone
        }
    }
}

/// What has come of it.
struct Done {
    /// How many bytes and entries the index has now.
    bytes: usize,
    entries: usize,
    /// How many of the entries are new.
    added: usize,
    /// Whether it was put in its place.
    is_kept: bool,
}

impl Done {
    fn of(before: &[u8], now: &[u8], is_kept: bool) -> Done {
        let entries = Filed::all(now).count();
        Done {
            bytes: now.len(),
            entries,
            added: entries - Filed::all(before).count(),
            is_kept,
        }
    }
}

/// Reads an index that is to be merged into the one that is held.
fn read(other: &Path, held: &Held, reader: &mut Reader) -> io::Result<Input> {
    reader.claim(other)?;
    if held.identity().is_at(other) {
        return Err(io::Error::other("it is INDEX itself"));
    }
    input::read_whole(other)
}

/// Takes an index, or shows why it is refused.
fn take(
    other: &Path,
    input: Input,
    runs: &mut Runs,
    tally: &mut Tally,
    json: bool,
    output: &mut Output,
) {
    match judged(&input.bytes) {
        Ok(()) => {
            tally.accepted += 1;
            runs.push(Run::of_index(input.bytes));
        }
        Err(refused) => {
            tally.refuse(refused.refusal);
            refuse(other, &input, &refused, json, output);
            if !json {
                output.block();
            }
        }
    }
}

/// Puts the merged index in its place, and says whether it did: not unless every other one was taken.
fn keep(held: Held, index: &[u8], merged: &[u8], tally: &Tally) -> io::Result<bool> {
    if tally.files() > tally.accepted {
        return Ok(false);
    }
    match merged == index {
        true => held.keep(),
        false => put(held, merged)?,
    }
    Ok(true)
}

/// Shows how many indexes were merged, or that none was, and how many entries there are now.
fn conclude(index: &Path, done: &Done, tally: &Tally, json: bool, output: &mut Output) {
    if json {
        let indexed = json::Indexed::new(index, done.bytes, done.added, done.entries);
        return output.line(json::line(&json::Summary::new(tally).with(indexed)));
    }
    let (merged, now) = (indexes(tally.accepted), how_many(done.entries));
    let (refused, not_read) = (tally.refused(), tally.not_read);
    let words = match done.is_kept {
        true => format!("{merged} merged, {} added; {now} now", how_many(done.added)),
        false => format!(
            "left as it was: {now}; {merged} accepted, {refused} refused, {not_read} not read"
        ),
    };
    output.line(format_args!("{}: {}", shown(index), parted(&words)));
}

/// A number of indexes.
fn indexes(number: usize) -> String {
    match number {
        1 => "1 index".to_string(),
        number => format!("{number} indexes"),
    }
}
