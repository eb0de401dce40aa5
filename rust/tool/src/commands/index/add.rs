//! `tigmavresh index add INDEX PATH...`: records added to an index.

use std::io;
use std::path::{Path, PathBuf};

use super::{hold, put};
use crate::filed::{how_many, Filed};
use crate::held::Held;
use crate::input::{self, Size};
use crate::json;
use crate::many::{self, Many};
use crate::output::Output;
use crate::paths::shown;
use crate::refused::{self, Refused};
use crate::runs::{Run, Runs};
use crate::status::Status;
use crate::tally::Tally;
use crate::text::parted;

/// The options.
#[derive(Clone, Copy)]
pub struct Asked {
    /// Show it as JSON.
    pub json: bool,
    /// Do not fail if no file is found.
    pub allow_empty: bool,
}

/// A worker's answer for a record. This waits for the answers before it, and not the record, whose bytes are gone by then: so
/// there are no more records in memory than workers.
struct Answer {
    /// How long the record is.
    size: Size,
    /// Its entry, of at most 68 bytes, or why it is refused.
    run: Result<Run, Refused>,
}

/// Adds the records of these paths to an index, which is then put in its place. Nobody else writes to it meanwhile.
pub fn run(
    index: &Path,
    paths: Vec<PathBuf>,
    asked: Asked,
    jobs: Option<u16>,
    output: &mut Output,
) -> Status {
    let (held, bytes) = match hold(index, "nothing was added", asked.json, output) {
        Ok(held) => held,
        Err(status) => return status,
    };
    let many = Many {
        paths,
        without: Some(held.identity()),
        jobs,
        json: asked.json,
    };
    let (grown, tally) = grown(&bytes, many, asked, output);
    let kept = keep(held, &grown, &tally, asked);
    let now = match kept {
        Ok(true) => grown,
        _ => bytes,
    };
    conclude(index, &now, &kept, &tally, asked, output)
}

/// An index with these records added to it. The answers come in the order of the files; until the last one is there, all new
/// entries are in memory, in runs.
fn grown(index: &[u8], many: Many, asked: Asked, output: &mut Output) -> (Vec<u8>, Tally) {
    let mut runs = Runs::default();
    let take = |file: &Path, answer: Answer, tally: &mut Tally, output: &mut Output| {
        take(&mut runs, file, answer, asked, tally, output);
    };
    let tally = many.each(|| (), read, take, output);
    (runs.added_to(index), tally)
}

/// Reads a record and judges it. That is done by the workers, side by side.
fn read(_: &mut (), file: &Path) -> io::Result<Answer> {
    let input = input::read(file)?;
    let refused = |refusal| Refused::of_adding(&input, refusal).in_short(&input);
    Ok(Answer {
        size: input.size,
        run: Run::of(&input.bytes).map_err(refused),
    })
}

/// Adds one record, or shows why it is refused.
fn take(
    runs: &mut Runs,
    file: &Path,
    answer: Answer,
    asked: Asked,
    tally: &mut Tally,
    output: &mut Output,
) {
    let refused = match answer.run {
        Ok(run) => {
            tally.accepted += 1;
            return runs.push(run);
        }
        Err(refused) => refused,
    };
    tally.refuse(refused.refusal);
    if asked.json {
        let about = json::About::<json::Extended>::judged(file, answer.size, Some(&refused));
        return output.line(json::line(&about));
    }
    let heading = refused.heading(file, answer.size);
    output.line(refused.in_line(&heading));
}

/// Puts the index in its place, and says whether it did: not after an interruption. Where no file was found a new one is not
/// made, unless that is allowed.
fn keep(held: Held, grown: &[u8], tally: &Tally, asked: Asked) -> io::Result<bool> {
    if tally.is_interrupted {
        return Ok(false);
    }
    match tally.accepted {
        0 if tally.files() == 0 && !asked.allow_empty => drop(held),
        0 => held.keep(),
        _ => put(held, grown)?,
    }
    Ok(true)
}

/// Shows how many records were added, refused with each number, and not read. The worst of them is the status.
fn conclude(
    index: &Path,
    now: &[u8],
    kept: &io::Result<bool>,
    tally: &Tally,
    asked: Asked,
    output: &mut Output,
) -> Status {
    let is_kept = matches!(kept, Ok(true));
    let entries = Filed::all(now).count();
    match asked.json {
        true => {
            let added = if is_kept { tally.accepted } else { 0 };
            let indexed = json::Indexed::new(index, now.len(), added, entries);
            output.line(json::line(&json::Summary::new(tally).with(indexed)));
        }
        false => {
            if tally.refused() > 0 {
                refused::footnote(output);
            }
            output.block();
            output.line(told(index, is_kept, entries, tally));
            output.lines(tally.table());
        }
    }
    if let Err(error) = kept {
        output.complain(index, error);
        return Status::NotDone;
    }
    many::status(tally, asked.allow_empty, output)
}

/// The closing line.
fn told(index: &Path, is_kept: bool, entries: usize, tally: &Tally) -> String {
    let (name, entries) = (shown(index), how_many(entries));
    let (accepted, refused, not_read) = (tally.accepted, tally.refused(), tally.not_read);
    let others = format!("{refused} refused, {not_read} not read");
    let numbers = match (is_kept, tally.is_interrupted) {
        (true, _) => format!("{accepted} added, {others}; {entries} now"),
        (false, true) => format!(
            "interrupted, and left as it was: {entries}; so far {accepted} accepted, {others}"
        ),
        (false, false) => format!("left as it was: {entries}; {accepted} accepted, {others}"),
    };
    format!("{name}: {}{}", parted(&numbers), tally.passed_over())
}
