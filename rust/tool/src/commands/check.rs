//! `tigmavresh check PATH...`: many records, a line for each.

use std::io;
use std::path::{Path, PathBuf};

use crate::input::{self, Size};
use crate::json;
use crate::many::{self, Many};
use crate::output::Output;
use crate::paths::shown;
use crate::refused::{self, Refused};
use crate::status::Status;
use crate::tally::Tally;
use crate::verdict::{Room, Verdict};

/// The options.
#[derive(Clone, Copy)]
pub struct Asked {
    /// Show only what is refused.
    pub refused: bool,
    /// Show it as JSON.
    pub json: bool,
    /// Do not fail if no file is found.
    pub allow_empty: bool,
}

/// The judgement on a file.
struct Judged {
    size: Size,
    verdict: Verdict,
    /// Why it is refused, if it is.
    refused: Option<Refused>,
}

/// Checks all files of these paths, this many at a time; the worst of them is the status.
pub fn run(paths: Vec<PathBuf>, asked: Asked, jobs: Option<u16>, output: &mut Output) -> Status {
    let many = Many {
        paths,
        without: None,
        jobs,
        json: asked.json,
    };
    let take = |file: &Path, judged: Judged, tally: &mut Tally, output: &mut Output| {
        show(file, &judged, asked, output);
        count(file, &judged, tally);
    };
    let tally = many.each(Room::default, check, take, output);
    conclude(&tally, asked, output)
}

/// Checks one file.
fn check(room: &mut Room, file: &Path) -> io::Result<Judged> {
    let input = input::read(file)?;
    let verdict = Verdict::of(&input.bytes, room);
    let refused = match verdict {
        Verdict::Accepted { .. } => None,
        Verdict::Refused { refusal, lead } => {
            let refused = Refused::of(&input, lead.unwrap_or(1), refusal);
            Some(refused.in_short(&input))
        }
    };
    Ok(Judged {
        size: input.size,
        verdict,
        refused,
    })
}

/// Counts a file.
fn count(file: &Path, judged: &Judged, tally: &mut Tally) {
    match judged.verdict {
        Verdict::Accepted { compared, .. } => tally.accept(file, compared),
        Verdict::Refused { refusal, .. } => tally.refuse(refusal),
    }
}

/// Shows a file, if it is asked for.
fn show(file: &Path, judged: &Judged, asked: Asked, output: &mut Output) {
    match asked {
        Asked { refused: true, .. } if judged.refused.is_none() => {}
        Asked { json: true, .. } => output.line(as_json(file, judged)),
        _ => output.line(as_text(file, judged)),
    }
}

/// A record's line of text.
fn as_text(file: &Path, judged: &Judged) -> String {
    let heading = format!("{}: {}", shown(file), judged.verdict.told(judged.size));
    match &judged.refused {
        Some(refused) => refused.in_line(&heading),
        None => heading,
    }
}

/// A record's line of JSON.
fn as_json(file: &Path, judged: &Judged) -> String {
    let about = json::About::judged(file, judged.size, judged.refused.as_ref());
    let about = about.of_lead(judged.verdict.lead());
    json::line(&about.holding(json::Counted::of(judged.verdict)))
}

/// Shows how many files were accepted, refused with each number, and not read, and the busiest record. The worst of the files is
/// the status.
fn conclude(tally: &Tally, asked: Asked, output: &mut Output) -> Status {
    match asked.json {
        true => output.line(json::line(&json::Summary::new(tally))),
        false => summarise(tally, output),
    }
    many::status(tally, asked.allow_empty, output)
}

/// Shows the summary as text.
fn summarise(tally: &Tally, output: &mut Output) {
    if tally.refused() > 0 {
        refused::footnote(output);
    }
    output.block();
    output.line(tally);
    output.lines(tally.table());
    output.lines(&tally.busiest);
}
