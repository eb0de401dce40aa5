//! `tigmavresh index`: the auditor's index of records, in a file.

mod add;
mod check;
mod merge;
mod show;

use std::ffi::OsStr;
use std::io;
use std::os::unix::ffi::OsStrExt;
use std::path::Path;

use crate::cli::Index;
use crate::held::Held;
use crate::input::{self, Input};
use crate::json;
use crate::output::Output;
use crate::paths::{is_standard, shown};
use crate::refused::Refused;
use crate::status::Status;
use crate::text::unhex;

/// Said of standard input as an index to change.
const NO_FILE: &str = "INDEX must be a file: it is read, and written anew";

/// What bytes in hex begin with in CSV, so that no spreadsheet takes them for a number.
const HEX: &str = "hex:";

/// Does what a command on an index asks for.
pub fn run(command: Index, output: &mut Output) -> Status {
    match command {
        Index::Add {
            index,
            paths,
            allow_empty,
            json,
            jobs,
        } => add::run(
            &index,
            paths,
            add::Asked { json, allow_empty },
            jobs,
            output,
        ),
        Index::Merge {
            index,
            others,
            json,
        } => merge::run(&index, &others, json, output),
        Index::Find {
            index,
            identifier,
            hex,
            form,
        } => match asked(&identifier, hex) {
            Ok(identifier) => show::find(&index, &identifier, form, output),
            Err(words) => {
                output.remark(&[words]);
                Status::NotDone
            }
        },
        Index::List { index, form } => show::list(&index, form, output),
        Index::Check { index, json } => check::run(&index, json, output),
    }
}

/// The bytes of an identifier that is asked for: those of the word itself, or those that it has in hex.
fn asked(identifier: &OsStr, hex: bool) -> Result<Vec<u8>, String> {
    if !hex {
        return Ok(identifier.as_bytes().to_vec());
    }
    let digits = identifier.to_string_lossy();
    unhex(digits.strip_prefix(HEX).unwrap_or(&digits))
}

/// Reads an index, or standard input; if it cannot be read, that is complained of.
fn read_or_complain(index: &Path, json: bool, output: &mut Output) -> Option<Input> {
    let read = input::read_whole(index);
    read.map_err(|error| complain(index, &error, json, output))
        .ok()
}

/// Complains of an index that could not be read, and says it by a line of JSON where that is asked for.
fn complain(index: &Path, error: &io::Error, json: bool, output: &mut Output) {
    if json {
        output.line(json::line(&json::unread(index, error)));
    }
    output.complain(index, error);
}

/// An index that is to be changed, and its bytes. Nobody else writes to it meanwhile. If that cannot be, or it is no index, it
/// is said why, and that nothing was done; and the answer is the status.
fn hold(
    index: &Path,
    nothing: &str,
    json: bool,
    output: &mut Output,
) -> Result<(Held, Vec<u8>), Status> {
    if is_standard(index) {
        output.remark(&[NO_FILE.to_string()]);
        return Err(Status::NotDone);
    }
    let held = Held::at(index).and_then(|mut held| Ok((held.read()?, held)));
    let (bytes, held) = held.map_err(|error| {
        complain(index, &error, json, output);
        Status::NotDone
    })?;
    let Err(refused) = judged(&bytes) else {
        return Ok((held, bytes));
    };
    held.keep();
    refuse(index, &Input::whole(bytes), &refused, json, output);
    if !json {
        output.block();
        output.line(format_args!("{}: {nothing}", shown(index)));
    }
    Err(Status::Refused)
}

/// Shows that an index is refused.
fn refuse(index: &Path, input: &Input, refused: &Refused, json: bool, output: &mut Output) {
    match json {
        true => {
            let about = json::About::<json::Extended>::judged(index, input.size, Some(refused));
            output.line(json::line(&about.noted()));
        }
        false => output.lines(refused.text(index, input)),
    }
}

/// Puts an index in the place of the one that is held. The library judges what is read back before.
fn put(held: Held, index: &[u8]) -> io::Result<()> {
    held.put(index, |back| {
        let again = scp::index_find(back, back.len(), &[]);
        let words = |refusal| format!("it is refused when it is read back: {refusal}");
        again.map(|_| ()).map_err(words)
    })
}

/// The library's word on whether all of these bytes are an index, and else why not.
fn judged(index: &[u8]) -> Result<(), Refused> {
    match scp::index_find(index, index.len(), &[]) {
        Ok(_) => Ok(()),
        Err(refusal) => Err(Refused::of_index(index, refusal)),
    }
}
