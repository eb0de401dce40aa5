//! `tigmavresh open FILE...`: the pointers of each record.

use std::path::{Path, PathBuf};

use scp::Pointer;

use crate::input::{Input, Reader, Size};
use crate::json;
use crate::names;
use crate::output::Output;
use crate::paths::shown;
use crate::refused::{self, Refused};
use crate::status::Status;
use crate::table::{self, numbers, words, Column};
use crate::tally::Tally;

const COLUMNS: [Column; 5] = [
    numbers("ID"),
    words("Section"),
    numbers("Length"),
    numbers("Index"),
    words(""),
];

/// Opens each file and shows its pointers, as a table or as a line of JSON; the worst of all files is the status.
pub fn run(files: &[PathBuf], json: bool, output: &mut Output) -> Status {
    let mut reader = Reader::default();
    let mut tally = Tally::default();
    for file in files {
        match reader.read(file) {
            Ok(input) => open(file, &input, json, &mut tally, output),
            Err(error) => {
                if json {
                    output.line(json::line(&json::unread(file, &error)));
                }
                output.complain(file, &error);
                tally.not_read += 1;
            }
        }
        output.flush();
    }
    conclude(&tally, json, output);
    tally.status()
}

/// Opens one file.
fn open(file: &Path, input: &Input, json: bool, tally: &mut Tally, output: &mut Output) {
    let opened = scp::open(&input.bytes);
    match opened {
        Ok(_) => tally.accepted += 1,
        Err(refusal) => tally.refuse(refusal),
    }
    let opened = opened.map_err(|refusal| Refused::of(input, 1, refusal));
    if json {
        return output.line(json::line(&as_json(file, input, &opened)));
    }
    output.block();
    match opened {
        Ok(pointers) => show(file, input.size, &pointers, output),
        Err(refused) => {
            output.line(refused.heading(file, input.size));
            output.lines(refused.lines());
        }
    }
}

/// The pointers, or the refusal, as JSON.
fn as_json(
    file: &Path,
    input: &Input,
    opened: &Result<Vec<Pointer>, Refused>,
) -> json::About<json::Pointers> {
    let pointers = opened.as_ref().ok().map(|pointers| json::Pointers {
        pointers: pointers.iter().map(json::Pointer::from).collect(),
    });
    json::About::judged(file, input.size, opened.as_ref().err()).holding(pointers)
}

/// Shows how many files were accepted, refused and not read: as text if there are several.
fn conclude(tally: &Tally, json: bool, output: &mut Output) {
    if json {
        return output.line(json::line(&json::Summary::new(tally)));
    }
    if tally.refused() > 0 {
        refused::footnote(output);
    }
    if tally.files() > 1 {
        output.block();
        output.line(tally);
    }
}

/// Shows the pointers of a record that was accepted.
fn show(file: &Path, size: Size, pointers: &[Pointer], output: &mut Output) {
    let present = pointers.iter().filter(|p| p.is_present()).count();
    let count = pointers.len();
    output.line(format_args!(
        "{}: accepted ({size}; {count} pointers, {present} sections present)",
        shown(file)
    ));
    let rows: Vec<_> = pointers.iter().map(row).collect();
    output.lines(table::lines(&COLUMNS, &rows));
}

/// A pointer's row of the table.
fn row(pointer: &Pointer) -> [String; 5] {
    let presence = if pointer.is_present() {
        "present"
    } else {
        "absent"
    };
    [
        pointer.id.to_string(),
        names::section(pointer.id).to_string(),
        pointer.length.to_string(),
        pointer.index.to_string(),
        presence.to_string(),
    ]
}
