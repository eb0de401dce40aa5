//! `tigmavresh index find INDEX IDENTIFIER` and `tigmavresh index list INDEX`: entries, as text, CSV or JSON.

use std::iter;
use std::path::Path;

use super::{judged, read_or_complain, HEX};
use crate::cli::Form;
use crate::csv_form;
use crate::escape::{escaped, quoted};
use crate::filed::{how_many, Extent, Filed};
use crate::input::Input;
use crate::json;
use crate::output::Output;
use crate::paths::shown;
use crate::refused::Refused;
use crate::status::Status;
use crate::table::{self, numbers, words, Column};
use crate::text::hex;

const COLUMNS: [Column; 4] = [
    words("Identifier"),
    words("Date"),
    numbers("Leads"),
    words(""),
];

/// The head of the columns in CSV.
const HEAD: [&str; 4] = ["identifier", "bytes", "date", "leads"];

/// Shows all entries of an index.
pub fn list(index: &Path, form: Form, output: &mut Output) -> Status {
    let Some(input) = read_or_complain(index, form.json, output) else {
        return Status::NotDone;
    };
    if let Err(refused) = judged(&input.bytes) {
        return refuse(index, &input, &refused, form, output);
    }
    let extent = Extent::of(&input.bytes).told();
    let heading = format!("{}: accepted ({}; {extent})", shown(index), input.size);
    show(&heading, &input.bytes, form, output);
    Status::Accepted
}

/// Shows the entries of one identifier.
pub fn find(index: &Path, identifier: &[u8], form: Form, output: &mut Output) -> Status {
    let Some(input) = read_or_complain(index, form.json, output) else {
        return Status::NotDone;
    };
    let part = match scp::index_find(&input.bytes, input.bytes.len(), identifier) {
        Ok(part) => part,
        Err(refusal) => {
            let refused = Refused::of_index(&input.bytes, refusal);
            return refuse(index, &input, &refused, form, output);
        }
    };
    let entries = how_many(Filed::all(part).count());
    let heading = format!("{}: {entries} of {}", shown(index), quoted(identifier));
    if part.is_empty() {
        return miss(heading, identifier, form, output);
    }
    show(&heading, part, form, output);
    Status::Accepted
}

/// Shows that an index is refused.
fn refuse(
    index: &Path,
    input: &Input,
    refused: &Refused,
    form: Form,
    output: &mut Output,
) -> Status {
    match form.csv {
        true => output.remark(&refused.text(index, input)),
        false => super::refuse(index, input, refused, form.json, output),
    }
    Status::Refused
}

/// Shows that an identifier has no entries. No identifier of an index has a NUL, and people may copy one with its NUL.
fn miss(mut heading: String, identifier: &[u8], form: Form, output: &mut Output) -> Status {
    if identifier.contains(&0) {
        heading.push_str("; in an index identifiers are without their NUL");
    }
    match form.csv || form.json {
        true => {
            show("", &[], form, output);
            output.remark(&[heading]);
        }
        false => output.line(heading),
    }
    Status::Refused
}

/// Shows the entries of an index, or of a part of it.
fn show(heading: &str, part: &[u8], form: Form, output: &mut Output) {
    if form.json {
        return output.lines(Filed::all(part).map(|filed| json::line(&json::Filed::from(&filed))));
    }
    if form.csv {
        let head = HEAD.map(str::to_string);
        let rows = Filed::all(part).map(|filed| cells(&filed, form.excel));
        return output.write(|to| csv_form::write(iter::once(head).chain(rows), to));
    }
    output.line(heading);
    let rows: Vec<_> = Filed::all(part).map(|filed| row(&filed)).collect();
    if !rows.is_empty() {
        output.lines(table::lines(&COLUMNS, &rows));
    }
}

/// An entry's row of the table.
fn row(filed: &Filed) -> [String; 4] {
    let remark = filed.date.remark();
    [
        filed.quoted(),
        filed.date.told(),
        filed.leads.to_string(),
        remark.map_or_else(String::new, |remark| format!("({remark})")),
    ]
}

/// An entry's cells in CSV. A spreadsheet takes 007 for a number, and an identifier that begins with an equals sign for a
/// formula; as the text of a formula it is neither.
fn cells(filed: &Filed, excel: bool) -> [String; 4] {
    let text = escaped(filed.identifier);
    [
        match excel {
            true => format!("=\"{}\"", text.replace('"', "\"\"")),
            false => text,
        },
        format!("{HEX}{}", hex(filed.identifier)),
        filed.date.told(),
        filed.leads.to_string(),
    ]
}
