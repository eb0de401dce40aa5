//! `tigmavresh leads FILE`: what a record says of each of its leads.

use std::path::Path;

use scp::Entry;

use super::given::read_or_complain;
use crate::input::Input;
use crate::json::{self, bits_in_hundredths};
use crate::names;
use crate::output::Output;
use crate::paths::shown;
use crate::refused::Refused;
use crate::status::Status;
use crate::table::{self, numbers, words, Column};
use crate::text::how_many;

const COLUMNS: [Column; 10] = [
    numbers("Place"),
    numbers("ID"),
    words("Lead"),
    numbers("First"),
    numbers("Last"),
    numbers("Samples"),
    numbers("Step (nV)"),
    numbers("Interval (us)"),
    numbers("Order"),
    numbers("Bits a sample"),
];

/// Shows the leads of a file, as a table or as JSON.
pub fn run(file: &Path, json: bool, output: &mut Output) -> Status {
    let Some(input) = read_or_complain(file, json, output) else {
        return Status::NotDone;
    };
    output.block();
    let leads = scp::leads(&input.bytes).map_err(|refusal| Refused::of(&input, 1, refusal));
    let status = match leads {
        Ok(_) => Status::Accepted,
        Err(_) => Status::Refused,
    };
    match (json, leads) {
        (true, leads) => output.line(json::text(&as_json(file, &input, &leads))),
        (false, Ok(leads)) => show(file, &leads, output),
        (false, Err(refused)) => output.lines(refused.text(file, &input)),
    }
    status
}

/// The leads, or the refusal, as JSON.
fn as_json(
    file: &Path,
    input: &Input,
    leads: &Result<Vec<Entry>, Refused>,
) -> json::About<json::Rhythm> {
    let lead = |(place, entry)| json::Lead::new(place, entry);
    let rhythm = leads.as_ref().ok().map(|leads| {
        let all = (1..).zip(leads).map(lead).collect();
        json::Rhythm::new(&leads[0], all)
    });
    let about = json::About::judged(file, input.size, leads.as_ref().err());
    about.holding(rhythm).noted()
}

/// Shows the leads of a record that was accepted.
fn show(file: &Path, leads: &[Entry], output: &mut Output) {
    output.line(format_args!(
        "{}: accepted ({}; {})",
        shown(file),
        how_many(leads.len()),
        flags(&leads[0])
    ));
    let rows: Vec<_> = (1..)
        .zip(leads)
        .map(|(place, entry)| row(place, entry))
        .collect();
    output.lines(table::lines(&COLUMNS, &rows));
}

/// The flags, which all leads share.
fn flags(entry: &Entry) -> String {
    let beat = match entry.had_beat_subtracted() {
        true => "a reference beat was subtracted",
        false => "no reference beat was subtracted",
    };
    format!("flags 0x{:02X}, {beat}", entry.flags)
}

/// A lead's row of the table.
fn row(place: usize, entry: &Entry) -> [String; 10] {
    let hundredths = bits_in_hundredths(entry);
    [
        place.to_string(),
        entry.id.to_string(),
        names::lead(entry.id),
        entry.first.to_string(),
        entry.last.to_string(),
        entry.count().to_string(),
        entry.step.to_string(),
        entry.interval.to_string(),
        entry.order.to_string(),
        format!("{}.{:02}", hundredths / 100, hundredths % 100),
    ]
}

#[cfg(test)]
mod tests {
    use scp::Entry;

    use super::row;

    #[test]
    fn a_row_has_the_bits_of_a_sample() {
        let entry = Entry {
            id: 62,
            flags: 0,
            order: 2,
            step: 5000,
            interval: 2000,
            first: 11,
            last: 13,
            leads: 1,
            bytes: 2,
        };
        let shown = row(4, &entry).join(" ");
        assert_eq!(shown, "4 62 aVR 11 13 3 5000 2000 2 5.33");
        let none = Entry { bytes: 0, ..entry };
        assert_eq!(row(4, &none)[9], "0.00");
        let rounded = Entry { bytes: 1, ..entry };
        assert_eq!(row(4, &rounded)[9], "2.67");
    }
}
