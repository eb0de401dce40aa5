//! `tigmavresh samples FILE`: the samples of a record's leads, as text, CSV or JSON.

use std::io::{self, Write};
use std::iter;
use std::path::Path;

use scp::{Entry, Lead, Refusal};

use super::given::read_or_complain;
use crate::csv_form;
use crate::input::Input;
use crate::json;
use crate::names;
use crate::output::Output;
use crate::paths::shown;
use crate::refused::{self, Refused};
use crate::status::Status;
use crate::text::{compared, how_many};
use crate::verdict::Room;

/// How many samples a line of text shows.
const SAMPLES_A_LINE: usize = 10;

/// The form that samples are shown in.
#[derive(Clone, Copy)]
pub enum Form {
    /// For a person to read.
    Text,
    /// RFC 4180.
    Csv,
    /// One object.
    Json,
}

impl Form {
    /// The form that the command line asks for.
    pub fn of(csv: bool, json: bool) -> Form {
        match (csv, json) {
            (true, _) => Form::Csv,
            (_, true) => Form::Json,
            _ => Form::Text,
        }
    }
}

/// The leads that were asked for.
struct Asked {
    leads: Vec<Read>,
    /// How many leads the record has.
    all: usize,
}

/// A lead that was asked for: what the record says of it, and its samples or its own refusal.
struct Read {
    place: usize,
    lead: Lead,
    samples: Result<Vec<i16>, Refusal>,
}

impl Read {
    /// Its place and name in a sentence.
    fn title(&self) -> String {
        format!("Lead {}, {}", self.place, names::lead(self.lead.id))
    }

    /// The number of its last sample.
    fn last(&self) -> u32 {
        self.lead.first + (self.lead.count as u32 - 1)
    }
}

/// Shows the samples of a file, of all leads or of one.
pub fn run(file: &Path, place: Option<usize>, form: Form, output: &mut Output) -> Status {
    let Some(input) = read_or_complain(file, matches!(form, Form::Json), output) else {
        return Status::NotDone;
    };
    output.block();
    let shown = read(&input.bytes, place).and_then(|asked| {
        match form {
            Form::Text => as_text(file, &input, &asked, output),
            Form::Csv => as_csv(file, &input, &asked.leads, output),
            Form::Json => output.line(json::text(&as_json(file, &input, &asked.leads)?)),
        }
        Ok(asked.leads.iter().all(|lead| lead.samples.is_ok()))
    });
    match shown {
        Ok(true) => Status::Accepted,
        Ok(false) => Status::Refused,
        Err(refusal) => {
            let refused = Refused::of(&input, place.unwrap_or(1), refusal);
            refuse(file, &input, &refused, form, output);
            Status::Refused
        }
    }
}

/// Reads the lead at a place, or all of them. If the record is refused, all are; 12 to 14 refuse one lead. The library
/// judges the whole record whenever it is asked for a lead, so that each is asked for once.
fn read(record: &[u8], place: Option<usize>) -> Result<Asked, Refusal> {
    let all = scp::lead(record, place.unwrap_or(1))?.leads;
    let places = place.map_or(1..=all, |place| place..=place);
    let mut room = Room::default();
    let read = |place| {
        let (lead, samples) = match room.read(record, place) {
            Ok((lead, samples)) => (lead, Ok(samples.to_vec())),
            // nothing is said of a lead with its refusal
            Err(refusal) => (unread(&scp::lead(record, place)?), Err(refusal)),
        };
        Ok(Read {
            place,
            lead,
            samples,
        })
    };
    let leads = places.map(read).collect::<Result<_, _>>()?;
    Ok(Asked { leads, all })
}

/// A lead as its entry has it.
fn unread(entry: &Entry) -> Lead {
    Lead {
        id: entry.id,
        flags: entry.flags,
        step: entry.step,
        interval: entry.interval,
        first: entry.first,
        count: entry.count(),
        compared: 0,
    }
}

/// Shows that a record is refused, or has not the lead that was asked for.
fn refuse(file: &Path, input: &Input, refused: &Refused, form: Form, output: &mut Output) {
    match form {
        Form::Text => output.lines(refused.text(file, input)),
        Form::Csv => output.remark(&refused.text(file, input)),
        Form::Json => {
            let about = json::About::<json::Rhythm>::judged(file, input.size, Some(refused));
            output.line(json::text(&about.noted()));
        }
    }
}

// ---- text

fn as_text(file: &Path, input: &Input, asked: &Asked, output: &mut Output) {
    output.line(format_args!("{}: {}", shown(file), summary(asked)));
    for lead in &asked.leads {
        output.block();
        match &lead.samples {
            Ok(samples) => show(lead, samples, output),
            Err(refusal) => {
                let number = refusal.number();
                output.line(format_args!("{}: refused, number {number}", lead.title()));
                output.lines(Refused::of(input, lead.place, *refusal).lines());
            }
        }
    }
    if asked.leads.iter().any(|lead| lead.samples.is_err()) {
        refused::footnote(output);
    }
}

/// How many leads were accepted, and how many were not.
fn summary(Asked { leads, all }: &Asked) -> String {
    let refused = leads.iter().filter(|lead| lead.samples.is_err()).count();
    let asked = match &leads[..] {
        [lead] if *all > 1 => format!("lead {} of {all}", lead.place),
        leads => how_many(leads.len()),
    };
    match refused {
        0 => format!("accepted ({asked})"),
        refused if refused == leads.len() => format!("refused ({asked})"),
        refused => format!("{refused} of {asked} refused"),
    }
}

/// Shows a lead's samples, some in a line, each line with the number of its first, below what else was read.
fn show(lead: &Read, samples: &[i16], output: &mut Output) {
    let Lead {
        first,
        step,
        interval,
        ..
    } = lead.lead;
    let (last, compared) = (lead.last(), compared(lead.lead.compared as usize));
    output.line(format_args!(
        "{}: samples {first} to {last}, in steps of {step} nV, {interval} us apart; {compared}",
        lead.title()
    ));
    let label = last.to_string().len();
    let widest = samples.iter().map(|sample| sample.to_string().len()).max();
    let width = widest.unwrap_or(0);
    for (number, line) in (first..=last)
        .step_by(SAMPLES_A_LINE)
        .zip(samples.chunks(SAMPLES_A_LINE))
    {
        let cells: String = line.iter().map(|one| format!("  {one:>width$}")).collect();
        output.line(format_args!("  {number:>label$} {cells}"));
    }
}

// ---- CSV

/// A column for each lead, a row for each sample number that some lead has. Refusals go to standard error.
fn as_csv(file: &Path, input: &Input, leads: &[Read], output: &mut Output) {
    output.write(|to| write_csv(leads, to));
    let mut remarks = Vec::new();
    for lead in leads {
        if let Err(refusal) = lead.samples {
            let (name, title, number) = (shown(file), lead.title(), refusal.number());
            remarks.push(format!("{name}: {title}: refused, number {number}"));
            remarks.extend(Refused::of(input, lead.place, refusal).lines());
        }
    }
    if !remarks.is_empty() {
        remarks.push(refused::NOTE.to_string());
        output.remark(&remarks);
    }
}

fn write_csv(leads: &[Read], to: &mut impl Write) -> io::Result<()> {
    let head = iter::once("sample".to_string()).chain(leads.iter().map(column));
    let rows = sample_numbers(leads).map(|number| {
        let cells = leads.iter().map(|lead| cell(lead, number));
        iter::once(number.to_string()).chain(cells).collect()
    });
    csv_form::write(iter::once(head.collect::<Vec<String>>()).chain(rows), to)
}

/// A column's head: the lead's place and name, and what a sample of 1 stands for, or its refusal.
fn column(lead: &Read) -> String {
    let (place, id) = (lead.place, lead.lead.id);
    match &lead.samples {
        Ok(_) => names::column(place, id, lead.lead.step),
        Err(refusal) => format!("{place} {} (refused {})", names::lead(id), refusal.number()),
    }
}

/// A lead's sample of this number; nothing if it has none.
fn cell(lead: &Read, number: u32) -> String {
    let sample = number
        .checked_sub(lead.lead.first)
        .zip(lead.samples.as_ref().ok())
        .and_then(|(place, samples)| samples.get(place as usize));
    sample.map_or_else(String::new, i16::to_string)
}

/// The sample numbers that some lead has which was read, rising. Spans may lie far apart, so gaps are not walked over.
fn sample_numbers(leads: &[Read]) -> impl Iterator<Item = u32> {
    let read = leads.iter().filter(|lead| lead.samples.is_ok());
    let mut spans: Vec<(u32, u32)> = read.map(|lead| (lead.lead.first, lead.last())).collect();
    spans.sort();
    let mut joined: Vec<(u32, u32)> = Vec::new();
    for (first, last) in spans {
        match joined.last_mut() {
            Some(before) if first <= before.1 => before.1 = before.1.max(last),
            _ => joined.push((first, last)),
        }
    }
    joined.into_iter().flat_map(|(first, last)| first..=last)
}

// ---- JSON

/// The record has the refusal of the first lead that is refused. The entries are asked for, since JSON has all of them:
/// the order of the differences and the bytes of the streams, too.
fn as_json(
    file: &Path,
    input: &Input,
    leads: &[Read],
) -> Result<json::About<json::Rhythm>, Refusal> {
    let entry = |lead: &Read| scp::lead(&input.bytes, lead.place);
    let entries: Vec<Entry> = leads.iter().map(entry).collect::<Result<_, _>>()?;
    let refused = |lead: &Read| {
        let refusal = *lead.samples.as_ref().err()?;
        Some(Refused::of(input, lead.place, refusal))
    };
    let first = leads
        .iter()
        .find_map(|lead| Some((lead.place, refused(lead)?)));
    let (place, first) = first.unzip();
    let lead = |(lead, entry): (&Read, &Entry)| {
        let refused = refused(lead);
        let answer = refused.as_ref().map_or(Ok(lead.lead.compared), Err);
        let told = json::Lead::new(lead.place, entry).answered(answer);
        match &lead.samples {
            Ok(samples) => told.with(samples),
            Err(_) => told,
        }
    };
    let told = leads.iter().zip(&entries).map(lead).collect();
    let rhythm = json::Rhythm::new(&entries[0], told);
    let about = json::About::judged(file, input.size, first.as_ref()).of_lead(place);
    Ok(about.holding(Some(rhythm)).noted())
}

#[cfg(test)]
mod tests {
    use scp::Lead;

    use super::{cell, sample_numbers, write_csv, Read};

    /// A lead with these samples from `first` on.
    fn lead(place: usize, first: u32, samples: &[i16]) -> Read {
        Read {
            place,
            lead: Lead {
                id: place as u8,
                flags: 0,
                step: 5000,
                interval: 2000,
                first,
                count: samples.len(),
                compared: 0,
            },
            samples: Ok(samples.to_vec()),
        }
    }

    fn csv(leads: &[Read]) -> String {
        let mut written = Vec::new();
        write_csv(leads, &mut written).unwrap();
        String::from_utf8(written).unwrap()
    }

    #[test]
    fn a_cell_is_empty_where_a_lead_has_no_sample() {
        let leads = [lead(1, 1, &[7, -8]), lead(2, 2, &[9, 10])];
        let text = "sample,1 I (5000 nV),2 II (5000 nV)\r\n1,7,\r\n2,-8,9\r\n3,,10\r\n";
        assert_eq!(csv(&leads), text);
    }

    #[test]
    fn spans_far_apart_have_no_rows_between_them() {
        let leads = [
            lead(1, u32::MAX - 1, &[1, 2]),
            lead(2, 3, &[3]),
            lead(3, 4, &[4]),
        ];
        let numbers: Vec<u32> = sample_numbers(&leads).collect();
        assert_eq!(numbers, [3, 4, u32::MAX - 1, u32::MAX]);
        assert_eq!(cell(&leads[0], u32::MAX), "2");
        assert_eq!(cell(&leads[0], 3), "");
    }

    #[test]
    fn a_lead_that_is_refused_has_an_empty_column() {
        let mut leads = [lead(1, 1, &[7]), lead(2, 1, &[9, 9])];
        leads[1].samples = Err(scp::samples(&[], 1).unwrap_err());
        let text = "sample,1 I (5000 nV),2 II (refused 1)\r\n1,7,\r\n";
        assert_eq!(csv(&leads), text);
    }
}
