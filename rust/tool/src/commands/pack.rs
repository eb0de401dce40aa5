//! `tigmavresh pack IN OUT`: a record with its leads by their shortest streams.

use std::collections::BTreeSet;
use std::ops::Range;
use std::path::Path;

use scp::{Entry, Pointer, Refusal};

use super::given::read_or_complain;
use super::write::say;
use crate::input::Input;
use crate::making::{Making, DEFAULT_TABLE, HEADER};
use crate::names;
use crate::output::Output;
use crate::paths::{is_standard, shown, shown_target};
use crate::refused::Refused;
use crate::status::Status;
use crate::store::{Target, Traits};
use crate::table::{self, numbers, words, Column};
use crate::text::parted;

const COLUMNS: [Column; 5] = [
    numbers("Place"),
    words("Lead"),
    numbers("Samples"),
    numbers("Bytes before"),
    numbers("Bytes packed"),
];

/// The pointers that are written.
const POINTERS: usize = 12;
/// The sections that are written.
const WRITTEN: [u16; 5] = [0, 1, 2, 3, 6];

/// Said where there is no time to preserve.
const NO_TIME: &str =
    "--preserve needs IN and OUT to be files: standard input and output have no modification time";

/// How a file is to be put.
#[derive(Clone, Copy)]
pub struct Asked {
    /// In the place of one that is there.
    pub force: bool,
    /// With the modification time of the file that is packed.
    pub preserve: bool,
}

/// Packs a file, and puts the record where it is asked for.
pub fn run(file: &Path, out: &Path, asked: Asked, output: &mut Output) -> Status {
    let Asked { force, preserve } = asked;
    if preserve && (is_standard(file) || is_standard(out)) {
        output.remark(&[NO_TIME.to_string()]);
        return Status::NotDone;
    }
    let Some(target) = Target::or_complain(out, force, output) else {
        return Status::NotDone;
    };
    let Some(input) = read_or_complain(file, false, output) else {
        return Status::NotDone;
    };
    let traits = input.metadata.as_ref();
    let traits = traits.map_or(Ok(Traits::default()), |file| Traits::of(file, preserve));
    match traits {
        Ok(traits) => pack(file, &input, out, &target, &traits, output),
        Err(error) => {
            output.complain(file, &error);
            Status::NotDone
        }
    }
}

/// Packs a record that was read.
fn pack(
    file: &Path,
    input: &Input,
    out: &Path,
    target: &Target,
    traits: &Traits,
    output: &mut Output,
) -> Status {
    let parsed = match Parsed::of(&input.bytes) {
        Ok(parsed) => parsed,
        Err((place, refusal)) => return refuse(file, input, place, refusal, target, output),
    };
    let losses = parsed.losses();
    if !losses.is_empty() {
        leave_alone(file, &losses, target, output);
        return Status::Refused;
    }
    let (making, packed) = match parsed.packed() {
        Ok(packed) => packed,
        Err((place, refusal)) => return refuse(file, input, place, refusal, target, output),
    };
    let check = |back: &[u8]| {
        making.is_said_by(back)?;
        parsed.is_kept_in(back)
    };
    if let Err(error) = target.put(&packed, traits, check) {
        output.complain_of_target(out, &error);
        return Status::NotDone;
    }
    let heading = heading(file, out, input.bytes.len(), packed.len());
    let mut lines = vec![heading];
    if let Ok(after) = scp::leads(&packed) {
        lines.extend(rows(&parsed.entries, &after));
    }
    say(&lines, target, output);
    Status::Accepted
}

/// Says that a record is refused, or a lead of it.
fn refuse(
    file: &Path,
    input: &Input,
    place: usize,
    refusal: Refusal,
    target: &Target,
    output: &mut Output,
) -> Status {
    let refused = Refused::of(input, place, refusal);
    say(&refused.text(file, input), target, output);
    Status::Refused
}

/// Says why a record is left alone.
fn leave_alone(file: &Path, losses: &[String], target: &Target, output: &mut Output) {
    let mut lines = vec![format!(
        "{}: left alone, as packing would lose something",
        shown(file)
    )];
    lines.extend(losses.iter().map(|loss| format!("  {loss}")));
    say(&lines, target, output);
}

/// How many bytes were saved.
fn heading(file: &Path, out: &Path, before: usize, after: usize) -> String {
    let saved = before.saturating_sub(after);
    let saved = parted(&format!("{before} bytes, now {after}: {saved} saved"));
    format!(
        "{}: packed into {} ({saved})",
        shown(file),
        shown_target(out)
    )
}

/// Each lead's stream before and after.
fn rows(before: &[Entry], after: &[Entry]) -> Vec<String> {
    let row = |(place, (before, after)): (usize, (&Entry, &Entry))| {
        [
            place.to_string(),
            names::lead(before.id),
            before.count().to_string(),
            before.bytes.to_string(),
            after.bytes.to_string(),
        ]
    };
    let rows: Vec<_> = (1..).zip(before.iter().zip(after)).map(row).collect();
    table::lines(&COLUMNS, &rows)
}

/// A record that has leads, taken apart.
struct Parsed<'a> {
    record: &'a [u8],
    pointers: Vec<Pointer>,
    entries: Vec<Entry>,
    /// How many bytes the data of Sections 1, 2, 3 and 6 have without what is spare; 0 where the section is absent.
    used: [(u16, usize); 4],
}

/// A refusal where the lead at a place was asked for.
type Placed = (usize, Refusal);

impl<'a> Parsed<'a> {
    /// Takes a record apart, if it has leads that the rules allow.
    fn of(record: &'a [u8]) -> Result<Parsed<'a>, Placed> {
        let whole = |refusal| (1, refusal);
        let pointers = scp::open(record).map_err(whole)?;
        let entries = scp::leads(record).map_err(whole)?;
        let section_1 = scp::walk_start(record).map_err(whole)?;
        let fields = scp::fields(record).map_err(whole)?;
        let last = fields.last().map_or(0, |field| field.range.end);
        let mut parsed = Parsed {
            record,
            pointers,
            entries,
            used: [(1, 0), (2, 0), (3, 0), (6, 0)],
        };
        let streams: usize = parsed.entries.iter().map(|entry| entry.bytes).sum();
        let leads = parsed.entries.len();
        parsed.used[0].1 = last + 3 - (section_1.start + HEADER);
        parsed.used[1].1 = tables_length(parsed.data(2));
        parsed.used[2].1 = 2 + 9 * leads;
        parsed.used[3].1 = 6 + 2 * leads + streams;
        Ok(parsed)
    }

    /// Where a section is, if it is present.
    fn section(&self, id: u16) -> Option<Range<usize>> {
        let pointer = self.pointers.iter().find(|pointer| pointer.id == id)?;
        place(pointer)
    }

    /// A section's data; none where it is absent.
    fn data(&self, id: u16) -> &'a [u8] {
        let section = self.section(id);
        section.map_or(&[], |section| {
            &self.record[section.start + HEADER..section.end]
        })
    }

    /// A section's data without what is spare.
    fn used(&self, id: u16) -> &'a [u8] {
        let used = self.used.iter().find(|used| used.0 == id);
        let data = self.data(id);
        &data[..used.map_or(0, |used| used.1.min(data.len()))]
    }

    /// Some bytes of a section, as far as it has them, if it is present.
    fn part(&self, id: u16, part: &Range<usize>) -> Option<&'a [u8]> {
        let section = &self.record[self.section(id)?];
        section.get(part.start..part.end.min(section.len()))
    }

    /// All that would be lost.
    fn losses(&self) -> Vec<String> {
        let mut losses = Vec::new();
        let pointers = self.pointers.len();
        if pointers > POINTERS {
            losses.push(format!(
                "there are {pointers} pointers, and {POINTERS} are written"
            ));
        }
        for pointer in &self.pointers {
            let (id, index, name) = (pointer.id, pointer.index, names::section(pointer.id));
            if pointer.is_present() && !WRITTEN.contains(&id) {
                losses.push(format!("Section {id}, {name}, is not written"));
            }
            if !pointer.is_present() && index != 0 {
                losses.push(format!(
                    "Section {id} is absent, and its pointer has index {index}, not 0"
                ));
            }
        }
        if self.entries[0].had_beat_subtracted() {
            losses.push("a reference beat was subtracted from its leads".to_string());
        }
        losses.extend(self.versions());
        losses.extend(self.spare_bits());
        losses.extend(self.gaps());
        losses
    }

    /// Version bytes, which are written all alike.
    fn versions(&self) -> Vec<String> {
        let mut losses = Vec::new();
        let mut versions = BTreeSet::new();
        for pointer in &self.pointers {
            let Some(section) = place(pointer) else {
                continue;
            };
            let [one, two] = [8, 9].map(|at| self.record[section.start + at]);
            versions.insert(one);
            if one != two {
                let id = pointer.id;
                losses.push(format!(
                    "Section {id} has the version bytes {one} and {two}, which differ"
                ));
            }
        }
        if versions.len() > 1 {
            let versions: Vec<String> = versions.iter().map(u8::to_string).collect();
            let versions = versions.join(", ");
            losses.push(format!("sections have different versions: {versions}"));
        }
        losses
    }

    /// Reserved and spare bytes, which are written as 0.
    fn spare_bits(&self) -> Vec<String> {
        let mut losses = Vec::new();
        for (id, _) in self.used {
            let Some(section) = self.section(id) else {
                continue;
            };
            let reserved = &self.record[section.start + 10..section.start + HEADER];
            if reserved.iter().any(|&byte| byte != 0) {
                losses.push(format!("Section {id} has reserved bytes that are not 0"));
            }
            let spare = &self.data(id)[self.used(id).len()..];
            if let [byte] = spare.strip_prefix(&[0]).unwrap_or(spare) {
                losses.push(format!(
                    "Section {id} ends in a spare byte of 0x{byte:02X}, not 0"
                ));
            }
        }
        losses
    }

    /// Bytes that are in no section, which are not written.
    fn gaps(&self) -> Vec<String> {
        let mut places: Vec<_> = self.pointers.iter().filter_map(place).collect();
        places.sort_by_key(|place| place.start);
        places.push(self.record.len()..self.record.len());
        let mut losses = Vec::new();
        let mut end = places[0].start;
        for place in places {
            let gap = &self.record[end.min(place.start)..place.start];
            if gap.iter().any(|&byte| byte != 0) {
                let (from, to) = (end + 1, place.start);
                losses.push(format!(
                    "bytes {from} to {to} are in no section, and not all are 0"
                ));
            }
            end = place.end;
        }
        losses
    }

    /// The content of the packed record: all leads read.
    fn making(&self) -> Result<Making, Placed> {
        let entry = self.entries[0];
        let mut making = Making {
            section1: self.used(1).to_vec(),
            section2: self.used(2).to_vec(),
            version: self.record[self.section(0).map_or(0, |section| section.start) + 8],
            flags: entry.flags,
            step: entry.step,
            interval: entry.interval,
            order: entry.order,
            ..Making::default()
        };
        for place in 1..=self.entries.len() {
            let read = scp::samples(self.record, place);
            let (lead, samples) = read.map_err(|refusal| (place, refusal))?;
            making.add(lead.id, lead.first, &samples);
        }
        Ok(making)
    }

    /// The content of the packed record, and the record.
    fn packed(&self) -> Result<(Making, Vec<u8>), Placed> {
        let making = self.making()?;
        let packed = scp::written(&making.job()).map_err(|refusal| (1, refusal))?;
        Ok((making, packed))
    }

    /// Whether a packed record has all that this one has: Sections 1 to 3 bit for bit, and the heads of the others.
    fn is_kept_in(&self, packed: &[u8]) -> Result<(), String> {
        let refused = |(_, refusal): Placed| format!("it is refused: {refusal}");
        let packed = Parsed::of(packed).map_err(refused)?;
        let kept = |id, part: Range<usize>| self.part(id, &part) == packed.part(id, &part);
        let holds = [1, 2, 3].into_iter().all(|id| kept(id, 0..usize::MAX))
            && kept(0, 2..HEADER)
            && kept(6, 8..HEADER + 6);
        match holds {
            true => Ok(()),
            false => Err("it does not keep all of the record".to_string()),
        }
    }
}

/// Where the section of a pointer is, if it is present.
fn place(pointer: &Pointer) -> Option<Range<usize>> {
    let start = (pointer.index as usize).checked_sub(1)?;
    let end = start + pointer.length as usize;
    pointer.is_present().then_some(start..end)
}

/// How many bytes of a Section 2 that keeps the rules are its tables.
fn tables_length(data: &[u8]) -> usize {
    let number = |at: usize| match data.get(at..at + 2) {
        Some(bytes) => u16::from_le_bytes([bytes[0], bytes[1]]),
        None => 0,
    };
    match number(0) {
        _ if data.is_empty() => 0,
        DEFAULT_TABLE => 2,
        tables => (0..tables).fold(2, |at, _| at + 2 + 9 * usize::from(number(at))),
    }
}
