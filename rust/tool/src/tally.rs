//! How many files were accepted, refused and not read, and which record was the busiest.

use std::collections::BTreeMap;
use std::fmt;
use std::path::{Path, PathBuf};

use scp::Refusal;

use crate::paths::shown;
use crate::status::Status;
use crate::table::{self, numbers, words, Column};
use crate::text;

const COLUMNS: [Column; 3] = [numbers("Number"), numbers("Files"), words("Rule broken")];

/// Files, counted by how they fared.
#[derive(Default)]
pub struct Tally {
    pub accepted: usize,
    pub not_read: usize,
    /// Links in folders, which are not followed.
    pub links: usize,
    /// FIFOs, sockets and devices in folders, which are not read.
    pub special_files: usize,
    /// Whether the user ended it before all files were counted.
    pub is_interrupted: bool,
    /// The busiest record, if reading some record compared any structure.
    pub busiest: Option<Busiest>,
    by_refusal: BTreeMap<Refusal, usize>,
}

/// A record, and how many structures of code tables reading its leads compared.
pub struct Busiest {
    pub file: PathBuf,
    pub compared: usize,
}

impl Tally {
    /// Counts a record that was accepted, and that so many structures were compared for. Of equally busy ones the first counts.
    pub fn accept(&mut self, file: &Path, compared: usize) {
        self.accepted += 1;
        let most = self.busiest.as_ref().map_or(0, |record| record.compared);
        if compared > most {
            let file = file.to_path_buf();
            self.busiest = Some(Busiest { file, compared });
        }
    }

    /// Counts a file that was refused.
    pub fn refuse(&mut self, refusal: Refusal) {
        *self.by_refusal.entry(refusal).or_default() += 1;
    }

    /// How many files were refused.
    pub fn refused(&self) -> usize {
        self.by_refusal.values().sum()
    }

    /// How many files there were.
    pub fn files(&self) -> usize {
        self.accepted + self.refused() + self.not_read
    }

    /// Each number that files were refused with, and how many.
    pub fn by_number(&self) -> impl Iterator<Item = (u8, usize)> + '_ {
        let counted = self.by_refusal.iter();
        counted.map(|(refusal, &files)| (refusal.number(), files))
    }

    /// The status of the worst file.
    pub fn status(&self) -> Status {
        match (self.not_read, self.refused()) {
            _ if self.is_interrupted => Status::Interrupted,
            (0, 0) => Status::Accepted,
            (0, _) => Status::Refused,
            _ => Status::NotDone,
        }
    }

    /// What was passed over, at the end of a line that says how many files there were; nothing if nothing was.
    pub fn passed_over(&self) -> String {
        let passed_over = [(self.links, "link"), (self.special_files, "special file")];
        let passed_over = passed_over.into_iter().filter(|(number, _)| *number > 0);
        let passed_over: Vec<_> = passed_over
            .map(|(number, name)| counted(number, name))
            .collect();
        match passed_over.is_empty() {
            true => String::new(),
            false => format!("; passed over: {}", passed_over.join(", ")),
        }
    }

    /// The numbers that files were refused with, as a table.
    pub fn table(&self) -> Vec<String> {
        let row = |(refusal, files): (&Refusal, &usize)| {
            let words = refusal.words().to_string();
            [refusal.number().to_string(), files.to_string(), words]
        };
        let rows: Vec<_> = self.by_refusal.iter().map(row).collect();
        match rows.is_empty() {
            true => Vec::new(),
            false => table::lines(&COLUMNS, &rows),
        }
    }
}

impl fmt::Display for Tally {
    fn fmt(&self, f: &mut fmt::Formatter<'_>) -> fmt::Result {
        let (files, refused) = (self.files(), self.refused());
        let (accepted, not_read) = (self.accepted, self.not_read);
        let files = counted(files, "file");
        if self.is_interrupted {
            write!(f, "interrupted, so far ")?;
        }
        let passed_over = self.passed_over();
        write!(
            f,
            "{files}: {accepted} accepted, {refused} refused, {not_read} not read{passed_over}"
        )
    }
}

impl fmt::Display for Busiest {
    fn fmt(&self, f: &mut fmt::Formatter<'_>) -> fmt::Result {
        let (file, compared) = (shown(&self.file), text::compared(self.compared));
        write!(f, "busiest record: {file} ({compared})")
    }
}

/// A number of things.
fn counted(number: usize, name: &str) -> String {
    let plural = if number == 1 { "" } else { "s" };
    format!("{number} {name}{plural}")
}
