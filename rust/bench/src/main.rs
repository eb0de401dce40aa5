//! Measures the proved library beside the same work in plain Rust: `rust/bench/run`.
//!
//! Both sides of a line do their work in turns, in one process, and the medians of all rounds are shown with their ratio.
//! Both must give the same answers before anything is measured. Nothing is asserted of the times.

mod biosig;
mod encoding;
mod folder;
mod growth;
mod index;
mod measure;
mod memory;
mod picture;
mod plain;
mod reading;
mod scratch;

use std::env::consts::ARCH;
use std::fs;
use std::path::PathBuf;
use std::process::exit;

use clap::error::ErrorKind;
use clap::{CommandFactory, Parser, ValueEnum};

use measure::Table;

/// Measure the proved library beside plain Rust.
#[derive(Parser)]
#[command(bin_name = "rust/bench/run")]
struct Cli {
    /// What to measure; all of it if nothing is named
    parts: Vec<Part>,
    /// How many rounds each line has
    #[arg(long, value_name = "N", default_value_t = 41)]
    rounds: usize,
    /// How many entries the index has; in the part growth, the largest one
    #[arg(long, value_name = "N", default_value_t = 1_000_000)]
    entries: usize,
    /// Where to draw what the part growth has measured, as an SVG picture
    #[arg(long, value_name = "FILE")]
    picture: Option<PathBuf>,
    /// What the picture says of the machine, if not what the script finds
    #[arg(long, value_name = "WORDS", default_value = ARCH, hide_default_value = true, overrides_with = "machine")]
    machine: String,
    /// How the tool is run, the words of it with blanks between; the script says it
    #[arg(long, value_name = "WORDS", default_value = "", hide = true)]
    tool: String,
}

/// A part of the benchmark.
#[derive(Clone, Copy, PartialEq, Eq, ValueEnum)]
enum Part {
    /// A record of 12 leads: opening it, and reading all leads
    Record,
    /// The same beside biosig, if it is installed
    Biosig,
    /// The check of 1 MiB
    Crc,
    /// A long lead by tables of the record's own
    Engine,
    /// Encoding a lead
    Encoding,
    /// An index: looking up, adding, listing, merging
    Index,
    /// A folder of 2,000 records through the tool's `check`
    Folder,
    /// Indexes of 10,000 to 1,000,000 entries: building each, then merging, adding and looking up; time and memory
    Growth,
}

impl Cli {
    /// Whether a part is to be measured.
    fn asks(&self, part: Part) -> bool {
        self.parts.is_empty() || self.parts.contains(&part)
    }

    /// Ends the program where a picture is asked for and nothing is measured for it.
    fn refuse_empty_picture(&self) {
        if self.picture.is_some() && !self.asks(Part::Growth) {
            let why = "--picture shows the part growth, which is not named";
            let refusal = Cli::command().error(ErrorKind::ArgumentConflict, why);
            refusal.exit();
        }
    }
}

fn main() {
    let cli = Cli::parse();
    cli.refuse_empty_picture();
    let mut table = Table::new(cli.rounds.max(1));
    if cli.asks(Part::Record) {
        reading::record(&mut table);
    }
    if cli.asks(Part::Biosig) {
        biosig::all(&mut table);
    }
    if cli.asks(Part::Crc) {
        reading::crc(&mut table);
    }
    if cli.asks(Part::Engine) {
        reading::engine(&mut table);
    }
    if cli.asks(Part::Encoding) {
        encoding::all(&mut table);
    }
    if cli.asks(Part::Index) {
        index::all(&mut table, cli.entries.max(1));
    }
    if cli.asks(Part::Folder) {
        let words: Vec<String> = cli.tool.split_whitespace().map(String::from).collect();
        folder::all(&mut table, &words);
    }
    // The last one: a table of its own comes behind its lines.
    if cli.asks(Part::Growth) {
        grow(&mut table, &cli);
    }
}

/// Measures how the index grows, and draws it if asked.
fn grow(table: &mut Table, cli: &Cli) {
    let all = growth::all(table, cli.entries.max(1));
    let Some(file) = &cli.picture else {
        return;
    };
    if let Err(error) = fs::write(file, picture::of(&all, &cli.machine)) {
        eprintln!("bench: {} is not written: {error}", file.display());
        exit(1);
    }
}
