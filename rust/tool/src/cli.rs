//! The words of the command line, and the help on them.

mod index;

use std::path::PathBuf;

use clap::{Parser, Subcommand};
use clap_complete::Shell;
use scp::Refusal;

pub use index::{Form, Index};

/// The end of the tool's help, and of the help of a command for many records.
const STATUS: &str = "\
Exit status:
  0  every file was accepted
  1  some file was refused, or some lead of it, or pack left it alone, or an
     identifier has no entry
  2  some of the work could not be done: a file could not be read, an answer
     not written, no file was found, or the command line is not understood
  130  check was interrupted (Ctrl-C): its summary is of the files until then;
     or index add was, and the index is as it was

A FILE of - is standard input. A file that is refused or cannot be read never
stops the others.";

/// The end of the help of a command for one record.
const ONE: &str = "\
Exit status:
  0  the record was accepted
  1  it was refused, or some lead of it that was to be read, or it has no such
     lead
  2  the work could not be done: the file could not be read, the answer not
     written, or the command line is not understood

A FILE of - is standard input.";

/// The end of the help of a command that reads no record.
const NONE: &str = "\
Exit status:
  0  it was written
  2  it could not be written, or the command line is not understood";

/// The end of the help of a command that writes a record.
const WRITING: &str = "\
OUT is written whole or not at all: it is put beside under another name, synced,
read back and compared, and only then takes its name. A file that is there is
replaced only with --force. An OUT of - is standard output; what is said then
goes to standard error. Nothing is ever written to a terminal.

Exit status:
  0  OUT was written
  1  the record or the job was refused, or the record was left alone; nothing
     was written
  2  the work could not be done: a file could not be read or written, the job
     is not understood, or the command line is not";

/// The head of the help: the tool in a sentence.
const ABOUT: &str = "\
Opens, checks, shows, packs and writes SCP-ECG records.

Records are judged by a library that is proved correct. A record is accepted
or it is refused, with the number of the rule that it breaks, the smallest if
there are several, and with nothing of it shown. What is asked for and is not in
a sound record, as a lead that it does not have, is absent.

docs/output.schema.json says what --json shows, in every command that has it.";

/// The version of the tool, and what was proved: the commit and the kit.
const VERSION: &str = concat!(
    env!("CARGO_PKG_VERSION"),
    " (commit ",
    env!("TIGMAVRESH_COMMIT"),
    ", ",
    env!("TIGMAVRESH_KIT"),
    ")"
);

/// The most files that are checked at once.
const JOBS_MAX: u16 = 1024;

/// The command line.
#[derive(Parser)]
#[command(name = "tigmavresh", version = VERSION, about = ABOUT, after_help = STATUS)]
#[command(arg_required_else_help = true, args_conflicts_with_subcommands = true)]
#[command(disable_help_subcommand = true)]
pub struct Cli {
    /// Say what refusal N means, in plain words and with an example
    #[arg(long, value_name = "N", value_parser = refusal)]
    pub explain: Option<Refusal>,
    /// What is to be done.
    #[command(subcommand)]
    pub command: Option<Command>,
}

/// What the tool can do.
#[derive(Subcommand)]
pub enum Command {
    /// Show the pointers of each record as they are stored
    ///
    /// For each pointer of Section 0: the section's ID and name, its length in bytes
    /// with its header, the index of its first byte (from 1), and whether it is
    /// present. For a record that is refused: the number, what its rule asks, and what
    /// was found.
    ///
    /// As JSON there is an object in each line, and the last one is the summary.
    #[command(verbatim_doc_comment, after_help = STATUS)]
    Open {
        /// The records to open
        #[arg(value_name = "FILE", required = true)]
        files: Vec<PathBuf>,
        /// As JSON, an object in each line
        #[arg(long)]
        json: bool,
    },
    /// Show the header fields of a record, byte for byte
    ///
    /// For each field of Section 1, in the order they are stored in: its tag and name,
    /// its length, its bytes in hex and, if it has any character that can be seen, its
    /// text. The patient identifier is shown by its bytes like every other field:
    /// 30 30 37 00 and 37 00 are two identifiers.
    ///
    /// Text is UTF-8. A NUL is shown as \0, a line break as \n, another character that
    /// cannot be seen as \u{NNNN}, a byte that is not UTF-8 as \xNN, and a backslash as
    /// \\: no two texts look alike.
    ///
    /// The dates of birth and of recording and the time of recording are shown without
    /// quotes, as 2024-03-14 and 09:26:53. A date that is not in the calendar and a
    /// time that is none are shown by their bytes, with a remark. Text, dates and times
    /// are the tool's own reading of the bytes: the proved library says nothing of it.
    ///
    /// As JSON there is one object. A field's bytes are in hex; beside them is its text
    /// without the NUL that closes it, its date or its time, if there is one. Where the
    /// bytes are not UTF-8 there is, in place of the text, the text escaped as above.
    #[command(verbatim_doc_comment, after_help = ONE)]
    Fields {
        /// The record to show
        #[arg(value_name = "FILE")]
        file: PathBuf,
        /// As JSON
        #[arg(long)]
        json: bool,
    },
    /// Show what a record says of each of its leads
    ///
    /// For each lead of Section 3: its place there, from 1, its ID and name, the
    /// numbers of its first and last sample, how many samples it has, the step in
    /// nanovolts, the interval between two samples in microseconds, the order of the
    /// differences stored, and how many bits a sample takes. The leads' streams are
    /// not read; samples does that.
    ///
    /// As JSON there is one object.
    #[command(verbatim_doc_comment, after_help = ONE)]
    Leads {
        /// The record to show
        #[arg(value_name = "FILE")]
        file: PathBuf,
        /// As JSON
        #[arg(long)]
        json: bool,
    },
    /// Show the samples of a record's leads
    ///
    /// Samples are whole numbers, in steps of the nanovolts that are shown beside them.
    /// Every sample shown is the one that was stored: where a reference
    /// beat was subtracted it is added back. A lead that is refused is shown with its
    /// refusal and nothing else, and does not stop the others.
    ///
    /// Above the samples is how many structures of code tables were compared to read
    /// the lead: for each code of its stream, and of its reference beat's, the place
    /// of its structure in the table, from 1, all added up. That is 0 without code
    /// tables, and at most 64 for each bit of the codes: a stream has at most 524,280
    /// bits, so that a lead costs at most 33,553,920 comparisons for each of its one
    /// or two streams.
    ///
    /// As CSV (RFC 4180) there is a column for each lead, and a row for each sample
    /// number that some lead has; refusals go to standard error, and the lead's
    /// column is headed by its refusal and empty.
    ///
    /// As JSON there is one object. Its verdict is that of the record, or else of the
    /// first lead that is refused, whose place is then its lead; each lead that was
    /// read has a verdict of its own.
    #[command(verbatim_doc_comment, after_help = ONE)]
    Samples {
        /// The record to show
        #[arg(value_name = "FILE")]
        file: PathBuf,
        /// The lead at this place alone, from 1
        #[arg(long, value_name = "PLACE", value_parser = place)]
        lead: Option<usize>,
        /// As CSV
        #[arg(long, conflicts_with = "json")]
        csv: bool,
        /// As JSON
        #[arg(long)]
        json: bool,
    },
    /// Check many records: a line for each
    ///
    /// A record is accepted if it opens and every lead of it is read. One with neither
    /// Section 3 nor Section 6 has no lead to be read: it is accepted if it opens and
    /// its code tables, if it has any, keep their rule. Any other record is refused:
    /// its line has the number, that of opening or else of the first lead that is
    /// refused, with what the rule asks and the first thing found; report shows all of
    /// it. At the end: how many files were refused with each number, and the busiest
    /// record, the one with the most structures of code tables compared over all its
    /// leads (tigmavresh help samples says what is counted), or the first of several.
    /// A record that is refused does not count for it.
    ///
    /// In a folder every regular file is checked, whatever its name is, and every folder
    /// in it, in the order of their names. A link is followed if it is given as PATH.
    /// In a folder links, FIFOs, sockets and devices are passed over, and the summary
    /// counts them. If there is no file at all, as in a folder that is not mounted, the
    /// exit status is 2. Each line is shown as soon as it and those before it are ready,
    /// in the order of the files, however many are checked at once. Ctrl-C ends with
    /// the summary of the files so far. As JSON there is an object in each line, and
    /// the last one is the summary.
    #[command(verbatim_doc_comment, after_help = STATUS)]
    Check {
        /// The records, and folders of records; - is standard input
        #[arg(value_name = "PATH", required = true)]
        paths: Vec<PathBuf>,
        /// Only those that are refused; the summary is of all
        #[arg(long)]
        refused: bool,
        /// Do not fail if no file is found
        #[arg(long)]
        allow_empty: bool,
        /// As JSON, an object in each line
        #[arg(long)]
        json: bool,
        /// How many files to check at once; by default as many as there are cores
        #[arg(long, value_name = "N", value_parser = jobs)]
        jobs: Option<u16>,
    },
    /// Show every rule that a record breaks
    ///
    /// The rules of refusals 1 to 9 are asked one by one, not only down to the first
    /// that is broken; then every lead is read, and its answer shown, with how many
    /// structures of code tables were compared (tigmavresh help samples says what is
    /// counted). For each rule that is broken it is said what was found.
    ///
    /// The answer to a rule is certain where those before it are kept. Where an earlier
    /// one is broken it is a hint: bytes may be elsewhere than it looks. If a record is
    /// too long the first rule alone is asked, as not all of it is read.
    ///
    /// As JSON there is one object. Its verdict is that of the record, or else of the
    /// first lead that is refused, whose place is then its lead; each lead that was
    /// read has a verdict of its own.
    #[command(verbatim_doc_comment, after_help = ONE)]
    Report {
        /// The record to report on
        #[arg(value_name = "FILE")]
        file: PathBuf,
        /// As JSON
        #[arg(long)]
        json: bool,
    },
    /// Pack a record's leads into their shortest streams
    ///
    /// The leads are coded again by the record's own tables and difference order, each
    /// into the shortest stream that decodes to its samples. All else stays as it is.
    /// The number of bytes that this saved is shown.
    ///
    /// A record that would lose something by it is left alone, with the reason: one
    /// with other sections than 0, 1, 2, 3 and 6, with more than twelve pointers or an
    /// index at one that is absent, with a reference beat subtracted, with version
    /// bytes that are not all the same, or with reserved, spare or gap bytes that are
    /// not 0. Bits left over behind a lead's last sample, padding too, are no loss: the
    /// stream is what is replaced.
    ///
    /// OUT gets the permissions of IN.
    #[command(verbatim_doc_comment, after_help = WRITING)]
    Pack {
        /// The record to pack; - is standard input
        #[arg(value_name = "IN")]
        file: PathBuf,
        /// Where the packed record is to be put
        #[arg(value_name = "OUT")]
        out: PathBuf,
        /// Replace the file that is there
        #[arg(long)]
        force: bool,
        /// Give OUT the modification time of IN
        #[arg(long)]
        preserve: bool,
    },
    /// Write a record from a job in JSON
    ///
    /// The job has the header fields, the code tables, what all leads have in common
    /// and the leads; their samples are in a CSV file beside it, in the form that
    /// samples --csv writes. docs/JOBS.md says all of it, and samples/job.json is one.
    /// A job that is refused is shown with the number, what its rule asks, and what
    /// was found.
    #[command(verbatim_doc_comment, after_help = WRITING)]
    Write {
        /// The job; - is standard input, with the samples in the current folder
        #[arg(value_name = "JOB")]
        job: PathBuf,
        /// Where the record is to be put
        #[arg(value_name = "OUT")]
        out: PathBuf,
        /// Replace the file that is there
        #[arg(long)]
        force: bool,
    },
    /// Keep an index of records, and look identifiers up in it
    ///
    /// An index is a file with an entry for each record that was added to it: the
    /// patient identifier, the date of recording and the number of leads, sorted by
    /// identifier and then by date. It says which records of a patient there are, and of
    /// when, without the records.
    #[command(verbatim_doc_comment, after_help = index::ALL)]
    #[command(arg_required_else_help = true, disable_help_subcommand = true)]
    Index {
        /// What is to be done with an index.
        #[command(subcommand)]
        command: Index,
    },
    /// Show this help, or that of a command
    #[command(after_help = NONE)]
    Help {
        /// The command
        #[arg(value_name = "COMMAND")]
        command: Vec<String>,
    },
    /// Write the manual page, to be read by man
    ///
    /// For example: tigmavresh man >tigmavresh.1; man ./tigmavresh.1
    #[command(verbatim_doc_comment, after_help = NONE)]
    Man,
    /// Write a shell's completions of these commands
    ///
    /// For example, in bash: source <(tigmavresh completions bash)
    #[command(verbatim_doc_comment, after_help = NONE)]
    Completions {
        /// The shell
        #[arg(value_name = "SHELL")]
        shell: Shell,
    },
}

/// A refusal, by its number.
fn refusal(text: &str) -> Result<Refusal, String> {
    let number = text.parse::<u8>().ok();
    let refusal = number.and_then(|number| Refusal::try_from(number).ok());
    refusal.ok_or_else(|| "no refusal has this number".to_string())
}

/// How many files are checked at once.
fn jobs(text: &str) -> Result<u16, String> {
    let jobs = text
        .parse()
        .ok()
        .filter(|jobs| (1..=JOBS_MAX).contains(jobs));
    jobs.ok_or_else(|| format!("give a whole number from 1 to {JOBS_MAX}"))
}

/// The place of a lead. Whether there is one at it, the record says.
fn place(text: &str) -> Result<usize, String> {
    let place = text.parse().ok();
    place.ok_or_else(|| "give the number of a lead, from 1".to_string())
}

#[cfg(test)]
mod tests {
    use clap::CommandFactory;

    use super::Cli;

    #[test]
    fn the_command_line_is_well_formed() {
        Cli::command().debug_assert();
    }
}
