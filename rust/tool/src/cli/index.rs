//! The words of `tigmavresh index`, and the help on them.

use std::ffi::OsString;
use std::path::PathBuf;

use clap::{Args, Subcommand};

use super::jobs;

/// The end of the help on all commands of an index.
pub const ALL: &str = "\
Exit status:
  0  the work was done
  1  some record was refused, or an index was, or there is no entry of the
     identifier
  2  the work, or some of it, could not be done: a file could not be read or
     written, another run was writing to INDEX, or the command line is not
     understood
  130  add was interrupted (Ctrl-C)

For the help of one of them: tigmavresh help index COMMAND";

/// The end of the help of the command that adds records to an index.
const ADDING: &str = "\
Exit status:
  0  every record was added
  1  some record was refused, and the others were added; or INDEX was refused,
     and nothing was added
  2  the work, or some of it, could not be done: a record could not be read (the
     others were added), INDEX could not be written or another run was adding to
     it (nothing was added), no file was found, or the command line is not
     understood
  130  it was interrupted (Ctrl-C), and INDEX is as it was";

/// The end of the help of the command that merges indexes.
const MERGING: &str = "\
Exit status:
  0  every OTHER was merged into INDEX
  1  INDEX or some OTHER was refused, and nothing was merged
  2  the work could not be done, and nothing was merged: some OTHER could not be
     read, INDEX could not be written or another run was writing to it, or the
     command line is not understood

An OTHER of - is standard input.";

/// The end of the help of the command that looks an identifier up.
const FINDING: &str = "\
Exit status:
  0  it has entries
  1  it has none, or INDEX was refused
  2  the work could not be done: INDEX could not be read, the answer not written,
     or the command line is not understood

An INDEX of - is standard input.";

/// The end of the help of a command that reads an index.
const READING: &str = "\
Exit status:
  0  INDEX is an index
  1  it was refused
  2  the work could not be done: INDEX could not be read, the answer not written,
     or the command line is not understood

An INDEX of - is standard input.";

// The form that entries are shown in. Doc comment it has none: clap would show that in the place of the command's own.
#[derive(Args, Clone, Copy)]
pub struct Form {
    /// As CSV
    #[arg(long, conflicts_with = "json")]
    pub csv: bool,
    /// In CSV, identifiers that a spreadsheet keeps as text
    #[arg(long, requires = "csv")]
    pub excel: bool,
    /// As JSON, an object in each line
    #[arg(long)]
    pub json: bool,
}

/// What can be done with an index.
#[derive(Subcommand)]
pub enum Index {
    /// Add records to an index
    ///
    /// Each record gets an entry: its patient identifier, the date of recording and how
    /// many leads Section 3 says it has, 0 if it has no Section 3. Entries are sorted by
    /// the identifier's bytes and then by date; equal ones stand in the order in which
    /// their records were added. A record is added as often as it is given.
    ///
    /// Records are read side by side and added in the order of the paths, those of a
    /// folder in the order of their names, as check has it: INDEX is the same whatever
    /// --jobs is. INDEX itself is passed over where it is one of the files.
    ///
    /// A record is refused if it does not open (1 to 6), if its Section 3 breaks the
    /// rules (8), or if its date has a month outside 1 to 12 or a day outside 1 to 31
    /// (24); its samples are not read. It is shown with its refusal, and the others are
    /// added. The closing line says how many records were added and refused, and how
    /// many entries INDEX has now.
    ///
    /// INDEX is made if it is not there. It is replaced at the end, whole or not at all:
    /// an interruption leaves it as it was. Until then it is locked, and a second run
    /// that would add to it ends at once. If INDEX is no index (26), it is said why, and
    /// nothing is added.
    ///
    /// As JSON there is an object in each line, for each record that was not added, and
    /// the last one is the summary.
    #[command(verbatim_doc_comment, after_help = ADDING)]
    Add {
        /// The index
        #[arg(value_name = "INDEX")]
        index: PathBuf,
        /// The records, and folders of records; - is standard input
        #[arg(value_name = "PATH", required = true)]
        paths: Vec<PathBuf>,
        /// Do not fail if no file is found
        #[arg(long)]
        allow_empty: bool,
        /// As JSON, an object in each line
        #[arg(long)]
        json: bool,
        /// How many records to read at once; by default as many as there are cores
        #[arg(long, value_name = "N", value_parser = jobs)]
        jobs: Option<u16>,
    },
    /// Merge indexes into an index
    ///
    /// Each OTHER is an index, as add makes it. INDEX then has its own entries and those
    /// of all OTHERs, as if their records had been added to it one after another: of
    /// equal entries its own stand first, and then those of each OTHER in turn. An OTHER
    /// is merged as often as it is given. INDEX cannot be merged into itself.
    ///
    /// INDEX is made if it is not there. It is replaced at the end, whole or not at all,
    /// and locked until then, as add has it. If INDEX or some OTHER is no index (26), or
    /// some OTHER cannot be read, it is said why, and nothing is merged.
    ///
    /// As JSON there is an object in each line, for each OTHER that was refused or not
    /// read, and the last one is the summary.
    #[command(verbatim_doc_comment, after_help = MERGING)]
    Merge {
        /// The index
        #[arg(value_name = "INDEX")]
        index: PathBuf,
        /// The indexes that are merged into it
        #[arg(value_name = "OTHER", required = true)]
        others: Vec<PathBuf>,
        /// As JSON, an object in each line
        #[arg(long)]
        json: bool,
    },
    /// Show the entries of an identifier
    ///
    /// All entries are shown whose identifier is IDENTIFIER byte for byte, and no others:
    /// 007 and 7 are two people. It is given without the NUL that closes it in a record.
    /// One that begins with - is given after a word of --.
    ///
    /// Entries are shown as list shows them.
    #[command(verbatim_doc_comment, after_help = FINDING)]
    Find {
        /// The index
        #[arg(value_name = "INDEX")]
        index: PathBuf,
        /// The identifier
        #[arg(value_name = "IDENTIFIER")]
        identifier: OsString,
        /// IDENTIFIER is pairs of hex digits
        #[arg(long)]
        hex: bool,
        #[command(flatten)]
        form: Form,
    },
    /// Show all entries of an index
    ///
    /// For each entry: the identifier, the date of recording and the number of leads.
    /// Identifiers are shown as text, escaped as fields escapes it: no two look alike.
    ///
    /// As CSV (RFC 4180) there is a row for each entry: the identifier as text and as
    /// bytes in hex, which begin with hex:, the date, and the number of leads. Most
    /// spreadsheets take 007 for the number 7, and an identifier that begins with = for
    /// a formula. With --excel 007 is written as ="007", and they keep it as text.
    ///
    /// As JSON there is an object in each line, for each entry. An identifier is its
    /// bytes in hex, and its text is beside it, as fields shows it.
    #[command(verbatim_doc_comment, after_help = READING)]
    List {
        /// The index
        #[arg(value_name = "INDEX")]
        index: PathBuf,
        #[command(flatten)]
        form: Form,
    },
    /// Check whether a file is an index
    ///
    /// If it is one: how many entries it has, of how many identifiers, and from which
    /// date to which. Else it is refused, with 26, and it is said why: which entry is
    /// none by the rules, or stands behind one that it belongs before, and at which byte
    /// (from 1) it starts.
    ///
    /// As JSON there is one object.
    #[command(verbatim_doc_comment, after_help = READING)]
    Check {
        /// The index
        #[arg(value_name = "INDEX")]
        index: PathBuf,
        /// As JSON
        #[arg(long)]
        json: bool,
    },
}
