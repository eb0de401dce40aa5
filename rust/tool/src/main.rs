//! `tigmavresh`: opens, checks, shows, packs and writes SCP-ECG records.
//!
//! The tool reads files and writes text, records and indexes. All that it says of them is the proved library's answer, but for
//! the lines that explain a refusal, which say so ([`explain`]), and for what a field's bytes are read as ([`reading`]); a
//! record or an index that it writes is the library's, byte for byte.

mod cli;
mod closed;
mod commands;
mod csv_form;
mod escape;
mod explain;
mod filed;
mod files;
mod held;
mod input;
mod interrupt;
mod job;
mod json;
mod making;
mod many;
mod names;
mod ordered;
mod output;
mod paths;
mod progress;
mod reading;
mod refused;
mod rules;
mod runs;
mod status;
mod store;
mod table;
mod tally;
mod text;
mod verdict;

use std::io::Write;
use std::process::ExitCode;

use clap::Parser;

use cli::{Cli, Command};
use commands::check;
use commands::pack;
use commands::samples::Form;
use output::Output;
use status::Status;

fn main() -> ExitCode {
    let mut output = Output::standard();
    let asked = match Cli::try_parse() {
        Ok(asked) => asked,
        Err(told) => {
            let status = tell(&told, &mut output);
            return output.end(status).into();
        }
    };
    let status = match (asked.explain, asked.command) {
        (Some(refusal), _) => rules::show(refusal, &mut output),
        (None, Some(command)) => run(command, &mut output),
        // the command line is not understood without either
        (None, None) => Status::NotDone,
    };
    output.end(status).into()
}

/// Tells of a command line that asks for help or for the version, or is not understood.
fn tell(told: &clap::Error, output: &mut Output) -> Status {
    if told.use_stderr() {
        let _ = told.print();
        return Status::NotDone;
    }
    output.write(|to| write!(to, "{}", told.render()));
    Status::Accepted
}

/// Shows the help of the tool, or of a command: what --help shows.
fn help(command: Vec<String>, output: &mut Output) -> Status {
    let words = ["tigmavresh".to_string()].into_iter().chain(command);
    let words = words.chain(["--help".to_string()]);
    match Cli::try_parse_from(words) {
        Err(told) => tell(&told, output),
        // the words ask for help, and for nothing else
        Ok(_) => Status::NotDone,
    }
}

/// Does what a command asks for.
fn run(command: Command, output: &mut Output) -> Status {
    match command {
        Command::Open { files, json } => commands::open::run(&files, json, output),
        Command::Fields { file, json } => commands::fields::run(&file, json, output),
        Command::Leads { file, json } => commands::leads::run(&file, json, output),
        Command::Samples {
            file,
            lead,
            csv,
            json,
        } => commands::samples::run(&file, lead, Form::of(csv, json), output),
        Command::Check {
            paths,
            refused,
            allow_empty,
            json,
            jobs,
        } => {
            let asked = check::Asked {
                refused,
                json,
                allow_empty,
            };
            check::run(paths, asked, jobs, output)
        }
        Command::Report { file, json } => commands::report::run(&file, json, output),
        Command::Pack {
            file,
            out,
            force,
            preserve,
        } => pack::run(&file, &out, pack::Asked { force, preserve }, output),
        Command::Write { job, out, force } => commands::write::run(&job, &out, force, output),
        Command::Index { command } => commands::index::run(command, output),
        Command::Help { command } => help(command, output),
        Command::Man => commands::man::run(output),
        Command::Completions { shell } => commands::completions::run(shell, output),
    }
}
