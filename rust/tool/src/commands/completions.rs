//! `tigmavresh completions SHELL`: what a shell needs to complete the command line.

use std::io::Write;

use clap::CommandFactory;
use clap_complete::Shell;

use crate::cli::Cli;
use crate::output::Output;
use crate::status::Status;

/// Writes the completions.
pub fn run(shell: Shell, output: &mut Output) -> Status {
    // made in memory first, since what makes them stops the tool if it cannot write
    let mut text = Vec::new();
    clap_complete::generate(shell, &mut Cli::command(), "tigmavresh", &mut text);
    output.write(|to| to.write_all(&text));
    Status::Accepted
}
