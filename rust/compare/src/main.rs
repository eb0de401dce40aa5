//! Holds the library against the judge for as long as one likes: `cargo run --release --package compare -- --help`.

use std::process::ExitCode;

use clap::Parser;
use compare::encoding::brute;
use compare::writing;

/// Hold the proved library against the judge on inputs that a seed fixes.
#[derive(Parser)]
struct Cli {
    /// Which inputs
    #[arg(long, value_name = "S", default_value_t = 1)]
    seed: u64,
    /// How many of them
    #[arg(long, value_name = "N", default_value_t = 20_000)]
    count: u64,
    /// How many sets of small tables, to hold the encoder against all streams
    #[arg(long, value_name = "N", default_value_t = 40_000)]
    sets: u64,
    /// How many records to write
    #[arg(long, value_name = "N", default_value_t = 10_240)]
    jobs: u64,
}

fn main() -> ExitCode {
    match run(&Cli::parse()) {
        Ok(()) => ExitCode::SUCCESS,
        Err(difference) => {
            eprintln!("compare: {difference}");
            ExitCode::FAILURE
        }
    }
}

fn run(cli: &Cli) -> Result<(), String> {
    println!("{}", compare::run(cli.seed, cli.count)?);
    println!("{}", brute::run(cli.seed, cli.sets)?);
    println!("{}", writing::run(cli.seed, cli.jobs)?);
    Ok(())
}
