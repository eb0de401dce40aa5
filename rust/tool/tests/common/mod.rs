//! Running the tool as a user does. Each test uses some of it.

#![allow(dead_code)]

pub mod filed;
pub mod folder;
pub mod record;
pub mod schema;
pub mod waiting;

use std::env;
use std::fs;
use std::path::{Path, PathBuf};
use std::process::{Command, Output, Stdio};

use folder::Folder;

/// The end of an answer in which a refusal is explained.
pub const NOTE: &str = "The proved library decided; the explanation is not proved.";

/// The folder of sample records.
pub fn samples() -> PathBuf {
    Path::new(env!("CARGO_MANIFEST_DIR")).join("../../samples")
}

/// The bytes of a sample.
pub fn sample(name: &str) -> Vec<u8> {
    fs::read(samples().join(name)).unwrap()
}

/// The tool, to be run in the folder of samples. Where cargo runs the tests under an emulator, so is the tool.
pub fn tool() -> Command {
    let program = env!("CARGO_BIN_EXE_tigmavresh");
    let runner = env::var("CARGO_TARGET_X86_64_UNKNOWN_LINUX_GNU_RUNNER").unwrap_or_default();
    let mut words = runner.split_whitespace().chain([program]);
    let mut command = Command::new(words.next().unwrap());
    command
        .args(words)
        .current_dir(samples())
        .stdin(Stdio::null());
    command
}

/// How a run of the tool ended: its exit status, and what it wrote.
#[derive(Debug)]
pub struct Ran {
    pub status: i32,
    pub out: String,
    pub err: String,
}

impl Ran {
    /// The first line that was shown.
    pub fn first_line(&self) -> &str {
        self.out.lines().next().unwrap_or("")
    }
}

impl From<Output> for Ran {
    fn from(output: Output) -> Ran {
        Ran {
            status: output.status.code().expect("the tool ends by itself"),
            out: String::from_utf8(output.stdout).unwrap(),
            err: String::from_utf8(output.stderr).unwrap(),
        }
    }
}

/// Runs the tool with these words.
pub fn run(words: &[&str]) -> Ran {
    tool().args(words).output().unwrap().into()
}

/// Runs the tool in a folder.
pub fn run_in(folder: &Folder, words: &[&str]) -> Ran {
    let output = tool().current_dir(&folder.0).args(words).output();
    output.unwrap().into()
}

/// Runs the tool with these words and this standard input.
pub fn run_with_input(words: &[&str], input: impl Into<Stdio>) -> Ran {
    tool().args(words).stdin(input).output().unwrap().into()
}

/// Runs the tool by a line of shell, in which `"$@"` is the tool with these words.
pub fn run_by_shell(line: &str, words: &[&str]) -> Ran {
    let tool = tool();
    let mut shell = Command::new("sh");
    shell
        .args(["-c", line, "sh"])
        .arg(tool.get_program())
        .args(tool.get_args())
        .args(words)
        .current_dir(samples())
        .stdin(Stdio::null());
    shell.output().unwrap().into()
}

/// Runs the tool on a terminal, if there is script(1) to make one.
pub fn run_on_terminal(words: &str) -> Option<Ran> {
    let tool = tool();
    let program = [tool.get_program()].into_iter().chain(tool.get_args());
    let program: Vec<&str> = program.map(|word| word.to_str().unwrap()).collect();
    let command = format!("{} {words}", program.join(" "));
    let script = Command::new("script")
        .args(["-qec", &command, "/dev/null"])
        .current_dir(samples())
        .stdin(Stdio::null())
        .output();
    if let Err(error) = &script {
        println!("there is no script(1) to make a terminal: {error}");
    }
    script.ok().map(Ran::from)
}
