//! A folder of records through the tool's `check`.

use std::path::Path;
use std::process::{Command, Stdio};
use std::{fs, io};

use compare::rhythm::DEFAULT_TABLE;

use crate::measure::{Clock, Side, Table};
use crate::reading::record_of;
use crate::scratch::Scratch;

const RECORDS: usize = 2000;
const LEADS: usize = 12;
const COUNT: usize = 500;

/// 2,000 records of 12 x 500 samples, by two jobs and by one: the time that passes from the start of the tool's process, which
/// is run by these words, to its end. The files were read before, and are read from memory.
pub fn all(table: &mut Table, tool: &[String]) {
    const NAME: &str = "check of 2,000 records, 2 jobs beside 1";
    let scratch = match filled() {
        Ok(scratch) => scratch,
        Err(error) => return table.left_out(NAME, &format!("the folder is not made: {error}")),
    };
    let check = |jobs| is_checked(tool, jobs, scratch.folder());
    if !check("1") {
        return table.left_out(NAME, "--tool names no tool whose `check` accepts them");
    }
    table.line_by(
        Clock::Wall,
        NAME,
        (RECORDS * LEADS * COUNT, "Msamples"),
        ["2", "1"].map(|jobs| Side::new(move || assert!(check(jobs)))),
    );
}

/// A folder with the records in it: one, under many names.
fn filled() -> io::Result<Scratch> {
    let scratch = Scratch::new()?;
    let record = record_of(LEADS, COUNT, &DEFAULT_TABLE, 2);
    for number in 0..RECORDS {
        fs::write(scratch.folder().join(format!("{number:04}.scp")), &record)?;
    }
    Ok(scratch)
}

/// Has the tool check the folder, and answers whether it accepts all of it.
fn is_checked(tool: &[String], jobs: &str, folder: &Path) -> bool {
    let Some((program, words)) = tool.split_first() else {
        return false;
    };
    let mut command = Command::new(program);
    command.args(words).args(["check", "--jobs", jobs]);
    command.arg(folder).stdin(Stdio::null());
    command.stdout(Stdio::null()).stderr(Stdio::null());
    command.status().is_ok_and(|status| status.success())
}
