//! `tigmavresh write JOB OUT`: a record from a job.

use std::path::Path;

use scp::Refusal;

use crate::explain;
use crate::job;
use crate::making::Making;
use crate::output::Output;
use crate::paths::{shown, shown_target};
use crate::refused;
use crate::status::Status;
use crate::store::{Target, Traits};
use crate::text::{how_many, parted};

/// Makes a record from a job, and puts it where it is asked for.
pub fn run(file: &Path, out: &Path, force: bool, output: &mut Output) -> Status {
    let Some(target) = Target::or_complain(out, force, output) else {
        return Status::NotDone;
    };
    let making = match job::read(file) {
        Ok(making) => making,
        Err(words) => {
            output.remark(&[words]);
            return Status::NotDone;
        }
    };
    let record = match scp::written(&making.job()) {
        Ok(record) => record,
        Err(refusal) => {
            refuse(file, &making, refusal, &target, output);
            return Status::Refused;
        }
    };
    if let Err(error) = target.put(&record, &Traits::default(), |back| making.is_said_by(back)) {
        output.complain_of_target(out, &error);
        return Status::NotDone;
    }
    let (bytes, samples) = (record.len(), making.samples.len());
    let leads = how_many(making.ids.len());
    let made = parted(&format!("{bytes} bytes; {leads}, {samples} samples"));
    let line = format!("{}: written ({made})", shown_target(out));
    say(&[line], &target, output);
    Status::Accepted
}

/// Says that a job is refused: the number, what its rule asks, and what was found.
fn refuse(file: &Path, making: &Making, refusal: Refusal, target: &Target, output: &mut Output) {
    let (name, number) = (shown(file), refusal.number());
    let mut lines = vec![format!("{name}: refused, number {number}")];
    lines.extend(refused::told(
        refusal,
        &explain::found_in_job(making, refusal),
    ));
    lines.push(String::new());
    lines.push(refused::NOTE.to_string());
    say(&lines, target, output);
}

/// Says lines on standard output, or on standard error where a record goes there.
pub fn say(lines: &[String], target: &Target, output: &mut Output) {
    if target.is_standard() {
        let lines: Vec<String> = lines
            .iter()
            .filter(|line| !line.is_empty())
            .cloned()
            .collect();
        return output.remark(&lines);
    }
    output.lines(lines);
}
