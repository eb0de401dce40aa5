//! The exit status.

use std::process::ExitCode;

/// How the work went: each is worse than the one before it, and the worst of all files is the exit status.
#[derive(Clone, Copy, Debug, PartialEq, Eq, PartialOrd, Ord)]
pub enum Status {
    /// Every file was accepted.
    Accepted = 0,
    /// Some file was refused.
    Refused = 1,
    /// Some of the work could not be done.
    NotDone = 2,
    /// The user interrupted it: as a shell has it, 128 and the number of the signal.
    Interrupted = 130,
}

impl From<Status> for ExitCode {
    fn from(status: Status) -> ExitCode {
        ExitCode::from(status as u8)
    }
}
