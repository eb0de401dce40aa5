//! Writing what is shown, and complaining.

use std::fmt::Display;
use std::io::{self, BufWriter, ErrorKind, Stdout, Write};
use std::path::Path;

use crate::closed;
use crate::paths::{shown, shown_target, OUTPUT};
use crate::status::Status;
use crate::text::reason;

/// Standard output, in blocks of lines that an empty line parts.
///
/// A reader that has gone away (a closed pipe) is no fault: the lines go nowhere and the work goes on, so that the exit
/// status still tells of every file. Any other error is kept, and reported at the end.
pub struct Output {
    to: BufWriter<Stdout>,
    began: bool,
    failed: Option<io::Error>,
}

impl Output {
    /// Standard output.
    pub fn standard() -> Output {
        Output {
            to: BufWriter::new(io::stdout()),
            began: false,
            failed: None,
        }
    }

    /// Starts a block of lines.
    pub fn block(&mut self) {
        if self.began {
            self.line("");
        }
    }

    /// Writes a line.
    pub fn line(&mut self, line: impl Display) {
        self.write(|to| writeln!(to, "{line}"));
    }

    /// Writes lines.
    pub fn lines(&mut self, lines: impl IntoIterator<Item = impl Display>) {
        for line in lines {
            self.line(line);
        }
    }

    /// Writes by a function that takes what it writes to.
    pub fn write(&mut self, write: impl FnOnce(&mut BufWriter<Stdout>) -> io::Result<()>) {
        self.began = true;
        self.attempt(|to| closed::fail_if_closed().and_then(|()| write(to)));
    }

    /// Sends what was shown so far on its way.
    pub fn flush(&mut self) {
        self.attempt(Write::flush);
    }

    /// Says lines on standard error, below what was shown so far.
    pub fn remark(&mut self, lines: &[String]) {
        self.flush();
        for line in lines {
            complain(line);
        }
    }

    /// Complains of where a record was to be put, on standard error, below what was shown so far.
    pub fn complain_of_target(&mut self, target: &Path, error: &io::Error) {
        self.remark(&[format!("{}: {}", shown_target(target), reason(error))]);
    }

    /// Complains of a file on standard error, below what was shown so far.
    pub fn complain(&mut self, file: &Path, error: &io::Error) {
        self.remark(&[format!("{}: {}", shown(file), reason(error))]);
    }

    /// Ends the output: the status is that of the work, unless it could not be shown.
    pub fn end(mut self, status: Status) -> Status {
        self.flush();
        match self.failed {
            Some(error) if error.kind() != ErrorKind::BrokenPipe => {
                complain(&format!("{OUTPUT}: {}", reason(&error)));
                Status::NotDone
            }
            _ => status,
        }
    }

    /// Does a piece of writing, if none has failed yet.
    fn attempt(&mut self, write: impl FnOnce(&mut BufWriter<Stdout>) -> io::Result<()>) {
        if self.failed.is_none() {
            self.failed = write(&mut self.to).err();
        }
    }
}

/// Writes a line to standard error. If even that fails there is nobody left to tell.
fn complain(line: &str) {
    let _ = writeln!(io::stderr(), "tigmavresh: {line}");
}
