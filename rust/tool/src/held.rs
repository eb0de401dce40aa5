//! A file that is read, changed and put back whole, with no second writer in between.
//!
//! The file itself is locked, and the system lifts the lock when the tool ends, however it ends. A new file takes the name of
//! the old one, so that a lock may be of a file that has lost its name: who has a lock looks whether it is of the file that
//! the name leads to, before it reads and again before it writes.

use std::fs::{self, File};
use std::io::{self, ErrorKind, Read};
use std::path::{Path, PathBuf};

use rustix::fs::{flock, FlockOperation};
use rustix::io::Errno;

use crate::files::Identity;
use crate::store::{Target, Traits};

/// How often the name is looked up, while other writers come and go.
const TRIES: usize = 100;

/// Said where another run of the tool has the lock.
const BUSY: &str = "another run is writing to it";

/// A file that no other run of the tool changes.
pub struct Held {
    /// The file's name, with no link in it.
    path: PathBuf,
    file: File,
    identity: Identity,
    /// Whether it was made for this, and has nothing to keep yet.
    is_new: bool,
}

impl Held {
    /// Holds the file that a path leads to, which is made if it is not there. Fails at once if another run has it.
    pub fn at(path: &Path) -> io::Result<Held> {
        let mut why = io::Error::other(BUSY);
        for _ in 0..TRIES {
            match Held::once(path) {
                Ok(Some(held)) => return Ok(held),
                Ok(None) => {}
                // another run made or removed it between two looks
                Err(error) if is_passing(&error) => why = error,
                Err(error) => return Err(error),
            }
        }
        Err(why)
    }

    /// Locks the file that a path leads to now; none if the path leads to another one by then.
    fn once(path: &Path) -> io::Result<Option<Held>> {
        let (file, is_new) = opened(path)?;
        match flock(&file, FlockOperation::NonBlockingLockExclusive) {
            Err(Errno::WOULDBLOCK) => return Err(io::Error::other(BUSY)),
            locked => locked?,
        }
        let held = Held {
            path: fs::canonicalize(path)?,
            identity: Identity::of(&file.metadata()?),
            file,
            is_new,
        };
        Ok(held.is_there().then_some(held))
    }

    /// Whether the name still leads to the file.
    fn is_there(&self) -> bool {
        self.identity.is_at(&self.path)
    }

    /// The file, whatever it is called.
    pub fn identity(&self) -> Identity {
        self.identity
    }

    /// All bytes of it.
    pub fn read(&mut self) -> io::Result<Vec<u8>> {
        let mut bytes = Vec::new();
        self.file.read_to_end(&mut bytes)?;
        Ok(bytes)
    }

    /// Keeps it as it is, also if it was made for this.
    pub fn keep(mut self) {
        self.is_new = false;
    }

    /// Puts other bytes in its place, whole or not at all; they are read back and checked before.
    pub fn put(
        mut self,
        bytes: &[u8],
        check: impl Fn(&[u8]) -> Result<(), String>,
    ) -> io::Result<()> {
        if !self.is_there() {
            let words = "it was removed or replaced while it was being added to";
            return Err(io::Error::other(words));
        }
        let traits = Traits::kept(&self.file.metadata()?);
        Target::of(&self.path, true)?.put(bytes, &traits, check)?;
        self.is_new = false;
        Ok(())
    }
}

impl Drop for Held {
    /// Nothing is left of a file that was made for what did not come about.
    fn drop(&mut self) {
        if self.is_new && self.is_there() {
            let _ = fs::remove_file(&self.path);
        }
    }
}

/// Opens the file that a path leads to, or makes one; and whether it was made.
fn opened(path: &Path) -> io::Result<(File, bool)> {
    let mut options = File::options();
    options.read(true).write(true);
    match Target::of(path, true)? {
        Target::File {
            replaced: Some(_), ..
        } => Ok((options.open(path)?, false)),
        _ => Ok((options.create_new(true).open(path)?, true)),
    }
}

/// Whether a failure may come of a file that was made or removed meanwhile.
fn is_passing(error: &io::Error) -> bool {
    [ErrorKind::NotFound, ErrorKind::AlreadyExists].contains(&error.kind())
}
