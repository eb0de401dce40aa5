//! Putting a record or an index where it is asked for: whole or not at all.

use std::fs::{self, File, Metadata, Permissions};
use std::io::{self, ErrorKind, IsTerminal, Write};
use std::os::unix::fs::{fchown, MetadataExt, OpenOptionsExt, PermissionsExt};
use std::path::{Path, PathBuf};
use std::process;
use std::time::SystemTime;

use crate::closed;
use crate::output::Output;
use crate::paths::{is_standard, shown};

/// How many names are tried for a temporary file.
const NAMES: usize = 100;

/// The bits of a file's mode that are taken over: who may read, write and execute it.
const MODE: u32 = 0o777;
/// The mode of a file until it has its own: its owner's alone.
const PRIVATE: u32 = 0o600;

/// A file's permissions, modification time and owner.
#[derive(Default)]
pub struct Traits {
    /// Else those of the file that is replaced, or what the system gives a new file.
    permissions: Option<Permissions>,
    /// Else the time at which it is written.
    modified: Option<SystemTime>,
    /// The user and the group, by their numbers; else those that the tool runs as.
    owner: Option<(u32, u32)>,
}

impl Traits {
    /// The permissions of another file, and its modification time if that is to be preserved.
    pub fn of(file: &Metadata, preserve: bool) -> io::Result<Traits> {
        let mode = file.permissions().mode() & MODE;
        Ok(Traits {
            permissions: Some(Permissions::from_mode(mode)),
            modified: preserve.then(|| file.modified()).transpose()?,
            owner: None,
        })
    }

    /// Those of a file that is changed: its permissions and owner stay.
    pub fn kept(file: &Metadata) -> Traits {
        Traits {
            permissions: Some(Permissions::from_mode(file.mode() & MODE)),
            modified: None,
            owner: Some((file.uid(), file.gid())),
        }
    }
}

/// Where a record is to be put.
pub enum Target {
    /// Standard output, which is no terminal.
    Standard,
    /// A file.
    File {
        path: PathBuf,
        /// The permissions of the file that is there and may be replaced; else there is none.
        replaced: Option<Permissions>,
    },
}

impl Target {
    /// The place that a path names, if a record may be put there: standard output unless it is closed or a terminal, a name
    /// that is not taken or, with `force`, a file.
    pub fn of(path: &Path, force: bool) -> io::Result<Target> {
        if is_standard(path) {
            closed::fail_if_closed()?;
            return match io::stdout().is_terminal() {
                true => Err(io::Error::other("a record is not written to a terminal")),
                false => Ok(Target::Standard),
            };
        }
        match fs::symlink_metadata(path) {
            Ok(_) => Target::taken(path, force),
            Err(error) if error.kind() == ErrorKind::NotFound => Target::free(path),
            Err(error) => Err(error),
        }
    }

    /// The place that a path names, as [`Target::of`] has it; if none may be had, that is complained of.
    pub fn or_complain(path: &Path, force: bool, output: &mut Output) -> Option<Target> {
        let target = Target::of(path, force);
        let complain = |error| output.complain_of_target(path, &error);
        target.map_err(complain).ok()
    }

    /// A name that is not taken, in a folder that is there.
    fn free(path: &Path) -> io::Result<Target> {
        let folder = folder_of(path);
        if !folder.is_dir() {
            let words = format!("there is no folder {}", shown(folder));
            return Err(io::Error::other(words));
        }
        Ok(Target::File {
            path: path.to_path_buf(),
            replaced: None,
        })
    }

    /// A name that is taken: by a file, or by a link to one, which is followed.
    fn taken(path: &Path, force: bool) -> io::Result<Target> {
        let metadata = match fs::metadata(path) {
            Err(error) if error.kind() == ErrorKind::NotFound => {
                return Err(io::Error::other("it is a link that leads nowhere"));
            }
            metadata => metadata?,
        };
        if !metadata.is_file() {
            return Err(io::Error::other("exists but is not a regular file"));
        }
        if !force {
            let words = "already exists; use --force to replace it";
            return Err(io::Error::other(words));
        }
        Ok(Target::File {
            path: fs::canonicalize(path)?,
            replaced: Some(metadata.permissions()),
        })
    }

    /// Whether it is standard output.
    pub fn is_standard(&self) -> bool {
        matches!(self, Target::Standard)
    }

    /// Puts a record there. For a file, it is first put beside, under another name, synced, read back and compared; what was
    /// read back is then checked, and only then it takes its name. On a failure nothing is left of it, and what was there
    /// still is.
    pub fn put(
        &self,
        record: &[u8],
        traits: &Traits,
        check: impl Fn(&[u8]) -> Result<(), String>,
    ) -> io::Result<()> {
        match self {
            Target::Standard => {
                check(record).map_err(io::Error::other)?;
                let mut output = io::stdout().lock();
                output.write_all(record)?;
                output.flush()
            }
            Target::File { path, replaced } => {
                let permissions = traits.permissions.as_ref().or(replaced.as_ref());
                let mut temporary = Temporary::beside(path, permissions)?;
                temporary.fill(record, permissions, traits)?;
                let back = fs::read(&temporary.path)?;
                if back != record {
                    let words = "what is read back is not what was written";
                    return Err(io::Error::other(words));
                }
                check(&back).map_err(io::Error::other)?;
                temporary.take_name(path, replaced.is_some())
            }
        }
    }
}

/// A mode that allows the group no more than all others: it is another group than the one that the mode was meant for.
fn without_group(mode: u32) -> u32 {
    (mode & !0o070) | (mode & 0o070 & ((mode & 0o007) << 3))
}

/// The folder that a path is in.
fn folder_of(path: &Path) -> &Path {
    match path.parent() {
        Some(folder) if !folder.as_os_str().is_empty() => folder,
        _ => Path::new("."),
    }
}

/// A file beside the one that is to be, gone when it is dropped.
struct Temporary {
    path: PathBuf,
    file: File,
    renamed: bool,
}

impl Temporary {
    /// A new file in the same folder, so that it can be renamed. If it is to have permissions, nobody else may read it before.
    fn beside(path: &Path, permissions: Option<&Permissions>) -> io::Result<Temporary> {
        let folder = folder_of(path);
        let mut options = File::options();
        options.write(true).create_new(true);
        if permissions.is_some() {
            options.mode(PRIVATE);
        }
        let mut taken = io::Error::other("no name for a temporary file is free");
        for number in 0..NAMES {
            let path = folder.join(format!(".tigmavresh-{}-{number}.tmp", process::id()));
            match options.open(&path) {
                Ok(file) => {
                    return Ok(Temporary {
                        path,
                        file,
                        renamed: false,
                    })
                }
                Err(error) if error.kind() == ErrorKind::AlreadyExists => taken = error,
                Err(error) => return Err(error),
            }
        }
        Err(taken)
    }

    /// Writes all of a record, down to the disk.
    fn fill(
        &mut self,
        record: &[u8],
        permissions: Option<&Permissions>,
        traits: &Traits,
    ) -> io::Result<()> {
        self.file.write_all(record)?;
        let is_given = traits.owner.is_none_or(|owner| self.give(owner));
        if let Some(permissions) = permissions {
            let mode = permissions.mode();
            let mode = if is_given { mode } else { without_group(mode) };
            self.file.set_permissions(Permissions::from_mode(mode))?;
        }
        if let Some(modified) = traits.modified {
            self.file.set_modified(modified)?;
        }
        self.file.sync_all()
    }

    /// Gives the file to a user and a group, as far as the system allows; whether it is the group's at least. Only root gives
    /// a file to another user.
    fn give(&self, (user, group): (u32, u32)) -> bool {
        let give = |user| fchown(&self.file, user, Some(group)).is_ok();
        give(Some(user)) || give(None)
    }

    /// Gives the file its name. Where no file is to be replaced, none is: a second name is given to it, which fails if that
    /// is taken by now. Where the file system has no second names, it is looked at once more.
    fn take_name(mut self, path: &Path, replaces: bool) -> io::Result<()> {
        match replaces {
            true => self.rename(path)?,
            false => match fs::hard_link(&self.path, path) {
                Ok(()) => {}
                Err(error) if error.kind() == ErrorKind::AlreadyExists => return Err(error),
                Err(_) if fs::symlink_metadata(path).is_err() => self.rename(path)?,
                Err(error) => return Err(error),
            },
        }
        // Not every file system can sync a folder; the record has its name by now.
        let _ = File::open(folder_of(path)).and_then(|folder| folder.sync_all());
        Ok(())
    }

    fn rename(&mut self, path: &Path) -> io::Result<()> {
        fs::rename(&self.path, path)?;
        self.renamed = true;
        Ok(())
    }
}

impl Drop for Temporary {
    fn drop(&mut self) {
        if !self.renamed {
            let _ = fs::remove_file(&self.path);
        }
    }
}

#[cfg(test)]
mod tests {
    use super::without_group;

    #[test]
    fn another_group_gains_nothing() {
        for (mode, told) in [
            (0o640, 0o600),
            (0o660, 0o600),
            (0o644, 0o644),
            (0o664, 0o644),
            (0o606, 0o606),
            (0o775, 0o755),
        ] {
            assert_eq!(without_group(mode), told, "{mode:o}");
        }
    }
}
