//! The files that paths name: a file itself, and every regular file in a folder.

use std::fs::{self, Metadata};
use std::io;
use std::iter;
use std::os::unix::fs::MetadataExt;
use std::path::{Path, PathBuf};

use walkdir::{DirEntry, WalkDir};

use crate::input::Reader;
use crate::paths::is_standard;

/// Something that a path leads to.
pub enum Listed {
    /// A file to be read.
    File(PathBuf),
    /// A link in a folder, which is not followed.
    Link,
    /// A FIFO, a socket or a device in a folder, which is not read.
    Special,
    /// A path that could not be looked into, and why.
    Unread(PathBuf, io::Error),
}

impl Listed {
    /// Whether it counts as a file: whatever is not passed over.
    pub fn is_counted(&self) -> bool {
        matches!(self, Listed::File(_) | Listed::Unread(..))
    }
}

/// A file by its place on the disk, whatever it is called.
#[derive(Clone, Copy, PartialEq, Eq)]
pub struct Identity {
    device: u64,
    inode: u64,
}

impl Identity {
    /// That of the file that metadata are of.
    pub fn of(metadata: &Metadata) -> Identity {
        Identity {
            device: metadata.dev(),
            inode: metadata.ino(),
        }
    }

    /// Whether a path leads to this file.
    pub fn is_at(self, path: &Path) -> bool {
        fs::metadata(path).is_ok_and(|metadata| Identity::of(&metadata) == self)
    }
}

/// The files of these paths, one after another, those of a folder in the order of their names. They are looked up as they are
/// asked for, so that a great many take no room.
pub fn listed(paths: Vec<PathBuf>) -> impl Iterator<Item = Listed> + Send {
    let mut reader = Reader::default();
    paths.into_iter().flat_map(move |path| {
        let itself = match reader.claim(&path) {
            Err(error) => Some(Listed::Unread(path.clone(), error)),
            Ok(()) if is_standard(&path) => Some(Listed::File(path.clone())),
            Ok(()) => None,
        };
        let walked = itself.is_none().then(|| walked(path));
        itself.into_iter().chain(walked.into_iter().flatten())
    })
}

/// A path that is no folder, or all that is in it. A link is followed here, where it was asked for, and nowhere in a folder:
/// so no walk goes in circles.
fn walked(path: PathBuf) -> impl Iterator<Item = Listed> + Send {
    let mut entries = WalkDir::new(&path).sort_by_file_name().into_iter();
    iter::from_fn(move || loop {
        match entries.next()? {
            Ok(entry) if is_folder(&entry) => {}
            Ok(entry) => return Some(listed_entry(entry)),
            Err(error) => return Some(unread(&path, error)),
        }
    })
}

/// Whether an entry is a folder that is walked through.
fn is_folder(entry: &DirEntry) -> bool {
    match entry.depth() {
        0 => entry.path().is_dir(),
        _ => entry.file_type().is_dir(),
    }
}

/// An entry that is no folder: whatever was asked for is read, and in a folder a regular file.
fn listed_entry(entry: DirEntry) -> Listed {
    let kind = entry.file_type();
    match entry.depth() {
        0 => Listed::File(entry.into_path()),
        _ if kind.is_file() => Listed::File(entry.into_path()),
        _ if kind.is_symlink() => Listed::Link,
        _ => Listed::Special,
    }
}

/// The path that could not be looked into, at or below a path, and why.
fn unread(path: &Path, error: walkdir::Error) -> Listed {
    let path = error.path().unwrap_or(path).to_path_buf();
    let circle = || io::Error::other("links go in a circle");
    Listed::Unread(path, error.into_io_error().unwrap_or_else(circle))
}
