//! A folder for a while.

use std::path::{Path, PathBuf};
use std::{env, fs, io, process};

/// A folder of its own among the temporary files, removed with all that is in it when it is dropped.
pub struct Scratch {
    folder: PathBuf,
}

impl Scratch {
    /// Makes the folder.
    pub fn new() -> io::Result<Scratch> {
        let folder = env::temp_dir().join(format!("tigmavresh-bench-{}", process::id()));
        fs::create_dir(&folder)?;
        Ok(Scratch { folder })
    }

    /// Where it is.
    pub fn folder(&self) -> &Path {
        &self.folder
    }
}

impl Drop for Scratch {
    fn drop(&mut self) {
        // If it cannot be removed there is nobody to tell.
        let _ = fs::remove_dir_all(&self.folder);
    }
}
