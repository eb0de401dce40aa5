//! Reading a record or an index from a file or from standard input.

use std::fmt;
use std::fs::{File, Metadata};
use std::io::{self, Read};
use std::mem;
use std::path::Path;

use crate::paths::is_standard;
use crate::text::parted;

/// Input that was read.
pub struct Input {
    /// The bytes, of a record that is too long only as many as show it.
    pub bytes: Vec<u8>,
    /// How long the whole is.
    pub size: Size,
    /// The file system's metadata on it, if it is a file.
    pub metadata: Option<Metadata>,
}

impl Input {
    /// All bytes of an input.
    pub fn whole(bytes: Vec<u8>) -> Input {
        Input {
            size: Size::Exactly(bytes.len() as u64),
            bytes,
            metadata: None,
        }
    }
}

/// How long an input is.
#[derive(Clone, Copy, Debug, PartialEq, Eq)]
pub enum Size {
    /// This number of bytes.
    Exactly(u64),
    /// More than this number; the rest was not read.
    Over(u64),
}

impl fmt::Display for Size {
    fn fmt(&self, f: &mut fmt::Formatter<'_>) -> fmt::Result {
        match self {
            Size::Exactly(1) => write!(f, "1 byte"),
            Size::Exactly(bytes) => write!(f, "{} bytes", parted(&bytes.to_string())),
            Size::Over(bytes) => write!(f, "over {} bytes", parted(&bytes.to_string())),
        }
    }
}

/// Reads files, and standard input once.
#[derive(Default)]
pub struct Reader {
    standard_read: bool,
}

impl Reader {
    /// Reads a file, or standard input.
    pub fn read(&mut self, path: &Path) -> io::Result<Input> {
        self.claim(path)?;
        read(path)
    }

    /// Claims standard input, if that is what a path names. It holds one record: a second reading would find it empty.
    pub fn claim(&mut self, path: &Path) -> io::Result<()> {
        if is_standard(path) && mem::replace(&mut self.standard_read, true) {
            return Err(io::Error::other("it was read already"));
        }
        Ok(())
    }
}

/// Reads a file, or standard input.
pub fn read(path: &Path) -> io::Result<Input> {
    if is_standard(path) {
        return read_from(io::stdin().lock(), None);
    }
    let file = File::open(path)?;
    let metadata = Some(file.metadata()?).filter(Metadata::is_file);
    let input = read_from(file, metadata.as_ref().map(Metadata::len))?;
    Ok(Input { metadata, ..input })
}

/// Reads all of a file, or of standard input, however long it is.
pub fn read_whole(path: &Path) -> io::Result<Input> {
    let mut bytes = Vec::new();
    match is_standard(path) {
        true => io::stdin().lock().read_to_end(&mut bytes)?,
        false => File::open(path)?.read_to_end(&mut bytes)?,
    };
    Ok(Input::whole(bytes))
}

/// Reads one byte more than the longest record has, at most: that is enough to see it refused. `known` is the length
/// that the file system knows.
fn read_from(source: impl Read, known: Option<u64>) -> io::Result<Input> {
    let bound = scp::RECORD_MAX as u64;
    let mut bytes = Vec::new();
    source.take(bound + 1).read_to_end(&mut bytes)?;
    let read = bytes.len() as u64;
    let size = match known {
        _ if read <= bound => Size::Exactly(read),
        Some(length) => Size::Exactly(length.max(read)),
        None => Size::Over(bound),
    };
    Ok(Input {
        bytes,
        size,
        metadata: None,
    })
}

#[cfg(test)]
mod tests {
    use super::{read_from, Size};

    #[test]
    fn a_short_input_is_read_whole() {
        let input = read_from(&b"SCPECG"[..], Some(6)).unwrap();
        assert_eq!(input.bytes, b"SCPECG");
        assert_eq!(input.size, Size::Exactly(6));
    }

    #[test]
    fn a_long_input_is_read_to_one_byte_past_the_bound() {
        let zeros = vec![0; scp::RECORD_MAX + 1000];
        let length = zeros.len() as u64;
        let file = read_from(&zeros[..], Some(length)).unwrap();
        assert_eq!(file.bytes.len(), scp::RECORD_MAX + 1);
        assert_eq!(file.size, Size::Exactly(length));
        let pipe = read_from(&zeros[..], None).unwrap();
        assert_eq!(pipe.size, Size::Over(scp::RECORD_MAX as u64));
    }

    #[test]
    fn sizes_read_well() {
        assert_eq!(Size::Exactly(0).to_string(), "0 bytes");
        assert_eq!(Size::Exactly(1).to_string(), "1 byte");
        assert_eq!(Size::Over(9).to_string(), "over 9 bytes");
        assert_eq!(Size::Exactly(1_048_576).to_string(), "1,048,576 bytes");
    }
}
