//! Little-endian numbers out of bytes, and a cursor that takes them one after another (01, The
//! record).
//!
//! Nothing here fails on short bytes: where a number is not there whole, the answer is `None`.

/// The number of 2 bytes that starts at `at`, counted from 0.
pub fn two_at(bytes: &[u8], at: usize) -> Option<u16> {
    Bytes::new(bytes.get(at..)?).two()
}

/// The number of 4 bytes that starts at `at`, counted from 0.
pub fn four_at(bytes: &[u8], at: usize) -> Option<u32> {
    Bytes::new(bytes.get(at..)?).four()
}

/// The bytes not taken yet, and the offset of the first of them.
#[derive(Clone, Copy, Debug)]
pub struct Bytes<'a> {
    bytes: &'a [u8],
    offset: usize,
}

impl<'a> Bytes<'a> {
    pub fn new(bytes: &'a [u8]) -> Self {
        Bytes::at(bytes, 1)
    }

    /// Bytes of which the first is this one of a record, counted from 1.
    pub fn at(bytes: &'a [u8], offset: usize) -> Self {
        Bytes { bytes, offset }
    }

    pub fn left(&self) -> usize {
        self.bytes.len()
    }

    /// The bytes themselves.
    pub fn slice(&self) -> &'a [u8] {
        self.bytes
    }

    /// The offset of the next byte, counted from 1.
    pub fn offset(&self) -> usize {
        self.offset
    }

    pub fn take(&mut self, count: usize) -> Option<&'a [u8]> {
        let taken = self.bytes.get(..count)?;
        self.bytes = self.bytes.get(count..)?;
        self.offset += count;
        Some(taken)
    }

    /// The next `count` bytes as a cursor of their own.
    pub fn part(&mut self, count: usize) -> Option<Bytes<'a>> {
        let offset = self.offset;
        self.take(count).map(|bytes| Bytes::at(bytes, offset))
    }

    pub fn byte(&mut self) -> Option<u8> {
        self.take(1).map(|b| b[0])
    }

    pub fn two(&mut self) -> Option<u16> {
        self.take(2).map(|b| u16::from_le_bytes([b[0], b[1]]))
    }

    pub fn two_signed(&mut self) -> Option<i16> {
        self.take(2).map(|b| i16::from_le_bytes([b[0], b[1]]))
    }

    pub fn four(&mut self) -> Option<u32> {
        self.take(4)
            .map(|b| u32::from_le_bytes([b[0], b[1], b[2], b[3]]))
    }
}
