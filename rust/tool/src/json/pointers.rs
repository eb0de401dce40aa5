//! The pointers of a record.

use serde::Serialize;

use crate::names;

/// The content that `open` shows.
#[derive(Serialize)]
pub struct Pointers {
    pub pointers: Vec<Pointer>,
}

/// A pointer, as it is stored.
#[derive(Serialize)]
pub struct Pointer {
    id: u16,
    name: &'static str,
    length: u32,
    index: u32,
    present: bool,
}

impl From<&scp::Pointer> for Pointer {
    fn from(pointer: &scp::Pointer) -> Pointer {
        Pointer {
            id: pointer.id,
            name: names::section(pointer.id),
            length: pointer.length,
            index: pointer.index,
            present: pointer.is_present(),
        }
    }
}
