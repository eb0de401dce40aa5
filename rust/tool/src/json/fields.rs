//! The header fields of a record.

use serde::Serialize;

use crate::reading::Reading;

/// The content that `fields` shows.
#[derive(Serialize)]
pub struct Header {
    pub fields: Vec<Field>,
}

/// A header field.
#[derive(Serialize)]
pub struct Field {
    pub tag: u8,
    pub name: &'static str,
    pub length: usize,
    /// In hex.
    pub bytes: String,
    #[serde(flatten)]
    pub reading: Reading,
}
