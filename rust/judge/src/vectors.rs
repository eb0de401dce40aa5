//! The examples of the tests' data files, for the tests of this crate's modules.

use crate::numbers::Bytes;
use crate::tables::{tables, Tables};

/// A stream of the data file.
pub struct Example {
    /// `read`, `shortest` or `none`.
    pub kind: &'static str,
    pub tables: Tables,
    pub bits: usize,
    pub bytes: Vec<u8>,
    pub values: Vec<i32>,
}

/// Bytes of two hex digits each.
pub fn hex(text: &str) -> Vec<u8> {
    let byte = |digits| u8::from_str_radix(digits, 16).expect("two hex digits");
    text.split_whitespace().map(byte).collect()
}

/// Section 2's data of this name.
pub fn section_2(name: &str) -> Vec<u8> {
    let lines = include_str!("../tests/data/tables.txt").lines();
    lines
        .filter_map(|line| line.strip_prefix(name))
        .flat_map(hex)
        .collect()
}

/// The tables of this name.
pub fn tables_named(name: &str) -> Tables {
    tables(Bytes::new(&section_2(name)), 0).expect("they keep the rules")
}

/// All streams of the data file.
pub fn examples() -> Vec<Example> {
    let lines = include_str!("../tests/data/streams.txt").lines();
    lines
        .filter(|line| !line.starts_with('#'))
        .map(example)
        .collect()
}

fn example(line: &'static str) -> Example {
    let (stream, values) = line.split_once('=').expect("values");
    let mut words = stream.splitn(4, ' ');
    let mut word = || words.next().unwrap_or("");
    Example {
        kind: word(),
        tables: tables_named(word()),
        bits: word().parse().expect("a number"),
        bytes: hex(word()),
        values: values
            .split_whitespace()
            .map(|value| value.parse().expect("a number"))
            .collect(),
    }
}
