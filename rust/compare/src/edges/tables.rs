//! Row 7: Section 2.

use judge::row;

use super::edge::{headed, two_leads, Edges};
use crate::rhythm::{bits, remainder, switch, tables, value, Code, DEFAULT_TABLE};

/// The refusal where the rules of Section 2 are broken.
const BROKEN: u8 = row::SECTION_2;

/// Adds them all.
pub fn add(edges: &mut Edges) {
    frames(edges);
    table_counts(edges);
    structure_counts(edges);
    structures(edges);
    switches(edges);
    structure_bytes(edges);
    prefixes(edges);
    without_leads(edges);
}

impl Edges {
    /// Adds a record with this Section 2, and leads of three codes `0` by it; what reading them gives.
    fn tables(&mut self, refusal: u8, name: impl Into<String>, data: &[u8]) {
        let mut rhythm = two_leads();
        rhythm.stored.streams = vec![bits("000"); 2];
        let mut draft = headed();
        rhythm.put(&mut draft);
        draft.put(2, data);
        self.read(refusal, name, &draft);
    }

    /// Adds a record with one table of this code and the value `0`.
    fn code(&mut self, refusal: u8, name: impl Into<String>, code: Code) {
        let table = vec![value("0", 5), code];
        self.tables(refusal, name, &tables(&[table]));
    }
}

/// Where the data end.
fn frames(edges: &mut Edges) {
    let plain = tables(&[vec![value("0", 5)]]);
    edges.tables(0, "one table of one structure, and a spare byte", &plain);
    edges.tables(0, "the default table", &DEFAULT_TABLE);
    edges.tables(BROKEN, "no data in Section 2", &[]);
    edges.tables(
        BROKEN,
        "two bytes after the default table",
        &[0x1F, 0x4E, 0, 0],
    );
    edges.tables(
        BROKEN,
        "Section 2 without its last byte and the spare one",
        &plain[..12],
    );
    edges.tables(
        BROKEN,
        "three bytes after the tables",
        &[&plain[..], &[0; 3]].concat(),
    );
}

/// The number of tables.
fn table_counts(edges: &mut Edges) {
    let plain = tables(&[vec![value("0", 5)]]);
    for number in [0, 2, 9, 256, 19_998, 20_000, 65_535] {
        let mut data = plain.clone();
        data[..2].copy_from_slice(&u16::to_le_bytes(number));
        edges.tables(BROKEN, format!("one table, {number} said"), &data);
    }
    for count in [0, 1, 2, 7, 8, 9] {
        let refusal = if (1..=8).contains(&count) { 0 } else { BROKEN };
        let data = tables(&vec![vec![value("0", 5)]; count]);
        edges.tables(refusal, format!("{count} tables"), &data);
    }
}

/// The number of structures.
fn structure_counts(edges: &mut Edges) {
    for count in [0, 1, 63, 64, 65] {
        let mut codes = vec![value("0", 5)];
        codes.extend((1..65).map(|k| value(format!("1{k:07b}"), k)));
        codes.truncate(count);
        let refusal = if (1..=64).contains(&count) { 0 } else { BROKEN };
        let other = vec![value("1", 1)];
        edges.tables(
            refusal,
            format!("{count} structures"),
            &tables(&[codes.clone()]),
        );
        // The same in a table that no stream reaches.
        if count != 0 {
            let codes = vec![vec![value("0", 5)], other, codes];
            edges.tables(
                refusal,
                format!("{count} structures in table 3"),
                &tables(&codes),
            );
        }
    }
}

/// One structure beside a sound one.
fn structures(edges: &mut Edges) {
    let ones = |count: usize| "1".repeat(count);
    for bits in [1, 2, 31, 32] {
        edges.code(0, format!("a prefix of {bits} bits"), value(ones(bits), 1));
        edges.code(
            0,
            format!("{bits} bits, then 16"),
            remainder(ones(bits), 16),
        );
        edges.code(0, format!("{bits} bits, then 1"), remainder(ones(bits), 1));
        edges.code(
            BROKEN,
            format!("{bits} bits, then 17"),
            remainder(ones(bits), 17),
        );
    }
    for mode in [2, 3, 128, 255] {
        let code = Code {
            mode,
            ..value("1", 1)
        };
        edges.code(BROKEN, format!("mode {mode}"), code);
    }
}

/// A switch beside a sound structure.
fn switches(edges: &mut Edges) {
    for (refusal, table) in [
        (0, 1),
        (BROKEN, 2),
        (BROKEN, 0),
        (BROKEN, -1),
        (BROKEN, 257),
        (BROKEN, i16::MIN),
    ] {
        edges.code(
            refusal,
            format!("a switch to table {table}"),
            switch("1", table),
        );
    }
    let with_remainder = Code {
        remainder: 1,
        ..switch("1", 1)
    };
    edges.code(BROKEN, "a switch with a remainder", with_remainder);
}

/// The bytes of a structure one by one, beside a sound one.
fn structure_bytes(edges: &mut Edges) {
    // The second structure's bytes: prefix bits, code bits, mode, base value, base code.
    let plain = tables(&[vec![value("0", 5), value("1", 1)]]);
    let second = 2 + 2 + 9;
    for (refusal, name, at, bytes) in [
        (BROKEN, "a prefix of 0 bits", 0, &[0, 0][..]),
        (BROKEN, "a prefix of 33 bits", 0, &[33, 33]),
        (BROKEN, "a prefix of 255 bits", 0, &[255, 255]),
        (BROKEN, "a code shorter than its prefix", 0, &[2, 1]),
        (BROKEN, "a bit above the prefix", 5, &[3, 0]),
        (BROKEN, "a bit far above the prefix", 5, &[1, 0, 0, 128]),
        (0, "a base value beside a remainder", 0, &[1, 9, 1, 77, 77]),
    ] {
        let mut data = plain.clone();
        data[second + at..second + at + bytes.len()].copy_from_slice(bytes);
        edges.tables(refusal, name, &data);
    }
}

/// Prefixes of which one begins another, in any order and in any table.
fn prefixes(edges: &mut Edges) {
    let long = "1".repeat(32);
    for (refusal, one, other) in [
        (0, "10", "11"),
        (0, "1110", "110"),
        (BROKEN, "11", "11"),
        (BROKEN, "1", "11"),
        (BROKEN, "101", "1011"),
        (BROKEN, "1", long.as_str()),
        (BROKEN, long.as_str(), long.as_str()),
        (0, &format!("{}0", &long[1..]), &long),
    ] {
        for (first, second) in [(one, other), (other, one)] {
            let table = vec![value("0", 5), value(first, 1), switch(second, 1)];
            let name = format!("prefixes {first} and {second}");
            edges.tables(refusal, &name, &tables(std::slice::from_ref(&table)));
            let data = tables(&[vec![value("0", 5)], table]);
            edges.tables(refusal, format!("{name} in table 2"), &data);
        }
    }
    let same = vec![vec![value("0", 5)]; 2];
    edges.tables(0, "one prefix in two tables", &tables(&same));
}

/// Section 2 is judged wherever it is, and before all that comes after it.
fn without_leads(edges: &mut Edges) {
    let mut draft = headed();
    draft.put(2, &DEFAULT_TABLE);
    edges.read(row::ABSENT, "the default table and no leads", &draft);
    let mut draft = headed();
    draft.put(2, &[]);
    edges.read(BROKEN, "no data in Section 2 and no leads", &draft);
    draft.put(6, &[]);
    edges.read(
        BROKEN,
        "no data in Section 2 and Section 6 without 3",
        &draft,
    );
}
