//! A record at an edge of the rules, how such records are collected, and what they start from.

use crate::draft::Draft;
use crate::largest::plain_fields;
use crate::rhythm::{two_bytes, Rhythm, Span, Stored};

/// A record, what it is, and the refusals that it is to get: 0 if it is to be accepted.
pub struct Edge {
    /// A description in a few words.
    pub name: String,
    /// The result of opening it.
    pub opened: u8,
    /// The result of reading its first lead, with room enough; `None` for records at the edge of opening.
    pub read: Option<u8>,
    /// The structures compared in reading it, where they are worked out.
    pub compared: Option<u32>,
    /// Its bytes.
    pub record: Vec<u8>,
}

/// Edges, as they are collected.
#[derive(Default)]
pub struct Edges(pub Vec<Edge>);

impl Edges {
    /// Adds a record at the edge of opening.
    pub fn add(&mut self, refusal: u8, name: impl Into<String>, record: Vec<u8>) {
        self.0.push(Edge {
            name: name.into(),
            opened: refusal,
            read: None,
            compared: None,
            record,
        });
    }

    /// Adds a record that opens, at the edge of reading its first lead.
    pub fn read(&mut self, refusal: u8, name: impl Into<String>, draft: &Draft) {
        self.0.push(Edge {
            name: name.into(),
            opened: 0,
            read: Some(refusal),
            compared: None,
            record: draft.lay_out(),
        });
    }

    /// Adds a record with these sections.
    pub fn rhythm(&mut self, refusal: u8, name: impl Into<String>, rhythm: &Rhythm) {
        let mut draft = headed();
        rhythm.put(&mut draft);
        self.read(refusal, name, &draft);
    }

    /// Adds a record with these sections, whose first lead is read with so many structures compared.
    pub fn compared(&mut self, compared: u32, name: impl Into<String>, rhythm: &Rhythm) {
        self.rhythm(0, name, rhythm);
        if let Some(edge) = self.0.last_mut() {
            edge.compared = Some(compared);
        }
    }
}

/// A draft with Section 1.
pub fn headed() -> Draft {
    let mut draft = Draft::default();
    draft.put(1, &plain_fields());
    draft
}

/// Two leads of samples 1 to 3, of two bytes each.
pub fn two_leads() -> Rhythm {
    let span = |id| Span {
        first: 1,
        last: 3,
        id,
    };
    Rhythm {
        tables: Vec::new(),
        flags: 0,
        spans: vec![span(1), span(2)],
        beat: None,
        stored: Stored::new(0, vec![two_bytes(&[7, -8, 9]); 2]),
    }
}
