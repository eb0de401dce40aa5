//! Rows 1 to 6: the record, its sections and the fields of Section 1.

use judge::make::{mend, mend_size};
use judge::row;

use super::edge::Edges;
use crate::draft::{pointer_to, seal, section, with_header, Draft, HEADER, SECTION_0};
use crate::largest::{largest, Filling};

/// Adds them all.
pub fn add(edges: &mut Edges) {
    lengths(edges);
    checks(edges);
    section_0(edges);
    own_pointer(edges);
    pointers(edges);
    rising_ids(edges);
    section_lengths(edges);
    indexes(edges);
    headers(edges);
    cut_off(edges);
    gaps(edges);
    beside_section_0(edges);
    overlaps(edges);
    end_marks(edges);
    fields(edges);
    needed_fields(edges);
    identifiers(edges);
}

impl Edges {
    /// Adds the plain record after a change, its checks made right again.
    fn change(&mut self, refusal: u8, name: impl Into<String>, change: impl FnOnce(&mut Vec<u8>)) {
        let draft = plain();
        let mut record = draft.lay_out();
        change(&mut record);
        draft.seal(&mut record);
        self.add(refusal, name, record);
    }

    /// Adds a record with these data in Section 1.
    fn data(&mut self, refusal: u8, name: impl Into<String>, data: &[u8]) {
        let mut draft = Draft::default();
        draft.put(1, data);
        self.add(refusal, name, draft.lay_out());
    }
}

/// The fields that must be there, and the end mark.
const NEEDED: [&[u8]; 4] = [
    &[2, 2, 0, b'7', 0],
    &[14, 0, 0],
    &[25, 4, 0, 0xE8, 7, 3, 14],
    &[26, 3, 0, 9, 26, 53],
];
const END: &[u8] = &[255, 0, 0];

/// These fields, then those that must be there but for the one at place `without`, then the end mark.
fn data(first: &[u8], without: Option<usize>) -> Vec<u8> {
    let mut data = first.to_vec();
    for (place, field) in NEEDED.iter().enumerate() {
        if Some(place) != without {
            data.extend(*field);
        }
    }
    data.extend(END);
    data
}

/// A record with Sections 1, 7 and 300, and thirteen pointers.
fn plain() -> Draft {
    let mut draft = Draft::default();
    draft.ids.push(300);
    draft.put(1, &data(&[], None));
    draft.put(7, &[7; 30]);
    draft.put(300, &[3; 30]);
    draft
}

// ---- rows 1, 2 and 5

fn lengths(edges: &mut Edges) {
    for length in [0, 1, 2, 5, 6, 7, 141] {
        let mut record = vec![0; length];
        if length >= 6 {
            mend_size(&mut record);
        }
        mend(&mut record);
        edges.add(row::LENGTH, format!("{length} bytes"), record);
    }
    edges.add(
        row::PLACES,
        "142 bytes: Section 0 alone",
        Draft::default().lay_out(),
    );
    edges.add(0, "1048576 bytes", largest(Filling::LongFields));
    let mut record = largest(Filling::LongFields);
    record.push(0);
    mend_size(&mut record);
    mend(&mut record);
    edges.add(row::LENGTH, "1048577 bytes", record);
    edges.change(row::LENGTH, "a size field one under", |record| {
        record[2] -= 1
    });
    edges.change(row::LENGTH, "a size field one over", |record| {
        record[2] += 1
    });
    edges.change(row::LENGTH, "a size field 2^24 over", |record| {
        record[5] = 1
    });
    edges.change(row::LENGTH, "a byte more than the size field", |record| {
        record.push(0)
    });
    edges.change(row::LENGTH, "a byte less than the size field", |record| {
        record.pop();
    });
}

fn checks(edges: &mut Edges) {
    for bit in 0..16 {
        let flip = |record: &mut [u8], at: usize| record[at + bit / 8] ^= 1 << (bit % 8);
        let mut record = plain().lay_out();
        flip(&mut record, 0);
        edges.add(
            row::RECORD_CHECK,
            format!("bit {bit} of the record's check"),
            record,
        );
        for id in [0, 1, 7, 300] {
            let mut record = plain().lay_out();
            let start = section(&record, id).start;
            flip(&mut record, start);
            seal(&mut record);
            edges.add(
                row::SECTION_CHECK,
                format!("bit {bit} of Section {id}'s check"),
                record,
            );
        }
    }
}

// ---- row 3

fn section_0(edges: &mut Edges) {
    edges.change(row::SECTION_0, "Section 0's header with ID 1", |record| {
        record[SECTION_0 + 2] = 1
    });
    edges.change(row::SECTION_0, "Section 0's header with ID 256", |record| {
        record[SECTION_0 + 3] = 1
    });
    for letter in 0..6 {
        edges.change(
            row::SECTION_0,
            format!("letter {letter} in lower case"),
            |record| {
                record[SECTION_0 + 10 + letter] ^= 0x20;
            },
        );
    }
    edges.change(0, "other versions and reserved bytes", |record| {
        record[SECTION_0 + 8] = 0;
        record[SECTION_0 + 9] = 255;
        for id in [1, 7, 300] {
            let start = section(record, id).start;
            record[start + 8..start + HEADER].fill(0xFF);
        }
    });
}

/// Section 0's length, and its pointer to itself.
fn own_pointer(edges: &mut Edges) {
    for length in [0, 16, 126, 136, 145, 147, 156, 656, 666, u32::MAX] {
        edges.change(
            row::SECTION_0,
            format!("Section 0's header with length {length}"),
            |record| {
                record[SECTION_0 + 4..SECTION_0 + 8].copy_from_slice(&length.to_le_bytes());
            },
        );
        edges.change(
            row::SECTION_0,
            format!("Section 0's pointer with length {length}"),
            |record| {
                set(record, 0, Some(length), None);
            },
        );
    }
    for index in [0, 6, 8, 7 + (1 << 24)] {
        edges.change(
            row::SECTION_0,
            format!("Section 0's pointer with index {index}"),
            |record| {
                set(record, 0, None, Some(index));
            },
        );
    }
}

impl Edges {
    /// Adds a record with pointers of these IDs.
    fn ids(&mut self, refusal: u8, name: impl Into<String>, ids: Vec<u16>) {
        let mut draft = Draft::default();
        draft.ids = ids;
        draft.put(1, &data(&[], None));
        self.add(refusal, name, draft.lay_out());
    }
}

/// How many pointers there are, and the first twelve of them.
fn pointers(edges: &mut Edges) {
    for count in [11, 12, 13, 63, 64, 65] {
        let refusal = if (12..=64).contains(&count) {
            0
        } else {
            row::SECTION_0
        };
        edges.ids(refusal, format!("{count} pointers"), (0..count).collect());
    }
    let first: Vec<u16> = (0..12).collect();
    for place in 2..12 {
        let mut ids = first.clone();
        ids[place] += 1;
        let name = format!("pointer {} with the next one's ID", place + 1);
        edges.ids(row::SECTION_0, name, ids);
    }
    let mut ids = first;
    ids.swap(10, 11);
    edges.ids(row::SECTION_0, "the last two of twelve swapped", ids);
    edges.change(0, "absent sections with any index", |record| {
        for (id, index) in [(2, 1), (3, 7), (4, 143), (5, u32::MAX), (11, 1 << 31)] {
            set(record, id, None, Some(index));
        }
    });
}

/// The pointers after the twelfth.
fn rising_ids(edges: &mut Edges) {
    let first: Vec<u16> = (0..12).collect();
    for (refusal, more) in [
        (0, &[12][..]),
        (0, &[65_535]),
        (0, &[12, 65_535]),
        (0, &[127, 128, 1023, 1024, 32_768]),
        (row::SECTION_0, &[11]),
        (row::SECTION_0, &[2]),
        (row::SECTION_0, &[12, 12]),
        (row::SECTION_0, &[13, 12]),
        (row::SECTION_0, &[12, 14, 13]),
        (row::SECTION_0, &[65_535, 12]),
        (0, &[12, 268]), // the second is 12 too, to one who drops its upper byte
        (row::SECTION_0, &[268, 12]),
    ] {
        let name = format!("pointers {more:?} after the twelfth");
        edges.ids(refusal, name, [&first, more].concat());
    }
}

/// Sets the length and the index of a pointer.
fn set(record: &mut [u8], id: u16, length: Option<u32>, index: Option<u32>) {
    let at = pointer_to(record, id);
    if let Some(length) = length {
        record[at + 2..at + 6].copy_from_slice(&length.to_le_bytes());
    }
    if let Some(index) = index {
        record[at + 6..at + 10].copy_from_slice(&index.to_le_bytes());
    }
}

/// Sets the length of a section, in its pointer and in its header.
fn set_length(record: &mut [u8], id: u16, length: u32) {
    let start = section(record, id).start;
    set(record, id, Some(length), None);
    record[start + 4..start + 8].copy_from_slice(&length.to_le_bytes());
}

// ---- row 4

fn section_lengths(edges: &mut Edges) {
    edges.change(row::PLACES, "Section 1 absent", |record| {
        set(record, 1, Some(0), None)
    });
    for (refusal, length) in [
        (row::PLACES, 2),
        (row::PLACES, 14),
        (row::PLACES, 15),
        (0, 16),
        (row::PLACES, 17),
        (0, 18),
        (row::PLACES, 45),
        (0, 46),
        (row::PLACES, 48),
    ] {
        edges.change(
            refusal,
            format!("Section 300 of length {length}, having 46"),
            |record| {
                set_length(record, 300, length);
            },
        );
    }
    for length in [u32::MAX, u32::MAX - 1, 1 << 31, 1 << 24] {
        edges.change(
            row::PLACES,
            format!("Section 300 of length {length}"),
            |record| {
                set_length(record, 300, length);
            },
        );
    }
}

/// Indexes before Section 0, in it, and past the record's end.
fn indexes(edges: &mut Edges) {
    let near = [0, 1, 6, 7, 8];
    let far = [0, 44, 45, 46].map(|under| u32::MAX - under);
    for index in near.into_iter().chain(far) {
        edges.change(
            row::PLACES,
            format!("Section 300 at index {index}"),
            |record| {
                set(record, 300, None, Some(index));
            },
        );
    }
}

/// Headers that do not match their pointers.
fn headers(edges: &mut Edges) {
    edges.change(
        row::PLACES,
        "Section 7's header with another ID",
        |record| {
            let start = section(record, 7).start;
            record[start + 2] = 8;
        },
    );
    edges.change(
        row::PLACES,
        "Section 7's header with another ID, by its upper byte",
        |record| {
            let start = section(record, 7).start;
            record[start + 3] = 1;
        },
    );
    edges.change(
        row::PLACES,
        "Section 7's header with another length",
        |record| {
            let start = section(record, 7).start;
            record[start + 4] -= 2;
        },
    );
}

/// Records that end inside their last section.
fn cut_off(edges: &mut Edges) {
    for lost in [1, 2, 30, 45, 46] {
        edges.change(
            row::PLACES,
            format!("a record that ends {lost} bytes too early"),
            |record| {
                record.truncate(record.len() - lost);
                mend_size(record);
            },
        );
    }
}

/// Gaps of any size are allowed, and sections in any order.
fn gaps(edges: &mut Edges) {
    for gap in [0, 1, 2, 3, 15] {
        let mut draft = Draft::default();
        draft.gap(gap);
        draft.put(9, &[]);
        draft.gap(gap);
        draft.put(1, &data(&[], None));
        draft.gap(gap);
        edges.add(
            0,
            format!("gaps of {gap}, and Section 9 before Section 1"),
            draft.lay_out(),
        );
    }
}

/// A section that starts just after Section 0, or in its last bytes: those of an absent section's index, which may be any.
fn beside_section_0(edges: &mut Edges) {
    for shared in 0..=4 {
        let mut draft = Draft::default();
        draft.ids.push(300);
        draft.gap(20);
        draft.put(1, &data(&[], None));
        let mut record = draft.lay_out();
        let start = section(&record, 0).end - shared;
        record[start..start + HEADER].copy_from_slice(&with_header(2, &[]));
        set(&mut record, 2, Some(16), Some(start as u32 + 1));
        mend(&mut record);
        let refusal = if shared == 0 { 0 } else { row::PLACES };
        edges.add(
            refusal,
            format!("Sections 0 and 2 share {shared} bytes"),
            record,
        );
    }
}

/// Two sections, whole and right but for the bytes that they share.
fn overlaps(edges: &mut Edges) {
    edges.change(
        row::PLACES,
        "Section 7's pointer with another length",
        |record| {
            set(record, 7, Some(44), None);
        },
    );
    edges.change(row::PLACES, "two pointers to one section", |record| {
        let seven = section(record, 7);
        set(
            record,
            8,
            Some(seven.len() as u32),
            Some(seven.start as u32 + 1),
        );
    });
    for shared in [0, 1, 2, 3, 15, 16, 17] {
        for (one, other) in [(7, 8), (8, 7)] {
            let mut draft = Draft::default();
            draft.put(1, &data(&[], None));
            draft.put(one, &[0; 40]);
            draft.gap(40);
            let mut record = draft.lay_out();
            let start = section(&record, one).end - shared;
            record[start..start + 36].copy_from_slice(&with_header(other, &[0; 20]));
            set(&mut record, other, Some(36), Some(start as u32 + 1));
            mend(&mut record);
            let refusal = if shared == 0 { 0 } else { row::PLACES };
            edges.add(
                refusal,
                format!("Sections {one} and {other} share {shared} bytes"),
                record,
            );
        }
    }
}

// ---- row 6

fn end_marks(edges: &mut Edges) {
    let whole = data(&[], None);
    let odd = data(&[30, 0, 0], None);
    for (refusal, bytes, after) in [
        (0, &whole, 0),
        (row::SECTION_1, &whole, 2),
        (0, &odd, 1),
        (row::SECTION_1, &odd, 3),
    ] {
        let bytes = [&bytes[..], &vec![255; after]].concat();
        edges.data(refusal, format!("{after} bytes after the end mark"), &bytes);
    }
    edges.data(row::SECTION_1, "no data", &[]);
    edges.data(row::SECTION_1, "the end mark alone", END);
    for (bytes, lost) in [(&odd, 1), (&whole, 2), (&odd, 3)] {
        let name = format!("the end mark without {lost} of its bytes");
        edges.data(row::SECTION_1, name, &cut(bytes, lost));
    }
    for (name, mark) in [
        ("tag 255 with a byte", &[255, 1, 0, 9][..]),
        ("tag 255 with 256 bytes said", &[255, 0, 1]),
        ("tag 255 with 65535 bytes said", &[255, 255, 255]),
    ] {
        edges.data(
            row::SECTION_1,
            format!("{name}, before all"),
            &data(mark, None),
        );
        edges.data(
            row::SECTION_1,
            format!("{name}, before the end mark"),
            &[&cut(&whole, 3), mark, END].concat(),
        );
    }
}

/// Fields of any tag, once and more often.
fn fields(edges: &mut Edges) {
    for (refusal, name, field) in [
        (0, "tag 0", &[0, 1, 0, 9][..]),
        (0, "tag 254", &[254, 1, 0, 9]),
        (0, "one tag twice", &[30, 0, 0, 30, 1, 0, 9]),
        (row::SECTION_1, "tag 2 twice", NEEDED[0]),
        (row::SECTION_1, "tag 14 twice", NEEDED[1]),
        (row::SECTION_1, "tag 25 twice", NEEDED[2]),
        (row::SECTION_1, "tag 26 twice", NEEDED[3]),
        (row::SECTION_1, "a field past the end", &[30, 255, 255]),
        (
            row::SECTION_1,
            "a field past the end by its upper byte",
            &[30, 0, 1],
        ),
    ] {
        edges.data(refusal, name, &data(field, None));
    }
    let name = "the last field past the section's end by one";
    edges.data(row::SECTION_1, name, &past_the_end());
}

/// The fields that must be there, and how long they are.
fn needed_fields(edges: &mut Edges) {
    for (place, needed) in NEEDED.iter().enumerate() {
        let name = format!("no tag {}", needed[0]);
        edges.data(row::SECTION_1, name, &data(&[], Some(place)));
    }
    for (place, right) in [(2, 4), (3, 3)] {
        let tag = NEEDED[place][0];
        for length in 0..6 {
            let refusal = if length == right { 0 } else { row::SECTION_1 };
            let field = field(tag, &vec![1; length]);
            edges.data(
                refusal,
                format!("tag {tag} of {length} bytes"),
                &data(&field, Some(place)),
            );
        }
        let field = field(tag, &vec![1; right + 256]);
        edges.data(
            row::SECTION_1,
            format!("tag {tag} of {} bytes", right + 256),
            &data(&field, Some(place)),
        );
    }
    edges.data(
        0,
        "tag 14 of 300 bytes",
        &data(&field(14, &[14; 300]), Some(1)),
    );
}

/// Fields that end in one which has a byte less than it says, and no end mark.
fn past_the_end() -> Vec<u8> {
    let mut bytes = cut(&data(&[], None), 3);
    bytes.extend([30, 3, 0, 1, 2]);
    bytes
}

fn identifiers(edges: &mut Edges) {
    for (refusal, identifier) in [
        (row::SECTION_1, &b""[..]),
        (row::SECTION_1, b"\0"),
        (0, b"7\0"),
        (0, b"007\0"),
        (0, b"\x01\0"),
        (0, b"\xFF\xFF\0"),
        (row::SECTION_1, b"7"),
        (row::SECTION_1, b"77"),
        (row::SECTION_1, b"\0\0"),
        (row::SECTION_1, b"\x007\0"),
        (row::SECTION_1, b"7\0\0"),
        (row::SECTION_1, b"7\x007"),
        (row::SECTION_1, b"\x007"),
    ] {
        let name = format!("identifier {identifier:02X?}");
        edges.data(refusal, name, &data(&field(2, identifier), Some(0)));
    }
    for (refusal, length) in [
        (0, 63),
        (0, 64),
        (row::SECTION_1, 65),
        (row::SECTION_1, 66),
        (row::SECTION_1, 256 + 2),
    ] {
        let mut identifier = vec![b'7'; length];
        identifier[length - 1] = 0;
        let name = format!("identifier of {length} bytes");
        edges.data(refusal, name, &data(&field(2, &identifier), Some(0)));
    }
}

/// A field.
fn field(tag: u8, bytes: &[u8]) -> Vec<u8> {
    let mut field = vec![tag];
    field.extend((bytes.len() as u16).to_le_bytes());
    field.extend(bytes);
    field
}

/// Bytes without the last few.
fn cut(bytes: &[u8], lost: usize) -> Vec<u8> {
    bytes[..bytes.len() - lost].to_vec()
}
