//! The largest record, and the fields that every record has.

use crate::draft::Draft;

/// The kind of fields that the largest record has.
#[derive(Clone, Copy, Debug)]
pub enum Filling {
    /// As many as fit: fields with no bytes.
    EmptyFields,
    /// As few as fill it: fields as long as can be.
    LongFields,
}

/// A record of 1,048,576 bytes and 64 pointers, all to sections that are present.
pub fn largest(filling: Filling) -> Vec<u8> {
    const SECTION_0: usize = 16 + 10 * 64;
    const OTHERS: usize = 62 * 16;
    let data = scp::RECORD_MAX - 6 - SECTION_0 - OTHERS - 16;
    let mut draft = Draft::default();
    draft.ids.extend(1000..1052);
    draft.put(1, &fields(data, filling));
    for id in (2..12).chain(1000..1052) {
        draft.put(id, &[]);
    }
    draft.lay_out()
}

/// The fields that must be there, and the end mark.
pub fn plain_fields() -> Vec<u8> {
    fields(24, Filling::EmptyFields)
}

/// Fields of Section 1 that take exactly this many bytes.
fn fields(bytes: usize, filling: Filling) -> Vec<u8> {
    let mut fields = vec![2, 2, 0, b'7', 0, 14, 0, 0];
    let last = [25, 4, 0, 0xE8, 7, 3, 14, 26, 3, 0, 9, 26, 53, 255, 0, 0];
    while fields.len() + last.len() < bytes {
        let left = bytes - last.len() - fields.len() - 3;
        let length = match filling {
            // the first takes what is no multiple of three, so that the others have nothing
            Filling::EmptyFields => left % 3,
            // one byte or two are too few for another field
            Filling::LongFields if matches!(left, 65_536 | 65_537) => 60_000,
            Filling::LongFields => left.min(65_535),
        };
        fields.push(30);
        fields.extend((length as u16).to_le_bytes());
        fields.resize(fields.len() + length, b'x');
    }
    fields.extend(last);
    fields
}

#[cfg(test)]
mod tests {
    use super::{largest, Filling};

    #[test]
    fn the_largest_record_is_at_the_bound_and_accepted() {
        for filling in [Filling::EmptyFields, Filling::LongFields] {
            let record = largest(filling);
            assert_eq!(record.len(), scp::RECORD_MAX);
            assert_eq!(judge::open(&record).map(|pointers| pointers.len()), Ok(64));
        }
    }
}
