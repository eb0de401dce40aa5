//! Changing records, and what is needed to make one.

/// The data of a Section 1 with the fields that it must have.
pub const FIELDS: [u8; 24] = [
    2, 2, 0, b'7', 0, 14, 0, 0, 25, 4, 0, 0xE8, 7, 3, 14, 26, 3, 0, 9, 26, 53, 255, 0, 0,
];

/// Where a section starts.
pub fn section(record: &[u8], id: usize) -> usize {
    let at = 6 + 16 + 10 * id + 6;
    u32::from_le_bytes([0, 1, 2, 3].map(|k| record[at + k])) as usize - 1
}

/// Puts a number into four bytes.
pub fn put(record: &mut [u8], at: usize, number: usize) {
    record[at..at + 4].copy_from_slice(&(number as u32).to_le_bytes());
}

/// Makes the size field and all checks right.
pub fn seal(record: &mut [u8]) {
    let size = record.len();
    put(record, 2, size);
    let length = |record: &[u8], at| u32::from_le_bytes([0, 1, 2, 3].map(|k| record[at + k]));
    let pointers = (length(record, 10) as usize - 16) / 10;
    for id in (0..pointers).rev() {
        let bytes = length(record, 24 + 10 * id) as usize;
        if bytes != 0 {
            let start = section(record, id);
            let check = judge::crc(&record[start + 2..start + bytes]);
            record[start..start + 2].copy_from_slice(&check.to_le_bytes());
        }
    }
    let check = judge::crc(&record[2..]);
    record[..2].copy_from_slice(&check.to_le_bytes());
}

/// Puts more bytes behind the stream of the lead at a place, from 1, in a record whose last section is Section 6.
pub fn pad(record: &mut Vec<u8>, place: usize, more: &[u8]) {
    let start = section(record, 6);
    let leads = usize::from(record[section(record, 3) + 16]);
    let count_at = |place: usize| start + 16 + 6 + 2 * (place - 1);
    let count = |record: &[u8], place| {
        let at = count_at(place);
        usize::from(u16::from_le_bytes([record[at], record[at + 1]]))
    };
    let end = |record: &[u8], place: usize| {
        let before: usize = (1..=place).map(|place| count(record, place)).sum();
        count_at(leads + 1) + before
    };
    record.truncate(end(record, leads)); // without a spare byte
    let at = end(record, place);
    record.splice(at..at, more.iter().copied());
    let padded = (count(record, place) + more.len()) as u16;
    record[count_at(place)..][..2].copy_from_slice(&padded.to_le_bytes());
    record.resize(start + (record.len() - start).next_multiple_of(2), 0);
    let length = record.len() - start;
    put(record, start + 4, length);
    put(record, 6 + 16 + 60 + 2, length);
    seal(record);
}
