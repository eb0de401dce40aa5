//! Section 1's data for made records: fields of all kinds around the four that must be present.

use super::rng::Rng;

/// A field's tag and bytes.
pub type Field = (u8, Vec<u8>);

/// Fields that keep the rules, in any order.
pub fn fields(rng: &mut Rng) -> Vec<Field> {
    let mut fields = vec![
        (2, identifier(rng)),
        (14, free_bytes(rng)),
        (25, rng.bytes(4)),
        (26, rng.bytes(3)),
    ];
    let tags = [rng.byte(), rng.byte(), 30, 0, 254];
    for _ in 0..rng.small(60) {
        let tag = if rng.coin() {
            rng.pick(&tags)
        } else {
            rng.byte()
        };
        if ![2, 14, 25, 26, 255].contains(&tag) {
            fields.push((tag, free_bytes(rng)));
        }
    }
    if !rng.one_in(4) {
        rng.shuffle(&mut fields);
    }
    fields
}

/// The bytes of these fields and the end mark.
pub fn data(fields: &[Field]) -> Vec<u8> {
    let mut data = open_data(fields);
    data.extend([255, 0, 0]);
    data
}

/// The bytes of these fields without an end.
pub fn open_data(fields: &[Field]) -> Vec<u8> {
    let mut data = Vec::new();
    for (tag, bytes) in fields {
        data.push(*tag);
        data.extend((bytes.len() as u16).to_le_bytes());
        data.extend(bytes);
    }
    data
}

/// 2 to 64 bytes, the last one the only NUL.
pub fn identifier(rng: &mut Rng) -> Vec<u8> {
    let length = match rng.below(6) {
        0 => 1,
        1 => 63,
        2 => rng.within(1..=63),
        _ => rng.within(1..=8),
    };
    let digits = !rng.one_in(3);
    let byte = |rng: &mut Rng| match digits {
        true => rng.pick(b"0012345678"),
        false => rng.within(1..=255) as u8,
    };
    let mut bytes: Vec<u8> = (0..length).map(|_| byte(rng)).collect();
    bytes.push(0);
    bytes
}

fn free_bytes(rng: &mut Rng) -> Vec<u8> {
    let length = match rng.below(200) {
        0 => rng.small(65_535),
        1..=40 => 0,
        _ => rng.small(80),
    };
    if rng.one_in(8) {
        vec![rng.pick(&[0, 255]); length]
    } else {
        rng.bytes(length)
    }
}
