//! The check of bytes of every length that its turns of 128 bytes and of eight treat differently, held against the judge's.

use judge::make::Rng;

/// The bytes of a word and of a turn of the library's loops.
const WORD: usize = 8;
const TURN: usize = 128;

fn held(bytes: &[u8]) {
    assert_eq!(scp::crc(bytes), judge::crc(bytes), "{} bytes", bytes.len());
}

#[test]
fn every_short_length_at_every_place_in_a_word() {
    let bytes = Rng::new(3).bytes(9 * TURN + WORD);
    for length in 0..=9 * TURN {
        for start in 0..WORD {
            held(&bytes[start..start + length]);
        }
    }
}

#[test]
fn lengths_around_every_turn() {
    let bytes = Rng::new(4).bytes(513 * TURN);
    for turns in 10..=512 {
        for length in [turns * TURN - 1, turns * TURN, turns * TURN + 1] {
            held(&bytes[..length]);
        }
    }
}

#[test]
fn the_longest_record() {
    let bytes = Rng::new(5).bytes(scp::RECORD_MAX);
    for left_out in 0..=TURN + WORD {
        held(&bytes[left_out..]);
    }
}

#[test]
fn one_bit_among_zeros_and_one_zero_among_ones() {
    for length in [3 * TURN, 3 * TURN + 2 * WORD + 3] {
        for background in [0x00, 0xFF] {
            let mut bytes = vec![background; length];
            held(&bytes);
            for bit in 0..8 * length {
                bytes[bit / 8] ^= 1 << (bit % 8);
                held(&bytes);
                bytes[bit / 8] = background;
            }
        }
    }
}
