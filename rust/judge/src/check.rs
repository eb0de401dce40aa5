//! The check of records and sections, CRC-CCITT (01, The record).

/// The register before the first byte.
const PRESET: u16 = 0xFFFF;
/// x^16 + x^12 + x^5 + 1, without its highest term.
const POLYNOMIAL: u16 = 0x1021;
/// The result of eight steps on a register that holds one byte at its top.
const STEPS: [u16; 256] = steps();

/// The check over `bytes`: the most significant bit goes first and nothing is changed at the end.
pub fn crc(bytes: &[u8]) -> u16 {
    bytes.iter().fold(PRESET, |register, &byte| {
        let top = (register >> 8) ^ u16::from(byte);
        (register << 8) ^ STEPS[usize::from(top)]
    })
}

const fn steps() -> [u16; 256] {
    let mut table = [0; 256];
    let mut byte = 0;
    while byte < 256 {
        table[byte] = eight_steps((byte as u16) << 8);
        byte += 1;
    }
    table
}

const fn eight_steps(mut register: u16) -> u16 {
    let mut step = 0;
    while step < 8 {
        let out = register & 0x8000 != 0;
        register <<= 1;
        if out {
            register ^= POLYNOMIAL;
        }
        step += 1;
    }
    register
}

#[cfg(test)]
mod tests {
    use super::{crc, STEPS};

    #[test]
    fn known_checks() {
        assert_eq!(crc(&[]), 0xFFFF);
        assert_eq!(crc(&[0]), 0xE1F0);
        assert_eq!(crc(&[0xFF]), 0xFF00);
        assert_eq!(crc(b"123456789"), 0x29B1);
        assert_eq!(crc(b"SCPECG"), 0xAC04);
    }

    #[test]
    fn check_over_data_and_their_check_is_0() {
        let data = b"123456789";
        let check = crc(data).to_be_bytes();
        assert_eq!(crc(&[data, &check[..]].concat()), 0);
    }

    #[test]
    fn first_and_last_steps() {
        let first = [
            0x0000, 0x1021, 0x2042, 0x3063, 0x4084, 0x50A5, 0x60C6, 0x70E7,
        ];
        let last = [
            0x6E17, 0x7E36, 0x4E55, 0x5E74, 0x2E93, 0x3EB2, 0x0ED1, 0x1EF0,
        ];
        assert_eq!(STEPS[..8], first);
        assert_eq!(STEPS[248..], last);
    }
}
