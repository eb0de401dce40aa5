//! Numbers, bytes and errors as text.

use std::io;

/// Bytes as pairs of hex digits.
pub fn hex(bytes: &[u8]) -> String {
    let pairs: Vec<_> = bytes.iter().map(|byte| format!("{byte:02X}")).collect();
    pairs.join(" ")
}

/// The bytes of pairs of hex digits, with or without blanks between the pairs.
pub fn unhex(text: &str) -> Result<Vec<u8>, String> {
    let mut bytes = Vec::new();
    for word in text.split_ascii_whitespace() {
        let pairs = hex::decode(word);
        bytes.extend(pairs.map_err(|_| format!("{word:?} is not pairs of hex digits"))?);
    }
    Ok(bytes)
}

/// Text with the thousands of its long numbers parted, as the rules have them: those of five digits and more.
pub fn parted(text: &str) -> String {
    let is_mark = |letter: char| !letter.is_ascii_alphanumeric();
    let mut parted = String::new();
    for piece in text.split_inclusive(is_mark) {
        let word = piece.trim_end_matches(is_mark);
        let is_long = word.len() >= 5 && word.bytes().all(|byte| byte.is_ascii_digit());
        for (at, letter) in piece.char_indices() {
            if is_long && at > 0 && at < word.len() && (word.len() - at) % 3 == 0 {
                parted.push(',');
            }
            parted.push(letter);
        }
    }
    parted
}

/// Why something failed, without the number that the system has for it.
pub fn reason(error: &io::Error) -> String {
    let words = error.to_string();
    match words.find(" (os error") {
        Some(end) => words[..end].to_string(),
        None => words,
    }
}

/// A number of things, in words.
pub fn counted(count: usize, thing: &str) -> String {
    match count {
        1 => format!("1 {thing}"),
        _ => format!("{count} {thing}s"),
    }
}

/// A number of structures that were compared, in words.
pub fn compared(structures: usize) -> String {
    parted(&format!("{} compared", counted(structures, "structure")))
}

/// A number of leads, in words.
pub fn how_many(leads: usize) -> String {
    match leads {
        0 => "no lead".to_string(),
        leads => counted(leads, "lead"),
    }
}

#[cfg(test)]
mod tests {
    use std::io;

    use super::{compared, parted, reason};

    #[test]
    fn long_numbers_are_parted() {
        for (text, told) in [
            (
                "1048577 bytes, over 1048576",
                "1,048,577 bytes, over 1,048,576",
            ),
            ("sample 40000 is -32820.", "sample 40,000 is -32,820."),
            ("9999 of 123456 (100000)", "9999 of 123,456 (100,000)"),
            ("0x123456, 1,048,576, a12345", "0x123456, 1,048,576, a12345"),
            ("", ""),
        ] {
            assert_eq!(parted(text), told);
        }
    }

    #[test]
    fn structures_compared_are_counted() {
        for (structures, told) in [
            (0, "0 structures compared"),
            (1, "1 structure compared"),
            (9999, "9999 structures compared"),
            (33_553_920, "33,553,920 structures compared"),
        ] {
            assert_eq!(compared(structures), told);
        }
    }

    #[test]
    fn a_reason_has_no_number() {
        assert_eq!(
            reason(&io::Error::from_raw_os_error(2)),
            "No such file or directory"
        );
        assert_eq!(reason(&io::Error::other("why")), "why");
    }
}
