//! Bytes as text in one line, for people: every character can be seen, and no two strings of bytes look alike.
//!
//! Control characters, direction marks, combining marks, blanks other than a space and characters without a width are escaped
//! as Rust escapes them (`\n`, `\u{202e}`), and so is a backslash. A byte that belongs to no character of UTF-8 is `\xNN`.

/// A character, or a byte that belongs to none, as it is shown.
pub struct Piece {
    /// How many bytes it has.
    pub bytes: usize,
    pub shown: String,
    /// Whether it is shown as it is.
    pub is_plain: bool,
}

impl Piece {
    fn letter(letter: char) -> Piece {
        let plain = letter.to_string();
        let shown = match letter {
            '"' | '\'' => plain.clone(),
            _ => letter.escape_debug().to_string(),
        };
        Piece {
            bytes: letter.len_utf8(),
            is_plain: shown == plain,
            shown,
        }
    }

    fn byte(byte: &u8) -> Piece {
        Piece {
            bytes: 1,
            shown: format!("\\x{byte:02X}"),
            is_plain: false,
        }
    }
}

/// The pieces of a string of bytes.
pub fn pieces(bytes: &[u8]) -> impl Iterator<Item = Piece> + '_ {
    bytes.utf8_chunks().flat_map(|part| {
        let letters = part.valid().chars().map(Piece::letter);
        letters.chain(part.invalid().iter().map(Piece::byte))
    })
}

/// All of a string of bytes.
pub fn escaped(bytes: &[u8]) -> String {
    pieces(bytes).map(|piece| piece.shown).collect()
}

/// All of a string of bytes in quotes, a quote in it escaped.
pub fn quoted(bytes: &[u8]) -> String {
    let inner = pieces(bytes).map(|piece| match piece.shown.as_str() {
        "\"" => "\\\"".to_string(),
        _ => piece.shown,
    });
    format!("\"{}\"", inner.collect::<String>())
}

#[cfg(test)]
mod tests {
    use std::collections::HashMap;

    use super::{escaped, quoted};

    #[test]
    fn quotes_end_where_the_text_does() {
        assert_eq!(quoted(b"007"), r#""007""#);
        assert_eq!(quoted(b"a\"b "), r#""a\"b ""#);
        assert_eq!(quoted(b"\\\n\xFF"), r#""\\\n\xFF""#);
    }

    #[test]
    fn what_cannot_be_seen_is_escaped() {
        for (bytes, text) in [
            (&b"a b.scp"[..], "a b.scp"),
            ("Müller, 山田, Иван".as_bytes(), "Müller, 山田, Иван"),
            (b"a\n\t\x1b[1m\0", "a\\n\\t\\u{1b}[1m\\0"),
            (b"a\\nb", "a\\\\nb"),
            (b"'\"", "'\""),
            (b"M\xFCller\xC3", "M\\xFCller\\xC3"),
            (
                "\u{202e}pcs.a\u{200f}".as_bytes(),
                "\\u{202e}pcs.a\\u{200f}",
            ),
            (
                "e\u{301}\u{200b}\u{a0}\u{ad}".as_bytes(),
                "e\\u{301}\\u{200b}\\u{a0}\\u{ad}",
            ),
            (
                "\u{2028}\u{feff}\u{2066}".as_bytes(),
                "\\u{2028}\\u{feff}\\u{2066}",
            ),
        ] {
            assert_eq!(escaped(bytes), text);
        }
    }

    /// All short strings over bytes that are escaped, that escapes are made of, and that are neither.
    #[test]
    fn no_two_strings_look_alike() {
        let alphabet = b"\\nxuF9{}0\n\0\xC3\xA9\xFF\"";
        let mut strings = vec![Vec::new()];
        let mut seen = HashMap::new();
        for _ in 0..5 {
            let longer = |string: &Vec<u8>| alphabet.map(|byte| [&string[..], &[byte]].concat());
            strings = strings.iter().flat_map(longer).collect();
            for string in &strings {
                let other = seen.insert(escaped(string), string.clone());
                assert_eq!(other, None, "{string:?}");
            }
        }
    }

    /// No direction mark, however new, is shown as it is.
    #[test]
    fn direction_marks_are_escaped() {
        for mark in "\u{61c}\u{200e}\u{200f}\u{202a}\u{202b}\u{202c}\u{202d}\u{202e}\u{2066}\u{2067}\u{2068}\u{2069}".chars() {
            assert!(escaped(mark.to_string().as_bytes()).starts_with("\\u{"));
        }
    }
}
