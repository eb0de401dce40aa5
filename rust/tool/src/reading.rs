//! How the tool reads a header field's bytes, for people: as text, a date or a time. The library says nothing of it.

use serde::Serialize;

use crate::escape::{escaped, pieces};

/// The tags of the dates of birth and of recording, and of the time of recording.
const BIRTH_DATE: u8 = 5;
pub const RECORDING_DATE: u8 = 25;
const RECORDING_TIME: u8 = 26;

/// The remarks on a date and on a time that there are none of.
const NO_DATE: &str = "not a date in the calendar";
const NO_TIME: &str = "not a time of day";

/// The reading of a field's bytes.
#[derive(Debug, PartialEq, Eq, Serialize)]
pub struct Reading {
    /// By a name of its own.
    #[serde(flatten)]
    pub value: Option<Value>,
    #[serde(skip_serializing_if = "Option::is_none")]
    pub remark: Option<&'static str>,
}

/// A value that bytes are read as.
#[derive(Debug, PartialEq, Eq, Serialize)]
#[serde(rename_all = "lowercase")]
pub enum Value {
    /// UTF-8, without the NUL that closes it.
    Text(String),
    /// Text among bytes that are not UTF-8, escaped, without the NUL that closes it.
    Escaped(String),
    /// Year, month and day.
    Date(String),
    /// Hour, minute and second.
    Time(String),
}

impl Reading {
    /// Reads the bytes of a field.
    pub fn of(tag: u8, bytes: &[u8]) -> Reading {
        let (by_tag, otherwise) = match tag {
            BIRTH_DATE | RECORDING_DATE => (date(bytes).map(Value::Date), NO_DATE),
            RECORDING_TIME => (time(bytes).map(Value::Time), NO_TIME),
            _ => {
                return Reading {
                    value: text(bytes),
                    remark: None,
                }
            }
        };
        let is_read = by_tag.is_some() || bytes.is_empty();
        // numbers that are no date are no text either, unless all of them are
        let is_text = pieces(bytes).all(|piece| piece.is_plain);
        Reading {
            value: by_tag.or_else(|| text(bytes).filter(|_| is_text)),
            remark: (!is_read).then_some(otherwise),
        }
    }
}

/// A date: the year in two bytes, the least first, the month and the day.
fn date(bytes: &[u8]) -> Option<String> {
    let [low, high, month, day] = *bytes else {
        return None;
    };
    let year = u16::from_le_bytes([low, high]);
    let is_date = (1..=days(year, month)).contains(&day);
    is_date.then(|| format!("{year:04}-{month:02}-{day:02}"))
}

/// How many days a month has in the Gregorian calendar; none if there is no such month.
fn days(year: u16, month: u8) -> u8 {
    let is_leap = year % 4 == 0 && (year % 100 != 0 || year % 400 == 0);
    match month {
        1 | 3 | 5 | 7 | 8 | 10 | 12 => 31,
        4 | 6 | 9 | 11 => 30,
        2 => 28 + u8::from(is_leap),
        _ => 0,
    }
}

/// A time: the hour, the minute and the second.
fn time(bytes: &[u8]) -> Option<String> {
    match *bytes {
        [hour @ 0..=23, minute @ 0..=59, second @ 0..=59] => {
            Some(format!("{hour:02}:{minute:02}:{second:02}"))
        }
        _ => None,
    }
}

/// Text, if some character of it can be seen.
fn text(bytes: &[u8]) -> Option<Value> {
    if !pieces(bytes).any(|piece| piece.is_plain) {
        return None;
    }
    let bytes = bytes.strip_suffix(&[0]).unwrap_or(bytes);
    Some(match std::str::from_utf8(bytes) {
        Ok(text) => Value::Text(text.to_string()),
        Err(_) => Value::Escaped(escaped(bytes)),
    })
}

#[cfg(test)]
mod tests {
    use super::{date, text, time, Reading, Value, NO_DATE, NO_TIME};

    #[test]
    fn text_has_something_to_be_seen() {
        let told = |text: &str| Some(Value::Text(text.to_string()));
        assert_eq!(text(b"a\0b\0"), told("a\0b"));
        assert_eq!(text(b"007\0"), told("007"));
        assert_eq!(text(b"007"), told("007"));
        assert_eq!(text(b"a\n\0\0"), told("a\n\0"));
        assert_eq!(text("caf\u{e9}\0".as_bytes()), told("caf\u{e9}"));
        let escaped = Value::Escaped("M\\xFCller \\\\".to_string());
        assert_eq!(text(b"M\xFCller \\\0"), Some(escaped));
        for bytes in [&b"\0"[..], b"", b"\n", b"\xE8\x07\x03"] {
            assert_eq!(text(bytes), None);
        }
    }

    #[test]
    fn a_date_is_in_the_calendar() {
        for (bytes, told) in [
            ([0xE8, 7, 3, 14], Some("2024-03-14")),
            ([0x6C, 7, 12, 31], Some("1900-12-31")),
            ([0, 0, 1, 1], Some("0000-01-01")),
            ([0xFF, 0xFF, 1, 1], Some("65535-01-01")),
            ([0xE8, 7, 2, 29], Some("2024-02-29")),
            ([0xD0, 7, 2, 29], Some("2000-02-29")),
            ([0x6C, 7, 2, 29], None), // 1900
            ([0xE7, 7, 2, 29], None), // 2023
            ([0xE8, 7, 2, 31], None),
            ([0xE8, 7, 4, 31], None),
            ([0xE8, 7, 0, 14], None),
            ([0xE8, 7, 13, 14], None),
            ([0xE8, 7, 3, 0], None),
            ([0xE8, 7, 3, 32], None),
        ] {
            assert_eq!(date(&bytes).as_deref(), told, "{bytes:?}");
        }
        for bytes in [&[][..], &[0xE8, 7, 3], &[0xE8, 7, 3, 14, 0]] {
            assert_eq!(date(bytes), None);
        }
    }

    #[test]
    fn a_time_has_three_bytes_in_their_bounds() {
        for (bytes, told) in [
            ([9, 26, 53], Some("09:26:53")),
            ([0, 0, 0], Some("00:00:00")),
            ([23, 59, 59], Some("23:59:59")),
            ([24, 0, 0], None),
            ([0, 60, 0], None),
            ([0, 0, 60], None),
        ] {
            assert_eq!(time(&bytes).as_deref(), told, "{bytes:?}");
        }
        for bytes in [&[][..], &[9, 26], &[9, 26, 53, 0]] {
            assert_eq!(time(bytes), None);
        }
    }

    #[test]
    fn a_field_is_read_by_its_tag() {
        let bytes = [0xE8, 7, 3, 14];
        for tag in 0..=255 {
            let is_date = [5, 25].contains(&tag);
            let told = is_date.then(|| Value::Date("2024-03-14".to_string()));
            assert_eq!(Reading::of(tag, &bytes).value, told);
        }
        // these can be seen as well
        let bytes = [0, 32, 33];
        let time = Value::Time("00:32:33".to_string());
        assert_eq!(Reading::of(26, &bytes).value, Some(time));
        let text = Value::Text("\0 !".to_string());
        assert_eq!(Reading::of(30, &bytes).value, Some(text));
    }

    #[test]
    fn what_is_no_date_or_time_is_remarked() {
        let remark = |tag, bytes: &[u8]| Reading::of(tag, bytes).remark;
        assert_eq!(remark(5, &[0xE8, 7, 2, 30]), Some(NO_DATE));
        assert_eq!(remark(25, &[0xE8, 7, 13, 1]), Some(NO_DATE));
        assert_eq!(remark(26, &[24, 0, 0]), Some(NO_TIME));
        assert_eq!(remark(25, &[0xE8, 7, 2, 29]), None);
        assert_eq!((remark(5, b""), remark(30, &[24, 0, 0])), (None, None));
        let said = Reading::of(5, b"1960");
        let text = Value::Text("1960".to_string());
        assert_eq!((said.value, said.remark), (Some(text), Some(NO_DATE)));
    }
}
