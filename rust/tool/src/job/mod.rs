//! A job in JSON, from which a record is made: docs/JOBS.md says what is in it.
//!
//! A mistake in a job is reported with its line and column. Whether the record may be made is not judged here: that is the
//! library's word.

mod number;
mod placed;
mod trace;

use std::fs::File;
use std::io::{self, Read};
use std::path::{Path, PathBuf};

use serde::{Deserialize, Deserializer};

use crate::making::{Making, DEFAULT_TABLE};
use crate::names;
use crate::paths::{is_standard, shown};
use crate::text::{reason, unhex};
use number::Number;
use trace::Trace;

/// The most bytes of a job: a record's worth of hex, and more.
const JOB_MAX: u64 = 16 << 20;
/// The tag of the end mark.
const END: u8 = 255;

/// The content of a job.
#[derive(Deserialize)]
#[serde(deny_unknown_fields)]
struct Job {
    fields: Vec<Field>,
    tables: Tables,
    version: Number<u8>,
    flags: Flags,
    step_nanovolts: Number<u16>,
    interval_microseconds: Number<u16>,
    difference_order: Number<u8>,
    leads: Vec<Lead>,
    samples: PathBuf,
}

/// Reads a job and the samples beside it. Says what is wrong, with the name of the file, if it cannot be understood.
pub fn read(file: &Path) -> Result<Making, String> {
    let text = read_text(file).map_err(|error| told(file, &reason(&error)))?;
    let job: Job =
        serde_json::from_slice(&text).map_err(|error| told(file, &with_place(&error)))?;
    let samples = match (is_standard(file), file.parent()) {
        (false, Some(folder)) => folder.join(&job.samples),
        _ => job.samples.clone(),
    };
    let trace = Trace::read(&samples, &job.columns()).map_err(|words| told(&samples, &words))?;
    job.making(&trace).map_err(|words| told(file, &words))
}

/// A file's name before what is wrong with it.
fn told(file: &Path, words: &str) -> String {
    format!("{}: {words}", shown(file))
}

fn read_text(file: &Path) -> io::Result<Vec<u8>> {
    let source: Box<dyn Read> = match is_standard(file) {
        true => Box::new(io::stdin().lock()),
        false => Box::new(File::open(file)?),
    };
    let mut text = Vec::new();
    source.take(JOB_MAX + 1).read_to_end(&mut text)?;
    match text.len() as u64 > JOB_MAX {
        true => Err(io::Error::other("it is too long for a job")),
        false => Ok(text),
    }
}

/// Says what is wrong, and where.
fn with_place(error: &serde_json::Error) -> String {
    let (line, column) = (error.line(), error.column());
    let words = error.to_string();
    let place = format!(" at line {line} column {column}");
    let words = words.strip_suffix(&place).unwrap_or(&words);
    format!("line {line}, column {column}: {words}")
}

impl Job {
    /// How the columns of the samples may be headed: by the lead's name, or as `samples --csv` does.
    fn columns(&self) -> Vec<[String; 2]> {
        let step = self.step_nanovolts.0;
        let column = |(place, lead): (usize, &Lead)| {
            let name = names::lead(lead.id);
            let head = names::column(place, lead.id, step);
            [name, head]
        };
        (1..).zip(&self.leads).map(column).collect()
    }

    /// The content that the record is to be made of. The samples' file and the job must agree on first samples.
    fn making(&self, trace: &Trace) -> Result<Making, String> {
        let mut making = Making {
            section1: section_1(&self.fields),
            section2: self.tables.0.clone(),
            version: self.version.0,
            flags: self.flags.0,
            step: self.step_nanovolts.0,
            interval: self.interval_microseconds.0,
            order: self.difference_order.0,
            ..Making::default()
        };
        for (at, (lead, column)) in self.leads.iter().zip(&trace.columns).enumerate() {
            let first = match (lead.first_sample, column.first) {
                (Some(first), Some(found)) if first != found => {
                    let (place, name) = (at + 1, names::lead(lead.id));
                    return Err(format!(
                        "lead {place}, {name}: first_sample is {first}, and its first sample has number {found}"
                    ));
                }
                (Some(first), _) | (None, Some(first)) => first,
                (None, None) => 1,
            };
            making.add(lead.id, first, &column.samples);
        }
        Ok(making)
    }
}

/// Section 1's data: the fields in their order, and the end mark.
fn section_1(fields: &[Field]) -> Vec<u8> {
    let mut data = Vec::new();
    for field in fields {
        data.push(field.tag);
        data.extend(field.length.to_le_bytes());
        data.extend(&field.bytes);
    }
    data.extend([END, 0, 0]);
    data
}

// ---- fields

/// A header field.
struct Field {
    tag: u8,
    length: u16,
    bytes: Vec<u8>,
}

#[derive(Deserialize)]
#[serde(deny_unknown_fields)]
struct AnyField {
    tag: Number<u8>,
    text: Option<String>,
    hex: Option<Hex>,
}

impl<'de> Deserialize<'de> for Field {
    fn deserialize<D: Deserializer<'de>>(from: D) -> Result<Field, D::Error> {
        placed::object::<AnyField, Field, D>(from)
    }
}

impl TryFrom<AnyField> for Field {
    type Error = String;

    fn try_from(field: AnyField) -> Result<Field, String> {
        let tag = field.tag.0;
        if tag == END {
            return Err(format!(
                "tag {END} is the end mark, which is put there by itself"
            ));
        }
        let bytes = match (field.text, field.hex) {
            (Some(text), None) => text_bytes(&text)?,
            (None, Some(hex)) => hex.0,
            _ => return Err(format!("tag {tag} has either a text or hex")),
        };
        match u16::try_from(bytes.len()) {
            Ok(length) => Ok(Field { tag, length, bytes }),
            Err(_) => Err(format!(
                "tag {tag} has {} bytes, and a field has at most 65535",
                bytes.len()
            )),
        }
    }
}

/// The bytes of a text, with a NUL after them. Letters beyond ASCII have no one way to be stored.
fn text_bytes(text: &str) -> Result<Vec<u8>, String> {
    if let Some(letter) = text.chars().find(|letter| !letter.is_ascii()) {
        let words = "is not ASCII: give the field's bytes in hex";
        return Err(format!("the letter {letter:?} {words}"));
    }
    Ok([text.as_bytes(), &[0]].concat())
}

/// Bytes as pairs of hex digits, with or without blanks between the pairs.
#[derive(Deserialize)]
#[serde(try_from = "String")]
struct Hex(Vec<u8>);

impl TryFrom<String> for Hex {
    type Error = String;

    fn try_from(text: String) -> Result<Hex, String> {
        unhex(&text).map(Hex)
    }
}

// ---- tables and flags

/// Section 2's data.
#[derive(Deserialize)]
#[serde(try_from = "String")]
struct Tables(Vec<u8>);

impl TryFrom<String> for Tables {
    type Error = String;

    fn try_from(text: String) -> Result<Tables, String> {
        match text.as_str() {
            "default" => Ok(Tables(DEFAULT_TABLE.to_le_bytes().to_vec())),
            "none" => Ok(Tables(Vec::new())),
            _ => match Hex::try_from(text)?.0 {
                bytes if bytes.is_empty() => {
                    Err("the tables are \"default\", \"none\", or hex".to_string())
                }
                bytes => Ok(Tables(bytes)),
            },
        }
    }
}

/// The flags of Section 3.
#[derive(Deserialize)]
#[serde(try_from = "Number<u8>")]
struct Flags(u8);

impl TryFrom<Number<u8>> for Flags {
    type Error = String;

    fn try_from(flags: Number<u8>) -> Result<Flags, String> {
        match flags.0 & 1 {
            0 => Ok(Flags(flags.0)),
            _ => Err(format!(
                "flags of {} say by bit 0 that a reference beat was subtracted, and none is",
                flags.0
            )),
        }
    }
}

// ---- leads

/// A lead.
struct Lead {
    id: u8,
    first_sample: Option<u32>,
}

#[derive(Deserialize)]
#[serde(deny_unknown_fields)]
struct AnyLead {
    id: Option<Number<u8>>,
    name: Option<String>,
    first_sample: Option<Number<u32>>,
}

impl<'de> Deserialize<'de> for Lead {
    fn deserialize<D: Deserializer<'de>>(from: D) -> Result<Lead, D::Error> {
        placed::object::<AnyLead, Lead, D>(from)
    }
}

impl TryFrom<AnyLead> for Lead {
    type Error = String;

    fn try_from(lead: AnyLead) -> Result<Lead, String> {
        let id = match (lead.id, lead.name) {
            (Some(Number(id)), None) => id,
            (Some(Number(id)), Some(name)) if names::lead(id) == name => id,
            (Some(Number(id)), Some(name)) => {
                return Err(format!("ID {id} is {}, not {name:?}", names::lead(id)))
            }
            (None, Some(name)) => named(&name)?,
            (None, None) => return Err("a lead has an id or a name".to_string()),
        };
        Ok(Lead {
            id,
            first_sample: lead.first_sample.map(|number| number.0),
        })
    }
}

/// The ID of the lead that has this name.
fn named(name: &str) -> Result<u8, String> {
    let ids: Vec<u8> = (0..=255).filter(|&id| names::lead(id) == name).collect();
    match ids[..] {
        [id] => Ok(id),
        [] => Err(format!("no lead is called {name:?}")),
        _ => Err(format!("several leads are called {name:?}: give an id")),
    }
}

#[cfg(test)]
mod tests {
    use super::{named, section_1, text_bytes, with_place, Field, Hex, Job, Lead, Tables};

    fn wrong<'a, T: serde::Deserialize<'a>>(text: &'a str) -> String {
        with_place(&serde_json::from_str::<T>(text).err().expect(text))
    }

    #[test]
    fn hex_is_pairs_of_digits() {
        let bytes = |text: &str| Hex::try_from(text.to_string()).map(|hex| hex.0);
        assert_eq!(bytes("1f 4E"), Ok(vec![0x1F, 0x4E]));
        assert_eq!(bytes("1F4e\n00"), Ok(vec![0x1F, 0x4E, 0]));
        assert_eq!(bytes(""), Ok(vec![]));
        for text in ["1", "1F 4", "0x1F", "1g", "+1"] {
            assert!(bytes(text).is_err(), "{text}");
        }
    }

    #[test]
    fn a_text_is_ascii_and_gets_a_nul() {
        assert_eq!(text_bytes("007"), Ok(b"007\0".to_vec()));
        assert!(text_bytes("Jos\u{e9}").is_err());
    }

    #[test]
    fn fields_are_put_in_their_order() {
        let text = r#"[{"tag": 30, "hex": "00 FF"}, {"tag": 2, "text": "7"}]"#;
        let fields: Vec<Field> = serde_json::from_str(text).unwrap();
        let data = [30, 2, 0, 0, 255, 2, 2, 0, b'7', 0, 255, 0, 0];
        assert_eq!(section_1(&fields), data);
    }

    #[test]
    fn tables_are_named_or_given() {
        let data = |text: &str| serde_json::from_str::<Tables>(text).map(|tables| tables.0);
        assert_eq!(data("\"default\"").unwrap(), [0x1F, 0x4E]);
        assert!(data("\"none\"").unwrap().is_empty());
        assert_eq!(data("\"01 00\"").unwrap(), [1, 0]);
        assert!(data("\"\"").is_err() && data("\"Default\"").is_err());
    }

    #[test]
    fn leads_have_an_id_or_a_name() {
        let id = |text: &str| serde_json::from_str::<Lead>(text).map(|lead| lead.id);
        assert_eq!(id(r#"{"name": "aVR"}"#).unwrap(), 62);
        assert_eq!(id(r#"{"id": 200}"#).unwrap(), 200);
        assert_eq!(id(r#"{"id": 62, "name": "aVR"}"#).unwrap(), 62);
        for text in [
            "{}",
            r#"{"id": 1, "name": "II"}"#,
            r#"{"name": "maker's own"}"#,
            r#"{"name": "V99"}"#,
        ] {
            assert!(id(text).is_err(), "{text}");
        }
        assert_eq!(named("V7"), Ok(9));
    }

    #[test]
    fn what_is_wrong_has_its_place() {
        let text = "[\n  {\"tag\": 256, \"hex\": \"\"}]";
        let words = "line 2, column 13: 256 is outside 0 to 255";
        assert_eq!(wrong::<Vec<Field>>(text), words);
        let text = "[{\"tag\": 2},\n {}]";
        let words = "line 1, column 11: tag 2 has either a text or hex";
        assert_eq!(wrong::<Vec<Field>>(text), words);
        assert!(wrong::<Job>("{\"fields\": [], \"steps\": 1}").contains("unknown field `steps`"));
        assert!(wrong::<Job>("{\"fields\": [], \"fields\": []}").contains("duplicate field"));
        assert!(wrong::<Job>("{\"fields\": []}").contains("missing field `tables`"));
    }
}
