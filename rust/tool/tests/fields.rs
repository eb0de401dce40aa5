//! `open` and `fields` as JSON, and what the tool reads a field's bytes as.

mod common;

use std::fs::File;

use common::folder::Folder;
use common::{run, run_with_input, sample, samples, Ran, NOTE};
use scp::Refusal;
use serde_json::{json, Value};

impl Ran {
    fn json(&self) -> Value {
        serde_json::from_str(&self.out).unwrap()
    }

    /// Each line as JSON.
    fn lines(&self) -> Vec<Value> {
        let lines = self.out.lines().map(serde_json::from_str);
        lines.collect::<Result<_, _>>().unwrap()
    }
}

/// The names of all samples.
fn names() -> Vec<String> {
    let files = samples().read_dir().unwrap();
    let names = files.map(|file| file.unwrap().file_name().into_string().unwrap());
    names.filter(|name| name.ends_with(".scp")).collect()
}

/// A table's rows, each as its words.
fn rows(text: &str) -> Vec<Vec<&str>> {
    let lines = text.lines().skip(2);
    lines
        .map(|line| line.split_whitespace().collect())
        .collect()
}

#[test]
fn pointers_are_told_as_they_are_stored() {
    let ran = run(&["open", "makers-sections.scp", "--json"]);
    assert_eq!((ran.status, ran.err.as_str()), (0, ""));
    let lines = ran.lines();
    let shown = &lines[0];
    assert_eq!(shown["file"], "makers-sections.scp");
    assert_eq!(
        (&shown["bytes"], &shown["refusal"]),
        (&json!(296), &json!(null))
    );
    let pointers = shown["pointers"].as_array().unwrap();
    assert_eq!(pointers.len(), 15);
    for told in [
        json!({"id": 1, "name": "patient and recording", "length": 56, "index": 173, "present": true}),
        json!({"id": 11, "name": "diagnosis as codes", "length": 0, "index": 0, "present": false}),
        json!({"id": 1023, "name": "maker's own", "length": 16, "index": 278, "present": true}),
    ] {
        assert!(pointers.contains(&told), "{told}");
    }
    let counts = json!({"files": 1, "accepted": 1, "refused": 0, "unread": 0, "interrupted": false,
        "passed_over": {"links": 0, "special_files": 0}, "by_number": {}});
    assert_eq!(lines[1..], [json!({"summary": counts})]);
}

/// Files that are accepted, refused and not there: a line for each, and the summary.
#[test]
fn every_file_has_a_line() {
    let ran = run(&[
        "open",
        "--json",
        "refused-2.scp",
        "none.scp",
        "007.scp",
        "refused-8.scp",
    ]);
    assert_eq!(ran.status, 2);
    assert_eq!(ran.err, "tigmavresh: none.scp: No such file or directory\n");
    let lines = ran.lines();
    assert_eq!(
        lines[0],
        json!({
            "file": "refused-2.scp",
            "bytes": 372,
            "verdict": "refused",
            "refusal": 2,
            "rule": Refusal::try_from(2).unwrap().words(),
            "found": ["the CRC stored is 0x5937, and the bytes give 0x5A44"],
        })
    );
    assert_eq!(
        lines[1],
        json!({"file": "none.scp", "verdict": "unread", "refusal": null, "error": "No such file or directory"})
    );
    assert_eq!(lines[2]["pointers"].as_array().unwrap().len(), 12);
    assert!(lines[3]["refusal"].is_null());
    let counts = json!({"files": 4, "accepted": 2, "refused": 1, "unread": 1, "interrupted": false,
        "passed_over": {"links": 0, "special_files": 0}, "by_number": {"2": 1}});
    assert_eq!(lines[4]["summary"], counts);
    assert_eq!(lines[4]["note"], NOTE);
    assert_eq!(lines.len(), 5);
}

/// JSON and text say the same, with the same status.
#[test]
fn json_agrees_with_the_tables() {
    for name in names() {
        let (text, told) = (run(&["open", &name]), run(&["open", &name, "--json"]));
        assert_eq!(text.status, told.status, "{name}");
        let told = &told.lines()[0];
        let pointers = told["pointers"].as_array().cloned().unwrap_or_default();
        assert_eq!(told.get("pointers").is_some(), told["refusal"].is_null());
        if text.status == 0 {
            assert_eq!(rows(&text.out).len(), pointers.len(), "{name}");
        }
        for (row, told) in rows(&text.out).iter().zip(&pointers) {
            assert_eq!(row[0], told["id"].to_string());
            let numbers = [&told["length"], &told["index"]].map(Value::to_string);
            assert_eq!(row[row.len() - 3..row.len() - 1], numbers, "{name}");
        }
        let (text, told) = (run(&["fields", &name]), run(&["fields", &name, "--json"]));
        assert_eq!((text.status, ""), (told.status, told.err.as_str()));
        let told = told.json();
        assert_eq!(told["bytes"], sample(&name).len());
        assert_eq!(told["refusal"].is_null(), text.status == 0);
        let fields = told["fields"].as_array().cloned().unwrap_or_default();
        for field in &fields {
            let pairs: Vec<&str> = field["bytes"].as_str().unwrap().split(' ').collect();
            for line in pairs.chunks(16).map(|some| some.join(" ")) {
                assert!(text.out.contains(&format!("  {line}")), "{name}: {line}");
            }
        }
        assert_eq!(fields.len(), if text.status == 0 { 5 } else { 0 });
    }
}

#[test]
fn fields_are_told_byte_for_byte() {
    let ran = run(&["fields", "007.scp", "--json"]);
    assert_eq!((ran.status, ran.err.as_str()), (0, ""));
    let shown = ran.json();
    assert_eq!(
        (&shown["file"], &shown["bytes"]),
        (&json!("007.scp"), &json!(196))
    );
    assert!(shown["refusal"].is_null() && shown.get("note").is_none());
    let fields = &shown["fields"];
    assert_eq!(
        fields[0],
        json!({"tag": 2, "name": "patient identifier", "length": 4, "bytes": "30 30 37 00", "text": "007"})
    );
    assert_eq!(
        fields[1],
        json!({"tag": 14, "name": "recording device", "length": 0, "bytes": ""})
    );
    assert_eq!(
        fields[2],
        json!({"tag": 25, "name": "date of recording", "length": 4, "bytes": "E8 07 03 0E", "date": "2024-03-14"})
    );
    assert_eq!(
        fields[3],
        json!({"tag": 26, "name": "time of recording", "length": 3, "bytes": "09 1A 35", "time": "09:26:53"})
    );
    assert_eq!(fields[4]["text"], "Made up");
    let seven = run(&["fields", "7.scp", "--json"]).json();
    assert_eq!(seven["fields"][0]["bytes"], "37 00");
    assert_eq!(seven["fields"][0]["text"], "7");
}

#[test]
fn fields_of_a_refused_record_are_not_told() {
    let input = File::open(samples().join("refused-6.scp")).unwrap();
    let ran = run_with_input(&["fields", "-", "--json"], input);
    assert_eq!((ran.status, ran.err.as_str()), (1, ""));
    let shown = ran.json();
    assert_eq!(
        (&shown["file"], &shown["bytes"]),
        (&json!("-"), &json!(194))
    );
    assert_eq!(shown["refusal"], 6);
    assert_eq!(
        shown["found"],
        json!(["tag 2 has no NUL at its end (byte 159)"])
    );
    assert!(shown.get("fields").is_none());
    assert_eq!(shown["note"], NOTE);
}

/// A record with these fields, and one lead.
fn with_fields(fields: &[(u8, &[u8])]) -> Vec<u8> {
    let mut section1 = Vec::new();
    for (tag, bytes) in fields.iter().copied().chain([(255, &[][..])]) {
        section1.push(tag);
        section1.extend((bytes.len() as u16).to_le_bytes());
        section1.extend(bytes);
    }
    let writing = judge::Writing {
        section1: &section1,
        section2: &[],
        version: 13,
        flags: 0,
        step: 1000,
        interval: 1000,
        order: 0,
        firsts: &[1],
        counts: &[2],
        ids: &[1],
        samples: &[7, 7],
    };
    judge::write_record(&writing, 0, scp::RECORD_MAX).unwrap()
}

/// An identifier is never turned into a number, trimmed or folded, and a long field's bytes are in one string.
#[test]
fn no_byte_of_a_field_is_lost() {
    let folder = Folder::new("field-bytes");
    let long: Vec<u8> = (0x30..0x70).collect();
    let file = folder.file(
        "long.scp",
        &with_fields(&[
            (2, b" 0aA \0"),
            (14, b""),
            (25, &[0xE8, 7, 3, 14]),
            (26, &[9, 26, 53]),
            (30, &long),
            (30, b"caf\xC3\xA9\0"),
            (200, b"\"\\\0\0"),
            (30, b"M\xFCller\n\0"),
        ]),
    );
    let fields = run(&["fields", &file, "--json"]).json()["fields"].clone();
    let told = |place: usize| {
        (
            fields[place]["bytes"].as_str(),
            fields[place]["text"].as_str(),
        )
    };
    assert_eq!(told(0), (Some("20 30 61 41 20 00"), Some(" 0aA ")));
    let hex: Vec<String> = long.iter().map(|byte| format!("{byte:02X}")).collect();
    let text = String::from_utf8(long).unwrap();
    assert_eq!(told(4), (Some(hex.join(" ").as_str()), Some(text.as_str())));
    assert_eq!(told(5), (Some("63 61 66 C3 A9 00"), Some("caf\u{e9}")));
    assert_eq!(told(6), (Some("22 5C 00 00"), Some("\"\\\0")));
    assert_eq!(fields[6]["name"], "other");
    assert_eq!(told(7), (Some("4D FC 6C 6C 65 72 0A 00"), None));
    assert_eq!(fields[7]["escaped"], "M\\xFCller\\n");
    assert_eq!(fields.as_array().unwrap().len(), 8);
    let table = run(&["fields", &file]).out;
    for line in [
        "   30       6  remark              63 61 66 C3 A9 00                                \"caf\u{e9}\\0\"",
        "   30       8  remark              4D FC 6C 6C 65 72 0A 00                          \"M\\xFCller\\n\\0\"",
    ] {
        assert!(table.lines().any(|shown| shown == line), "{line}\n{table}");
    }
}

/// A record with this date of birth, date and time.
fn dated(birth: &[u8], date: &[u8], time: &[u8]) -> Vec<u8> {
    with_fields(&[(2, b"007\0"), (5, birth), (14, b""), (25, date), (26, time)])
}

/// Dates and times are read where they are in their bounds, and their bytes are shown either way.
#[test]
fn dates_and_times_are_read() {
    let folder = Folder::new("dates");
    let record = dated(&[0xA8, 7, 11, 2], &[0xE8, 7, 12, 31], &[0, 32, 33]);
    let file = folder.file("dated.scp", &record);
    let ran = run(&["fields", &file]);
    assert_eq!(ran.status, 0);
    let table = "
  Tag  Length  Name                Bytes        Text
    2       4  patient identifier  30 30 37 00  \"007\\0\"
    5       4  date of birth       A8 07 0B 02  1960-11-02
   14       0  recording device
   25       4  date of recording   E8 07 0C 1F  2024-12-31
   26       3  time of recording   00 20 21     00:32:33
";
    assert!(ran.out.ends_with(table), "{}", ran.out);
    let fields = run(&["fields", &file, "--json"]).json()["fields"].clone();
    assert_eq!(fields[1]["date"], "1960-11-02");
    assert_eq!(fields[3]["date"], "2024-12-31");
    assert_eq!(fields[4]["time"], "00:32:33");
    assert!(fields[4].get("text").is_none() && fields[4].get("date").is_none());

    let record = dated(&[0xA8, 7, 11, 2, 0], &[0xE8, 7, 13, 31], &[24, 0, 0]);
    let file = folder.file("out-of-bounds.scp", &record);
    let ran = run(&["fields", &file]);
    assert_eq!(ran.status, 0);
    for end in [
        "A8 07 0B 02 00  (not a date in the calendar)",
        "E8 07 0D 1F     (not a date in the calendar)",
        "18 00 00        (not a time of day)",
    ] {
        assert!(
            ran.out.lines().any(|line| line.ends_with(end)),
            "{end}\n{}",
            ran.out
        );
    }
    let fields = run(&["fields", &file, "--json"]).json()["fields"].clone();
    for field in fields.as_array().unwrap() {
        assert!(field.get("date").is_none() && field.get("time").is_none());
    }
    assert_eq!(fields[1]["remark"], "not a date in the calendar");
    assert_eq!(fields[4]["remark"], "not a time of day");
}

#[test]
fn the_help_says_whose_reading_a_date_is() {
    let help = run(&["fields", "--help"]).out.replace('\n', " ");
    assert!(
        help.contains("the tool's own reading of the bytes"),
        "{help}"
    );
}
