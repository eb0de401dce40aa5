//! `index` in a user's hands: what is added in which order, what is refused, what is found, and that an index is never half there.

mod common;

use std::ffi::OsStr;
use std::fs::{self, File, Permissions};
use std::os::unix::ffi::OsStrExt;
use std::os::unix::fs::{chown, symlink, MetadataExt, PermissionsExt};
use std::process::{Command, Stdio};
use std::thread;
use std::time::Instant;

use common::filed::{built, record, SAMPLES};
use common::folder::Folder;
use common::record::{seal, section};
use common::waiting::Waiting;
use common::{run, run_in, run_with_input, sample, samples, tool, Ran, NOTE};
use serde_json::{json, Value};

/// A record whose Section 3 says that it has 33 leads.
fn too_many_leads() -> Vec<u8> {
    let mut record = record(b"33", SAMPLES, 2);
    let at = section(&record, 3) + 16;
    record[at] = 33;
    seal(&mut record);
    record
}

/// The bytes of the file `audit.idx`.
fn audit(folder: &Folder) -> Vec<u8> {
    fs::read(folder.path("audit.idx")).unwrap()
}

/// Adds files of a folder to its `audit.idx`.
fn add(folder: &Folder, words: &[&str]) -> Ran {
    run_in(folder, &[&["index", "add", "audit.idx"], words].concat())
}

/// A command line that is not understood is told.
#[test]
fn a_bad_command_line_is_told() {
    for words in [
        &[][..],
        &["remove", "a.idx"],
        &["help"],
        &["add"],
        &["add", "a.idx"],
        &["add", "--csv", "a.idx", "."],
        &["merge"],
        &["merge", "a.idx"],
        &["merge", "--jobs", "2", "a.idx", "b.idx"],
        &["find", "a.idx"],
        &["find", "a.idx", "007", "7"],
        &["list"],
        &["list", "--csv", "--json", "a.idx"],
        &["list", "--excel", "a.idx"],
        &["check", "--csv", "a.idx"],
        &["check", "a.idx", "b.idx"],
    ] {
        let ran = run(&[&["index"], words].concat());
        assert_eq!((ran.status, ran.out.as_str()), (2, ""), "{words:?}");
        let usage = "Usage: tigmavresh index ";
        assert!(ran.err.contains(usage), "{words:?}: {}", ran.err);
    }
}

// ---- adding

#[test]
fn records_are_added_and_shown() {
    let folder = Folder::new("index-added");
    let names = ["beat.scp", "7.scp", "007.scp"];
    let index = folder.path("audit.idx");
    let ran = run(&[&["index", "add", &index], &names[..]].concat());
    let line = format!("{index}: 3 added, 0 refused, 0 not read; 3 entries now\n");
    assert_eq!((ran.status, ran.out, ran.err), (0, line, String::new()));
    assert_eq!(audit(&folder), built(&names.map(sample)));
    assert_eq!(folder.names(), ["audit.idx"]);

    let ran = run_in(&folder, &["index", "list", "audit.idx"]);
    let text = "\
audit.idx: accepted (22 bytes; 3 entries of 2 identifiers, on 2024-03-14)
  Identifier  Date        Leads
  \"007\"       2024-03-14      2
  \"007\"       2024-03-14      0
  \"7\"         2024-03-14      0
";
    assert_eq!((ran.status, ran.out.as_str()), (0, text));
    let ran = run_in(&folder, &["index", "check", "audit.idx"]);
    let text = "audit.idx: accepted (22 bytes; 3 entries of 2 identifiers, on 2024-03-14)\n";
    assert_eq!((ran.status, ran.out.as_str()), (0, text));
    let ran = run_in(&folder, &["index", "find", "audit.idx", "7"]);
    let text = "\
audit.idx: 1 entry of \"7\"
  Identifier  Date        Leads
  \"7\"         2024-03-14      0
";
    assert_eq!((ran.status, ran.out.as_str()), (0, text));
}

/// By the identifier's bytes, a shorter one first, then by year, month and day, then by arrival; whether the records come at
/// once or one by one. Leads are no part of the order: here they tell equal entries apart.
#[test]
fn entries_are_in_order() {
    let folder = Folder::new("index-order");
    let of = |identifier: &str, date, leads| record(identifier.as_bytes(), date, leads);
    let records = [
        of("7", SAMPLES, 3),
        of("0070", SAMPLES, 0),
        of("007", (2024, 3, 15), 1),
        of("007", SAMPLES, 9),
        of("007", (2023, 12, 31), 1),
        of("007", SAMPLES, 2),
        of("007", (2024, 2, 31), 1),
        of("é", (0, 1, 1), 32),
        of("Z", (65_535, 12, 31), 1),
        of("007", SAMPLES, 5),
    ];
    let names: Vec<String> = (0..10).map(|number| format!("{number}.scp")).collect();
    for (name, record) in names.iter().zip(&records) {
        folder.file(name, record);
    }
    let names: Vec<&str> = names.iter().map(String::as_str).collect();
    assert_eq!(add(&folder, &names).status, 0);
    assert_eq!(audit(&folder), built(&records));
    let shown = run_in(&folder, &["index", "list", "audit.idx"]).out;
    let text = "\
audit.idx: accepted (76 bytes; 10 entries of 5 identifiers, from 0000-01-01 to 65535-12-31)
  Identifier  Date         Leads
  \"007\"       2023-12-31       1
  \"007\"       2024-02-31       1  (not a date in the calendar)
  \"007\"       2024-03-14       9
  \"007\"       2024-03-14       2
  \"007\"       2024-03-14       5
  \"007\"       2024-03-15       1
  \"0070\"      2024-03-14       0
  \"7\"         2024-03-14       3
  \"Z\"         65535-12-31      1
  \"é\"         0000-01-01      32
";
    assert_eq!(shown, text);
    let at_once = audit(&folder);
    fs::remove_file(folder.path("audit.idx")).unwrap();
    for (number, name) in (1..).zip(&names) {
        let ran = add(&folder, &[name]);
        let entries = if number == 1 {
            "1 entry"
        } else {
            &format!("{number} entries")
        };
        let line = format!("audit.idx: 1 added, 0 refused, 0 not read; {entries} now\n");
        assert_eq!((ran.status, ran.out), (0, line));
    }
    assert_eq!(audit(&folder), at_once);
}

/// One of many records, of ten patients and three days. Equal ones differ in their leads, which are no part of the order.
fn one_of_many(number: usize) -> Vec<u8> {
    let identifier = (number * 7919 % 10).to_string();
    let date = (2024, 1, 1 + (number % 3) as u8);
    record(identifier.as_bytes(), date, number % 33)
}

/// Many files, more than wait for one: the same index and the same answer however many are read at once.
#[test]
fn the_index_does_not_depend_on_the_jobs() {
    let folder = Folder::new("index-jobs");
    fs::create_dir_all(folder.path("in/b")).unwrap();
    let mut good = Vec::new();
    for number in 0..600 {
        let name = format!("in/{}{number:04}", if number < 300 { "a" } else { "b/" });
        if number % 10 == 3 {
            folder.file(&name, &sample("refused-2.scp"));
            continue;
        }
        let record = one_of_many(number);
        folder.file(&name, &record);
        good.push(record);
    }
    let wanted = built(&good);
    let mut answers = Vec::new();
    for jobs in [
        &["--jobs", "1"][..],
        &["--jobs=2"],
        &["--jobs=3"],
        &["--jobs=7"],
        &[],
    ] {
        for form in [&[][..], &["--json"]] {
            let ran = add(&folder, &[&["in"], jobs, form].concat());
            assert_eq!((ran.status, ran.err.as_str()), (1, ""), "{jobs:?}");
            assert_eq!(audit(&folder), wanted, "{jobs:?}");
            answers.push(ran.out);
            fs::remove_file(folder.path("audit.idx")).unwrap();
        }
    }
    let last = answers[0].lines().nth_back(2).unwrap();
    assert_eq!(
        last,
        "audit.idx: 540 added, 60 refused, 0 not read; 540 entries now"
    );
    for pair in answers.chunks(2).skip(1) {
        assert!(pair == &answers[..2]);
    }
}

/// One at a time, or some by some, each time by a run of its own: the index is that of all at once.
#[test]
fn the_index_does_not_depend_on_how_records_are_parted() {
    let folder = Folder::new("index-parted");
    let records: Vec<_> = (0..64).map(one_of_many).collect();
    let file = |(number, record): (usize, &Vec<u8>)| {
        let name = format!("{number}.scp");
        folder.file(&name, record);
        name
    };
    let names: Vec<String> = records.iter().enumerate().map(file).collect();
    for (at_once, jobs) in [(1, "--jobs=1"), (7, "--jobs=3"), (40, "--jobs=7")] {
        let mut added = 0;
        for some in names.chunks(at_once) {
            let some = some.iter().map(String::as_str);
            let words: Vec<&str> = [jobs].into_iter().chain(some).collect();
            assert_eq!(add(&folder, &words).status, 0);
            added += words.len() - 1;
            assert_eq!(audit(&folder), built(&records[..added]), "{jobs}, {added}");
        }
        assert_eq!(added, records.len());
        fs::remove_file(folder.path("audit.idx")).unwrap();
    }
}

/// Six records of which four are refused.
fn mixed(folder: &Folder) -> [&'static str; 6] {
    folder.file("a.scp", &sample("007.scp"));
    folder.file("b.scp", &sample("refused-5.scp"));
    folder.file("c.scp", &record(b"9", (2024, 13, 14), 1));
    folder.file("d.scp", &too_many_leads());
    folder.file("e.scp", &record(b"8", (2024, 4, 30), 1));
    folder.file("f.scp", &record(b"9", (2024, 0, 32), 0));
    ["a.scp", "b.scp", "c.scp", "d.scp", "e.scp", "f.scp"]
}

/// A record that is refused is named, and the others are added.
#[test]
fn a_refused_record_leaves_the_index_alone() {
    let folder = Folder::new("index-refused");
    let ran = add(&folder, &mixed(&folder));
    assert_eq!((ran.status, ran.err.as_str()), (1, ""));
    let good = [sample("007.scp"), record(b"8", (2024, 4, 30), 1)];
    assert_eq!(audit(&folder), built(&good));
    let lines: Vec<&str> = ran.out.lines().collect();
    for (line, name, number, found) in [
        (0, "b", 5, "stored is 0x5C64, and the bytes give 0x4C45"),
        (
            1,
            "c",
            24,
            "the month of tag 25 is 13, not 1 to 12 (byte 172)",
        ),
        (
            2,
            "d",
            8,
            "the number of leads is 33, not 1 to 32 (byte 201)",
        ),
        (
            3,
            "f",
            24,
            "the month of tag 25 is 0, not 1 to 12 (byte 172)",
        ),
    ] {
        let start = format!("{name}.scp: refused, number {number} (");
        assert!(lines[line].starts_with(&start), "{}", ran.out);
        assert!(lines[line].ends_with(found), "{}", ran.out);
    }
    let line = "audit.idx: 2 added, 4 refused, 0 not read; 2 entries now";
    assert_eq!(lines[4..8], ["", NOTE, "", line]);
    let numbers: Vec<&str> = lines[9..].iter().map(|line| line[..16].trim()).collect();
    assert_eq!(numbers, ["5      1", "8      1", "24      2"]);
}

/// Where every record is refused the file stays the one that it is.
#[test]
fn an_index_without_additions_is_not_written() {
    let folder = Folder::new("index-unwritten");
    let names = mixed(&folder);
    assert_eq!(add(&folder, &names).status, 1);
    let written = || {
        let file = fs::metadata(folder.path("audit.idx")).unwrap();
        (file.ino(), file.mtime(), file.mtime_nsec())
    };
    let before = written();
    assert_eq!(add(&folder, &names[1..4]).status, 1);
    assert_eq!(written(), before);
}

/// Both numbers of a date may be wrong; and the bytes are those of the record.
#[test]
fn a_date_is_explained() {
    let folder = Folder::new("index-date");
    let bad = record(b"9", (2024, 0, 32), 1);
    assert_eq!(bad[171..173], [0, 32]);
    folder.file("bad.scp", &bad);
    let ran = add(&folder, &["bad.scp", "--json"]);
    let told: Value = serde_json::from_str(ran.first_line()).unwrap();
    assert_eq!((ran.status, &told["refusal"]), (1, &json!(24)));
    assert_eq!(
        told["found"],
        json!(["the month of tag 25 is 0, not 1 to 12 (byte 172)"])
    );
    // it opens, and every other command takes it
    assert_eq!(run_in(&folder, &["check", "bad.scp"]).status, 0);
}

/// Every sample that opens is added, also those whose leads are refused: of Sections 2 to 6 only Section 3 is asked.
#[test]
fn samples_are_not_read() {
    let folder = Folder::new("index-samples");
    let index = folder.path("audit.idx");
    let names = [7, 8, 9, 10, 12, 13, 14].map(|number| format!("refused-{number}.scp"));
    let files = names.iter().map(String::as_str);
    let words: Vec<&str> = ["index", "add", &index].into_iter().chain(files).collect();
    let ran = run(&words);
    assert_eq!(ran.status, 0, "{}", ran.out);
    let records = names.map(|name| sample(&name));
    assert_eq!(audit(&folder), built(&records));
    for number in 1..=6 {
        let name = format!("refused-{number}.scp");
        let ran = run(&["index", "add", &index, &name]);
        let start = format!("{name}: refused, number {number} (");
        assert!(
            ran.status == 1 && ran.out.starts_with(&start),
            "{}",
            ran.out
        );
    }
    assert_eq!(audit(&folder), built(&records));
}

#[test]
fn a_folder_is_added_as_check_takes_it() {
    let folder = Folder::new("index-folder");
    fs::create_dir_all(folder.path("in/b")).unwrap();
    let record = |leads| record(b"1", SAMPLES, leads);
    for (name, leads) in [("in/c", 3), ("in/a", 1), ("in/b/2", 2)] {
        folder.file(name, &record(leads));
    }
    symlink("a", folder.path("in/link")).unwrap();
    let ran = add(&folder, &["in"]);
    let line = "audit.idx: 3 added, 0 refused, 0 not read; 3 entries now; passed over: 1 link\n";
    assert_eq!((ran.status, ran.out.as_str()), (0, line));
    assert_eq!(audit(&folder), built(&[1, 2, 3].map(record)));
    // paths come in the order in which they are given, as often as they are
    fs::remove_file(folder.path("audit.idx")).unwrap();
    assert_eq!(add(&folder, &["in/c", "in/b", "in/link", "in/c"]).status, 0);
    assert_eq!(audit(&folder), built(&[3, 2, 1, 3].map(record)));
    fs::create_dir(folder.path("empty")).unwrap();
    let before = audit(&folder);
    let ran = add(&folder, &["empty"]);
    let words = "no files found; use --allow-empty if that is expected";
    assert_eq!((ran.status, ran.err), (2, format!("tigmavresh: {words}\n")));
    assert_eq!(add(&folder, &["empty", "--allow-empty"]).status, 0);
    assert_eq!(audit(&folder), before);
}

/// An index may lie among its records, and be named with them by a shell's star.
#[test]
fn the_index_is_none_of_the_records() {
    let folder = Folder::new("index-inside");
    folder.file("a.scp", &sample("7.scp"));
    for words in [&["."][..], &["a.scp", "audit.idx"], &["../index-inside"]] {
        let ran = add(&folder, words);
        assert_eq!(ran.status, 0, "{}{}", ran.out, ran.err);
    }
    assert_eq!(audit(&folder), built(&vec![sample("7.scp"); 3]));
    // another index is a file like any other
    fs::copy(folder.path("audit.idx"), folder.path("other.idx")).unwrap();
    let ran = add(&folder, &["."]);
    assert!(
        ran.out.starts_with("./other.idx: refused, number 1 ("),
        "{}",
        ran.out
    );
}

#[test]
fn a_record_may_come_by_standard_input() {
    let folder = Folder::new("index-input");
    let index = folder.path("audit.idx");
    let input = File::open(samples().join("beat.scp")).unwrap();
    let ran = run_with_input(&["index", "add", &index, "7.scp", "-"], input);
    assert_eq!((ran.status, ran.err.as_str()), (0, ""));
    assert_eq!(audit(&folder), built(&["7.scp", "beat.scp"].map(sample)));
    for command in [&["list"][..], &["check"]] {
        let input = File::open(&index).unwrap();
        let ran = run_with_input(&[&["index"], command, &["-"]].concat(), input);
        let line = "standard input: accepted (14 bytes; 2 entries of 2 identifiers, on 2024-03-14)";
        assert_eq!((ran.status, ran.first_line()), (0, line));
    }
    let ran = run(&["index", "add", "-", "7.scp"]);
    let words = "INDEX must be a file: it is read, and written anew";
    assert_eq!((ran.status, ran.err), (2, format!("tigmavresh: {words}\n")));
}

// ---- finding

/// Identifiers are bytes: 007 and 7 are two people, and so are 007 and 0070.
#[test]
fn all_and_only_the_entries_of_an_identifier_are_found() {
    let folder = Folder::new("index-found");
    let identifiers = ["007", "7", "0070", "00", "007 ", "07", "007"];
    for (number, identifier) in identifiers.iter().enumerate() {
        let name = format!("{number}.scp");
        folder.file(&name, &record(identifier.as_bytes(), SAMPLES, number));
        assert_eq!(add(&folder, &[&name]).status, 0);
    }
    let leads = |identifier: &str| {
        let ran = run_in(
            &folder,
            &["index", "find", "audit.idx", identifier, "--json"],
        );
        let entry = |line| serde_json::from_str::<Value>(line).unwrap();
        let leads = ran
            .out
            .lines()
            .map(entry)
            .map(|entry| entry["lead_count"].as_u64());
        (ran.status, leads.map(Option::unwrap).collect::<Vec<u64>>())
    };
    assert_eq!(leads("007"), (0, vec![0, 6]));
    assert_eq!(leads("7"), (0, vec![1]));
    assert_eq!(leads("0070"), (0, vec![2]));
    assert_eq!(leads("007 "), (0, vec![4]));
    for none in ["", "0", "0071", "8", "007\u{a0}"] {
        assert_eq!(leads(none), (1, vec![]), "{none:?}");
    }
}

/// Nothing found is said, in every form, and has a status of its own.
#[test]
fn nothing_found_is_said() {
    let folder = Folder::new("index-none");
    folder.file("audit.idx", &built(&[sample("7.scp")]));
    let find = |words: &[&str]| run_in(&folder, &[&["index", "find", "audit.idx"], words].concat());
    let ran = find(&["007"]);
    let line = "audit.idx: no entry of \"007\"\n";
    assert_eq!(
        (ran.status, ran.out.as_str(), ran.err.as_str()),
        (1, line, "")
    );
    let ran = find(&["007", "--csv"]);
    let head = "identifier,bytes,date,leads\r\n";
    assert_eq!((ran.status, ran.out.as_str()), (1, head));
    assert_eq!(ran.err, format!("tigmavresh: {line}"));
    let ran = find(&["007", "--json"]);
    assert_eq!((ran.status, ran.out.as_str()), (1, ""));
    assert_eq!(ran.err, format!("tigmavresh: {line}"));
    // as fields shows it, with its NUL
    let ran = find(&["--hex", "37 00"]);
    let line = "audit.idx: no entry of \"7\\0\"; in an index identifiers are without their NUL\n";
    assert_eq!((ran.status, ran.out.as_str()), (1, line));
}

#[test]
fn an_identifier_may_be_given_in_hex() {
    let folder = Folder::new("index-hex");
    folder.file("audit.idx", &built(&["007.scp", "7.scp"].map(sample)));
    let find = |word: &str| run_in(&folder, &["index", "find", "--hex", "audit.idx", word]);
    for word in ["303037", "30 30 37", "hex:30 30 37", " 3030 37 "] {
        let ran = find(word);
        assert_eq!(
            (ran.status, ran.first_line()),
            (0, "audit.idx: 1 entry of \"007\"")
        );
    }
    for word in ["7", "3", "0x30", "hex:hex:30", "30:30"] {
        let ran = find(word);
        assert_eq!((ran.status, ran.out.as_str()), (2, ""), "{word}");
        assert!(
            ran.err.contains("is not pairs of hex digits"),
            "{}",
            ran.err
        );
    }
    assert_eq!(find("").status, 1);
}

/// Identifiers that are no plain text, in every form. They are bytes of the command line as they are.
#[test]
fn any_identifier_is_shown_and_found() {
    let folder = Folder::new("index-bytes");
    let identifiers: [&[u8]; 7] = [
        b"a,b",
        b"say \"hi\"",
        b"two\nlines",
        b"M\xFCller",
        "Müller".as_bytes(),
        b"\x01\x7F",
        b"=1+2",
    ];
    let records = identifiers.map(|identifier| record(identifier, SAMPLES, 1));
    folder.file("audit.idx", &built(&records));
    for identifier in identifiers {
        let mut command = tool();
        command.current_dir(&folder.0);
        command.args(["index", "find", "audit.idx", "--csv", "--"]);
        let output = command.arg(OsStr::from_bytes(identifier)).output();
        let ran = Ran::from(output.unwrap());
        assert_eq!((ran.status, ran.out.lines().count()), (0, 2), "{}", ran.out);
    }
    let list =
        |form: &[&str]| run_in(&folder, &[&["index", "list", "audit.idx"], form].concat()).out;
    let text = list(&[]);
    for shown in [
        r#"  "a,b"  "#,
        r#"  "say \"hi\""  "#,
        r#"  "two\nlines"  "#,
        r#"  "M\xFCller"  "#,
        r#"  "Müller"  "#,
        r#"  "\u{1}\u{7f}"  "#,
    ] {
        assert!(text.contains(shown), "{shown}\n{text}");
    }
    let csv = list(&["--csv"]);
    assert_eq!(csv.lines().count(), 8);
    for row in [
        "\"a,b\",hex:61 2C 62,2024-03-14,1\r\n",
        "\"say \"\"hi\"\"\",hex:73 61 79 20 22 68 69 22,2024-03-14,1\r\n",
        "two\\nlines,hex:74 77 6F 0A 6C 69 6E 65 73,2024-03-14,1\r\n",
        "M\\xFCller,hex:4D FC 6C 6C 65 72,2024-03-14,1\r\n",
        "Müller,hex:4D C3 BC 6C 6C 65 72,2024-03-14,1\r\n",
        "\\u{1}\\u{7f},hex:01 7F,2024-03-14,1\r\n",
        "=1+2,hex:3D 31 2B 32,2024-03-14,1\r\n",
    ] {
        assert!(csv.contains(row), "{row}\n{csv}");
    }
    let excel = list(&["--csv", "--excel"]);
    for row in [
        "\"=\"\"=1+2\"\"\",hex:3D",
        "\"=\"\"say \"\"\"\"hi\"\"\"\"\"\"\",hex:73",
    ] {
        assert!(excel.contains(row), "{row}\n{excel}");
    }
    let entries: Vec<Value> = list(&["--json"])
        .lines()
        .map(|line| serde_json::from_str(line).unwrap())
        .collect();
    let latin = json!({"identifier": "4D FC 6C 6C 65 72", "escaped": "M\\xFCller", "date": "2024-03-14", "lead_count": 1});
    let lines = json!({"identifier": "74 77 6F 0A 6C 69 6E 65 73", "text": "two\nlines", "date": "2024-03-14", "lead_count": 1});
    let unseen = json!({"identifier": "01 7F", "date": "2024-03-14", "lead_count": 1});
    assert!(
        [latin, lines, unseen]
            .iter()
            .all(|entry| entries.contains(entry)),
        "{entries:?}"
    );
}

/// The longest identifier and the shortest.
#[test]
fn identifiers_have_up_to_63_bytes() {
    let folder = Folder::new("index-long");
    let long = "x".repeat(63);
    folder.file("long.scp", &record(long.as_bytes(), SAMPLES, 32));
    folder.file("short.scp", &record(b"x", SAMPLES, 32));
    assert_eq!(add(&folder, &["long.scp", "short.scp"]).status, 0);
    assert_eq!(audit(&folder).len(), 5 + 63 + 5 + 1);
    let ran = run_in(&folder, &["index", "find", "audit.idx", &long]);
    assert_eq!((ran.status, ran.out.lines().count()), (0, 3));
    assert_eq!(
        run_in(&folder, &["index", "find", "audit.idx", &"x".repeat(64)]).status,
        1
    );
}

// ---- an index that is none

/// Indexes that are none, and what is said of each.
fn damaged() -> Vec<(Vec<u8>, &'static str)> {
    let index = built(&["007.scp", "7.scp"].map(sample));
    let with = |at: usize, bits: u8| {
        let mut index = index.clone();
        index[at] ^= bits;
        index
    };
    vec![
        (index[..13].to_vec(), "entry 2: the index ends after 0 of the identifier's 1 bytes (byte 9)"),
        (index[..11].to_vec(), "entry 2: the index ends after 3 of the 5 bytes before the identifier (byte 9)"),
        (with(8, 0x04), "entry 2: the identifier's length is 0, not 1 to 63 (byte 9)"),
        (with(3, 0xC0), "entry 1: the month is 0, not 1 to 12 (byte 1)"),
        (with(10, 0x03), "entry 2: the month is 15, not 1 to 12 (byte 9)"),
        (with(3, 0x1C), "entry 1: the day is 0, not 1 to 31 (byte 1)"),
        (with(12, 0x42), "entry 2: the number of leads is 33, over 32 (byte 9)"),
        (with(4, 0x01), "entry 1: the bit before the identifier is 1, not 0 (byte 1)"),
        (with(6, 0x30), "entry 1: the identifier has a NUL as byte 2 of 3 (byte 1)"),
        (
            [&index[8..], &index[..8]].concat(),
            "entry 2: \"007\" of 2024-03-14 stands behind \"7\" of 2024-03-14, and belongs before it (byte 7)",
        ),
    ]
}

#[test]
fn a_damaged_index_is_refused_and_explained() {
    let folder = Folder::new("index-damaged");
    folder.file("good.scp", &sample("7.scp"));
    for (bytes, found) in damaged() {
        folder.file("audit.idx", &bytes);
        let ran = run_in(&folder, &["index", "check", "audit.idx"]);
        assert_eq!((ran.status, ran.err.as_str()), (1, ""), "{found}");
        let heading = format!("audit.idx: refused, number 26 ({} bytes)", bytes.len());
        assert_eq!(ran.first_line(), heading);
        let lines: Vec<&str> = ran.out.lines().collect();
        assert!(lines[1].starts_with("  rule broken  "), "{}", ran.out);
        assert_eq!(
            lines[2..],
            [&format!("  found        {found}"), "", NOTE],
            "{}",
            ran.out
        );
        let checked = ran.out;
        for words in [&["find", "audit.idx", "7"][..], &["list", "audit.idx"]] {
            let ran = run_in(&folder, &[&["index"], words].concat());
            assert_eq!((ran.status, &ran.out), (1, &checked));
            let ran = run_in(&folder, &[&["index"], words, &["--csv"]].concat());
            assert_eq!((ran.status, ran.out.as_str()), (1, ""));
            assert!(
                ran.err.contains(&heading) && ran.err.contains(found),
                "{}",
                ran.err
            );
        }
        let ran = add(&folder, &["good.scp"]);
        let told = format!("{checked}\naudit.idx: nothing was added\n");
        assert_eq!((ran.status, ran.out), (1, told));
        let ran = run_in(&folder, &["index", "merge", "audit.idx", "audit.idx"]);
        let told = format!("{checked}\naudit.idx: nothing was merged\n");
        assert_eq!((ran.status, ran.out), (1, told));
        assert_eq!(audit(&folder), bytes);
    }
}

/// Whatever the bytes are, the verdict is that of the library, and what is said does not contradict it.
#[test]
fn the_verdict_is_that_of_the_library() {
    let folder = Folder::new("index-verdicts");
    let index = built(&["007.scp", "7.scp"].map(sample));
    for bit in 0..8 * index.len() {
        let mut bytes = index.clone();
        bytes[bit / 8] ^= 0x80 >> (bit % 8);
        folder.file(&format!("{bit}.idx"), &bytes);
        let ran = run_in(
            &folder,
            &["index", "check", &format!("{bit}.idx"), "--json"],
        );
        let told: Value = serde_json::from_str(&ran.out).unwrap();
        match scp::index_find(&bytes, bytes.len(), &[]) {
            Ok(_) => assert_eq!((ran.status, told.get("found")), (0, None)),
            Err(refusal) => {
                assert_eq!(
                    (ran.status, &told["refusal"]),
                    (1, &json!(refusal.number()))
                );
                assert_eq!(
                    told["found"].as_array().map(|found| found.is_empty()),
                    Some(false)
                );
            }
        }
    }
}

/// An empty file is an index with no entry.
#[test]
fn an_empty_index_is_one() {
    let folder = Folder::new("index-empty");
    folder.file("audit.idx", b"");
    for command in ["list", "check"] {
        let ran = run_in(&folder, &["index", command, "audit.idx"]);
        let line = "audit.idx: accepted (0 bytes; no entry)\n";
        assert_eq!((ran.status, ran.out.as_str()), (0, line));
    }
    let ran = run_in(&folder, &["index", "list", "audit.idx", "--csv"]);
    assert_eq!(
        (ran.status, ran.out.as_str()),
        (0, "identifier,bytes,date,leads\r\n")
    );
    let ran = run_in(&folder, &["index", "list", "audit.idx", "--json"]);
    assert_eq!((ran.status, ran.out.as_str()), (0, ""));
    assert_eq!(
        run_in(&folder, &["index", "find", "audit.idx", "7"]).status,
        1
    );
    folder.file("a.scp", &sample("7.scp"));
    assert_eq!(add(&folder, &["a.scp"]).status, 0);
    assert_eq!(audit(&folder), built(&[sample("7.scp")]));
}

/// A first run in which every record is refused makes an empty index; one that finds no file makes none.
#[test]
fn a_new_index_may_be_empty() {
    let folder = Folder::new("index-new");
    fs::create_dir(folder.path("empty")).unwrap();
    assert_eq!(add(&folder, &["empty"]).status, 2);
    assert_eq!(folder.names(), ["empty"]);
    let bad = samples()
        .join("refused-2.scp")
        .into_os_string()
        .into_string();
    let ran = add(&folder, &[&bad.unwrap()]);
    assert!(ran
        .out
        .contains("audit.idx: 0 added, 1 refused, 0 not read; no entry now\n"));
    assert_eq!((ran.status, audit(&folder)), (1, Vec::new()));
    fs::remove_file(folder.path("audit.idx")).unwrap();
    assert_eq!(add(&folder, &["empty", "--allow-empty"]).status, 0);
    assert_eq!(folder.names(), ["audit.idx", "empty"]);
}

// ---- files

#[test]
fn a_file_that_is_not_there_is_told() {
    let folder = Folder::new("index-absent");
    let reason = "No such file or directory";
    for words in [
        &["find", "none.idx", "7"][..],
        &["list", "none.idx"],
        &["check", "none.idx"],
    ] {
        let ran = run_in(&folder, &[&["index"], words].concat());
        assert_eq!((ran.status, ran.out.as_str()), (2, ""));
        assert_eq!(ran.err, format!("tigmavresh: none.idx: {reason}\n"));
    }
    folder.file("a.scp", &sample("7.scp"));
    let ran = add(&folder, &["none.scp", "a.scp"]);
    let line = "audit.idx: 1 added, 0 refused, 1 not read; 1 entry now\n";
    assert_eq!((ran.status, ran.out.as_str()), (2, line));
    assert_eq!(ran.err, format!("tigmavresh: none.scp: {reason}\n"));
    assert_eq!(audit(&folder), built(&[sample("7.scp")]));
    let ran = run_in(&folder, &["index", "add", "none/a.idx", "a.scp"]);
    let words = "none/a.idx: there is no folder none";
    assert_eq!((ran.status, ran.err), (2, format!("tigmavresh: {words}\n")));
}

#[test]
fn what_is_no_file_is_no_index() {
    let folder = Folder::new("index-no-file");
    let before = folder.names();
    for index in [".", "/dev/null", "/dev/full"] {
        let ran = run(&["index", "add", index, "7.scp"]);
        let words = "exists but is not a regular file";
        assert_eq!(
            (ran.status, ran.err),
            (2, format!("tigmavresh: {index}: {words}\n"))
        );
    }
    let ran = run(&["index", "list", "."]);
    assert_eq!(
        (ran.status, ran.err.as_str()),
        (2, "tigmavresh: .: Is a directory\n")
    );
    assert_eq!(folder.names(), before);
}

/// Adds a record to an index on a disk of its own, which is changed before by a line of shell, in which `"$0"` is the disk and
/// `$old` an index. The answer has the status and what is then on the disk; there is none where no disk can be mounted.
fn on_a_disk(folder: &Folder, change: &str) -> Option<Ran> {
    let [old, disk, record] = ["old.idx", "disk", "a.scp"].map(|name| folder.path(name));
    let index = format!("{disk}/audit.idx");
    let line = format!(
        "mount -t tmpfs -o size=8k tmpfs \"$0\" || exit 77
        old={old}; {change}
        \"$@\"; echo \"status $?\"; ls -A \"$0\"; cmp \"$old\" \"$0/audit.idx\""
    );
    let program = tool();
    let mut shell = Command::new("unshare");
    shell
        .args(["--mount", "--map-root-user", "sh", "-c", &line, &disk])
        .arg(program.get_program())
        .args(program.get_args())
        .args(["index", "add", &index, &record]);
    let ran = Ran::from(shell.stdin(Stdio::null()).output().unwrap());
    if [77, 127].contains(&ran.status) || ran.err.starts_with("unshare:") {
        println!("no disk of its own can be mounted: {}", ran.err);
        return None;
    }
    Some(ran)
}

/// A place where nobody may write, and one where there is no room left: the index is as it was, and nothing else is left there.
#[test]
fn an_index_that_cannot_be_written_is_told() {
    let folder = Folder::new("index-disk");
    folder.file("a.scp", &sample("7.scp"));
    folder.file("old.idx", &built(&[sample("007.scp")]));
    fs::create_dir(folder.path("disk")).unwrap();
    let copy = "cp \"$old\" \"$0/audit.idx\"";
    let read_only = "mount -o remount,ro \"$0\"";
    let full = "head -c 1m /dev/zero >\"$0/full\" 2>/dev/null";
    for (change, reason, out) in [
        (read_only, "Read-only file system", "status 2\n"),
        (
            &format!("{copy}; {read_only}"),
            "Read-only file system",
            "status 2\naudit.idx\n",
        ),
        (
            &format!("{copy}; {full}"),
            "No space left on device",
            "audit.idx: left as it was: 1 entry; 1 accepted, 0 refused, 0 not read\nstatus 2\naudit.idx\nfull\n",
        ),
    ] {
        let Some(ran) = on_a_disk(&folder, change) else {
            return;
        };
        let index = folder.path("disk/audit.idx");
        assert!(ran.err.starts_with(&format!("tigmavresh: {index}: {reason}\n")), "{}", ran.err);
        assert_eq!(ran.out.replace(&index, "audit.idx"), out);
        // the two differ only where there was none
        assert_eq!(ran.status == 0, change != read_only, "{}", ran.err);
    }
}

/// The index keeps its permissions and its owner, and a link to it stays a link.
#[test]
fn an_index_stays_the_file_that_it_is() {
    let folder = Folder::new("index-traits");
    let real = folder.file("real.idx", b"");
    symlink("real.idx", folder.path("audit.idx")).unwrap();
    folder.file("a.scp", &sample("7.scp"));
    // only root gives files away
    let is_given = chown(&real, Some(1234), Some(4321)).is_ok();
    for mode in [0o600, 0o640, 0o664] {
        fs::set_permissions(&real, Permissions::from_mode(mode)).unwrap();
        assert_eq!(add(&folder, &["a.scp"]).status, 0);
        let now = fs::metadata(&real).unwrap();
        assert_eq!(now.mode() & 0o777, mode);
        if is_given {
            assert_eq!((now.uid(), now.gid()), (1234, 4321));
        }
    }
    assert!(fs::symlink_metadata(folder.path("audit.idx"))
        .unwrap()
        .is_symlink());
    assert_eq!(audit(&folder), built(&vec![sample("7.scp"); 3]));
    assert_eq!(folder.names(), ["a.scp", "audit.idx", "real.idx"]);
    symlink("nowhere", folder.path("lost.idx")).unwrap();
    let ran = run_in(&folder, &["index", "add", "lost.idx", "a.scp"]);
    assert!(ran.status == 2 && ran.err.ends_with("it is a link that leads nowhere\n"));
}

// ---- two writers, and runs that are cut short

/// A folder with an index of one entry, or none, and two records; and the tool at work there: it has shown that the first record
/// is refused, and waits for the third.
fn at_work(name: &str, index: Option<&[u8]>) -> (Folder, Waiting) {
    let folder = Folder::new(name);
    if let Some(index) = index {
        folder.file("audit.idx", index);
    }
    folder.file("a.scp", &sample("refused-2.scp"));
    folder.file("b.scp", &sample("007.scp"));
    let words = ["index", "add", "audit.idx", "a.scp", "b.scp", "pipe"];
    let waiting = Waiting::start(&folder, &words);
    assert!(waiting.line().starts_with("a.scp: refused, number 2 ("));
    (folder, waiting)
}

#[test]
fn a_second_writer_is_told_at_once() {
    let index = built(&[sample("7.scp")]);
    let (folder, waiting) = at_work("index-second", Some(&index));
    for name in ["audit.idx", "./audit.idx", "link.idx"] {
        let _ = symlink("audit.idx", folder.path("link.idx"));
        let ran = run_in(&folder, &["index", "add", name, "b.scp"]);
        let line = format!("tigmavresh: {name}: another run is writing to it\n");
        assert_eq!((ran.status, ran.out, ran.err), (2, String::new(), line));
    }
    // readers see the old index, and another one may be written to
    assert_eq!(
        run_in(&folder, &["index", "find", "audit.idx", "7"]).status,
        0
    );
    assert_eq!(
        run_in(&folder, &["index", "add", "other.idx", "b.scp"]).status,
        0
    );
    // the third record comes, and is none
    fs::write(folder.path("pipe"), b"").unwrap();
    let (lines, status, _) = waiting.end();
    let line = "audit.idx: 1 added, 2 refused, 0 not read; 2 entries now";
    assert!(lines.iter().any(|one| one == line), "{lines:?}");
    assert_eq!(status, Some(1));
    assert_eq!(audit(&folder), built(&["7.scp", "007.scp"].map(sample)));
    assert_eq!(add(&folder, &["b.scp"]).status, 0);
}

/// A run that is killed when it has taken in hundreds of records leaves the index as it was, an empty one where there was none,
/// and nothing that hinders the next run.
#[test]
fn a_killed_run_leaves_the_index_and_no_lock() {
    let old = [sample("7.scp")];
    for (name, old) in [("index-killed", &old[..]), ("index-killed-new", &[])] {
        let folder = Folder::new(name);
        if !old.is_empty() {
            folder.file("audit.idx", &built(old));
        }
        fs::create_dir(folder.path("in")).unwrap();
        let records: Vec<_> = (0..300).map(one_of_many).collect();
        for (number, record) in records.iter().enumerate() {
            folder.file(&format!("in/{number:04}"), record);
        }
        folder.file("in/last", &sample("refused-2.scp"));
        let waiting = Waiting::start(&folder, &["index", "add", "audit.idx", "in", "pipe"]);
        assert!(waiting.line().starts_with("in/last: refused, number 2 ("));
        waiting.send("-KILL");
        let (_, status, _) = waiting.end();
        assert_eq!(status, None);
        assert_eq!(audit(&folder), built(old));
        assert_eq!(folder.names(), ["audit.idx", "in", "pipe"]);
        let ran = add(&folder, &["in"]);
        assert_eq!((ran.status, ran.err.as_str()), (1, ""));
        assert_eq!(audit(&folder), built(old.iter().chain(&records)));
        assert_eq!(folder.names(), ["audit.idx", "in", "pipe"]);
    }
}

/// An interruption leaves the index as it was, also one that was not there.
#[test]
fn an_interruption_leaves_the_index() {
    let index = built(&[sample("7.scp")]);
    for (name, index) in [("index-stopped", Some(&index[..])), ("index-never", None)] {
        let (folder, waiting) = at_work(name, index);
        waiting.send("-INT");
        let (lines, status, complaints) = waiting.end();
        assert_eq!((status, complaints.as_str()), (Some(130), ""));
        let entries = if index.is_some() {
            "1 entry"
        } else {
            "no entry"
        };
        let line = format!(
            "audit.idx: interrupted, and left as it was: {entries}; so far 1 accepted, 1 refused, 0 not read"
        );
        assert!(lines.contains(&line), "{lines:?}");
        let there = fs::read(folder.path("audit.idx")).ok();
        assert_eq!(there.as_deref(), index);
    }
}

/// The index is removed, or another file gets its name, while records are read: it is not written then.
#[test]
fn an_index_that_is_taken_away_is_not_written() {
    let index = built(&[sample("7.scp")]);
    for name in ["index-removed", "index-replaced"] {
        let (folder, waiting) = at_work(name, Some(&index));
        fs::remove_file(folder.path("audit.idx")).unwrap();
        if name == "index-replaced" {
            folder.file("audit.idx", b"mine");
        }
        fs::write(folder.path("pipe"), b"").unwrap();
        let (lines, status, complaints) = waiting.end();
        assert_eq!(status, Some(2), "{lines:?}");
        let words = "it was removed or replaced while it was being added to";
        assert_eq!(complaints, format!("tigmavresh: audit.idx: {words}\n"));
        let line = "audit.idx: left as it was: 1 entry; 1 accepted, 2 refused, 0 not read";
        assert!(lines.iter().any(|one| one == line), "{lines:?}");
        let there = fs::read(folder.path("audit.idx")).ok();
        let mine = (name == "index-replaced").then(|| b"mine".to_vec());
        assert_eq!(there, mine);
    }
}

/// Killed at any moment: the index is the old one or the new one.
#[test]
fn a_killed_run_leaves_all_or_nothing() {
    let folder = Folder::new("index-moments");
    folder.file("a.scp", &sample("7.scp"));
    let began = Instant::now();
    assert_eq!(add(&folder, &["a.scp"]).status, 0);
    let takes = began.elapsed();
    for moment in 0..24 {
        let before = audit(&folder);
        let mut command = tool();
        command
            .current_dir(&folder.0)
            .args(["index", "add", "audit.idx", "a.scp"])
            .stdout(Stdio::null())
            .stderr(Stdio::null());
        let mut child = command.spawn().unwrap();
        thread::sleep(takes * moment / 20);
        child.kill().unwrap();
        child.wait().unwrap();
        let after = audit(&folder);
        let entry = built(&[sample("7.scp")]);
        assert!(after == before || after == [&before[..], &entry].concat());
    }
    assert_eq!(add(&folder, &["a.scp"]).status, 0);
}

/// Writers that come together: each is told, or its record is in the index.
#[test]
fn no_record_is_lost_between_writers() {
    let folder = Folder::new("index-race");
    folder.file("a.scp", &sample("7.scp"));
    let runs: Vec<_> = (0..12)
        .map(|_| {
            let mut command = tool();
            command
                .current_dir(&folder.0)
                .args(["index", "add", "audit.idx", "a.scp"])
                .stdout(Stdio::piped())
                .stderr(Stdio::piped());
            command.spawn().unwrap()
        })
        .collect();
    let runs = runs
        .into_iter()
        .map(|run| Ran::from(run.wait_with_output().unwrap()));
    let mut added = 0;
    for ran in runs {
        match ran.status {
            0 => added += 1,
            status => {
                let line = "tigmavresh: audit.idx: another run is writing to it\n";
                assert_eq!((status, ran.err.as_str()), (2, line));
            }
        }
    }
    assert!(added > 0);
    assert_eq!(audit(&folder), built(&vec![sample("7.scp"); added]));
}
