//! The JSON of every command has the shape that docs/output.schema.json says.

mod common;

use std::ffi::OsStr;
use std::fs;
use std::os::unix::ffi::OsStrExt;
use std::os::unix::fs::symlink;
use std::path::Path;

use common::folder::Folder;
use common::schema::Schema;
use common::{run, run_in, run_with_input, samples, tool, Ran};
use serde_json::{json, Value};

/// The commands that show an object in each line, and those that show one.
const MANY: [&str; 2] = ["open", "check"];
const ONE: [&str; 4] = ["fields", "leads", "samples", "report"];

fn schema() -> Schema {
    let file = Path::new(env!("CARGO_MANIFEST_DIR")).join("../../docs/output.schema.json");
    Schema::of(&fs::read_to_string(file).unwrap())
}

/// The objects that were shown.
fn objects(ran: &Ran) -> Vec<Value> {
    let objects = serde_json::Deserializer::from_str(&ran.out).into_iter();
    objects.collect::<Result<_, _>>().unwrap()
}

/// The objects that a command shows, each held to the schema, without the summary.
fn told(command: &str, ran: &Ran) -> Vec<Value> {
    let mut objects = objects(ran);
    for object in &objects {
        if let Err(wrong) = schema().check(object) {
            panic!("{command}: {wrong}");
        }
    }
    if MANY.contains(&command) {
        let summary = objects.pop().unwrap();
        assert!(summary.get("summary").is_some(), "{summary}");
        assert!(summary.get("verdict").is_none(), "{summary}");
    }
    for object in &objects {
        assert!(object.get("summary").is_none(), "{object}");
    }
    objects
}

/// The names of all samples.
fn names() -> Vec<String> {
    let files = samples().read_dir().unwrap();
    let names = files.map(|file| file.unwrap().file_name().into_string().unwrap());
    names.filter(|name| name.ends_with(".scp")).collect()
}

/// Every command's answer to every sample: the shape, and the verdict that goes with the status and the refusal.
#[test]
fn every_command_keeps_the_schema() {
    for command in MANY.into_iter().chain(ONE) {
        for name in names() {
            let ran = run(&[command, "--json", &name]);
            let objects = told(command, &ran);
            assert_eq!(objects.len(), 1, "{command} {name}");
            let (verdict, refusal) = (&objects[0]["verdict"], &objects[0]["refusal"]);
            assert_eq!(
                ran.status,
                i32::from(verdict != "accepted"),
                "{command} {name}"
            );
            assert_eq!(verdict == "accepted", refusal.is_null(), "{command} {name}");
            assert_eq!(objects[0]["file"], name.as_str());
        }
    }
}

/// A file that cannot be read has an object as well, in every command.
#[test]
fn a_file_that_cannot_be_read_is_told() {
    for command in MANY.into_iter().chain(ONE) {
        let ran = run(&[command, "--json", "none.scp"]);
        assert_eq!(ran.status, 2);
        assert_eq!(ran.err, "tigmavresh: none.scp: No such file or directory\n");
        let unread = json!({"file": "none.scp", "verdict": "unread", "refusal": null, "error": "No such file or directory"});
        assert_eq!(told(command, &ran), [unread], "{command}");
    }
}

/// Things that are asked for and are not there; names and fields that are no text; input that is too long.
#[test]
fn rare_answers_keep_the_schema() {
    for words in [
        &["samples", "--json", "beat.scp", "--lead", "3"][..],
        &["samples", "--json", "beat.scp", "--lead", "2"],
        &["leads", "--json", "007.scp"],
    ] {
        told(words[0], &run(words));
    }
    let folder = Folder::new("rare");
    let name = OsStr::from_bytes(b"\xFF.scp");
    fs::copy(samples().join("7.scp"), folder.0.join(name)).unwrap();
    for command in MANY.into_iter().chain(ONE) {
        let output = tool()
            .current_dir(&folder.0)
            .args([command, "--json"])
            .arg(name)
            .output();
        let ran = Ran::from(output.unwrap());
        assert_eq!(told(command, &ran)[0]["file_bytes"], "FF 2E 73 63 70");
        let zeros = fs::File::open("/dev/zero").unwrap();
        let ran = run_with_input(&[command, "--json", "-"], zeros);
        let long = &told(command, &ran)[0];
        assert!(
            long.get("bytes").is_none() && long["refusal"] == 1,
            "{long}"
        );
    }
    // so is the name of the busiest record
    fs::copy(samples().join("beat.scp"), folder.0.join(name)).unwrap();
    let ran = run_in(&folder, &["check", "--json", "."]);
    assert_eq!(told("check", &ran).len(), 1);
    let busiest = &objects(&ran)[1]["summary"]["busiest"];
    assert_eq!(busiest["file_bytes"], "2E 2F FF 2E 73 63 70");
    fs::create_dir(folder.path("empty")).unwrap();
    assert!(told("check", &run_in(&folder, &["check", "--json", "empty"])).is_empty());
}

/// The commands on an index: what is added and refused, entries of any bytes, an index that is none, and no file.
#[test]
fn the_commands_on_an_index_keep_the_schema() {
    let folder = Folder::new("index");
    symlink(samples(), folder.path("samples")).unwrap();
    let index = |words: &[&str]| {
        let ran = run_in(&folder, &[&["index"], words, &["--json"]].concat());
        let objects = objects(&ran);
        for object in &objects {
            schema().check(object).unwrap();
        }
        (ran.status, objects)
    };
    let (status, lines) = index(&["add", "audit.idx", "samples/", "none.scp"]);
    assert_eq!((status, lines.len()), (2, 9 + 1 + 1));
    let (summary, lines) = lines.split_last().unwrap();
    let added = json!({"file": "audit.idx", "bytes": 124, "added": 15, "entries": 15});
    assert_eq!(summary["index"], added);
    assert_eq!(summary["summary"]["accepted"], 15);
    assert!(lines.iter().all(|line| line["verdict"] != "accepted"));
    let (status, entries) = index(&["list", "audit.idx"]);
    assert_eq!((status, entries.len()), (0, 15));
    let entry = json!({"identifier": "37", "text": "7", "date": "2024-03-14", "lead_count": 0});
    assert_eq!(index(&["find", "audit.idx", "7"]), (0, vec![entry]));
    assert_eq!(index(&["find", "audit.idx", "8"]), (1, vec![]));
    let (status, checked) = index(&["check", "audit.idx"]);
    assert_eq!((status, &checked[0]["entries"]), (0, &json!(15)));

    folder.file("odd.idx", b"\x08\0\0\xFE\x40\xFF\x01");
    let (status, entries) = index(&["list", "odd.idx"]);
    let entry = json!({"identifier": "FF 01", "date": "0000-03-31", "lead_count": 32});
    assert_eq!((status, entries), (0, vec![entry]));
    folder.file("none.idx", b"\x08\0");
    for words in [&["list", "none.idx"][..], &["find", "none.idx", "7"]] {
        assert_eq!(index(words), index(&["check", "none.idx"]));
    }
    let (status, lines) = index(&["merge", "all.idx", "audit.idx", "odd.idx", "audit.idx"]);
    let merged = json!({"file": "all.idx", "bytes": 255, "added": 31, "entries": 31});
    assert_eq!((status, &lines[0]["index"]), (0, &merged));
    let (status, lines) = index(&["merge", "all.idx", "none.idx", "no.idx"]);
    assert_eq!((status, lines.len()), (2, 3));
    let (status, refused) = index(&["add", "none.idx", "samples/7.scp"]);
    assert_eq!((status, &refused[0]["refusal"]), (1, &json!(26)));
    assert_eq!(refused[0]["bytes"], 2);
    for words in [
        &["list", "no.idx"][..],
        &["add", "no/no.idx", "samples/7.scp"],
    ] {
        let (status, unread) = index(words);
        assert_eq!((status, unread.len()), (2, 1));
        assert_eq!(unread[0]["verdict"], "unread");
    }
}

/// The schema allows nothing else than what is shown.
#[test]
fn the_schema_refuses_other_shapes() {
    let schema = schema();
    let good = objects(&run(&["check", "--json", "007.scp"]));
    schema.check(&good[0]).unwrap();
    for (key, value) in [
        ("verdict", json!("refused")),
        ("verdict", json!("fine")),
        ("refusal", json!(10)),
        ("lead_count", json!(-1)),
        ("lead_count", json!("0")),
        ("compared", json!(-1)),
        ("compared", json!(null)),
        ("more", json!(1)),
    ] {
        let mut bad = good[0].clone();
        bad[key] = value;
        assert!(schema.check(&bad).is_err(), "{bad}");
    }
    for key in ["file", "verdict", "refusal", "compared"] {
        let mut bad = good[0].clone();
        bad.as_object_mut().unwrap().remove(key);
        assert!(schema.check(&bad).is_err(), "{bad}");
    }
}

/// The same of the structures compared for a lead, for a record and for the busiest one: the least and the most of them.
#[test]
fn the_schema_bounds_the_structures_compared() {
    let schema = schema();
    let of_lead = 2i64 * 64 * 8 * 65_535;
    let of_record = 32 * of_lead;
    for (command, place, least, most) in [
        ("samples", "/leads/1/compared", 0, of_lead),
        ("report", "/leads/1/compared", 0, of_lead),
        ("report", "/compared", 0, of_record),
        ("check", "/summary/busiest/compared", 1, of_record),
    ] {
        let ran = run(&[command, "--json", "beat.scp"]);
        let mut shown = objects(&ran).pop().unwrap();
        for number in [least - 1, least, most, most + 1] {
            *shown.pointer_mut(place).unwrap() = json!(number);
            let is_right = (least..=most).contains(&number);
            assert_eq!(schema.check(&shown).is_ok(), is_right, "{shown}");
        }
    }
}
