//! `index merge` in a user's hands: the index of all records, or nothing at all.

mod common;

use std::fs::{self, File};

use common::filed::{built, record};
use common::folder::Folder;
use common::{run_in, run_with_input, Ran, NOTE};
use serde_json::{json, Value};

/// Two clinics' records. Equal ones, by patient and date, differ in their leads.
fn clinics() -> [Vec<Vec<u8>>; 2] {
    let day = |day| (2024, 3, day);
    [
        vec![
            record(b"7", day(14), 1),
            record(b"007", day(14), 2),
            record(b"7", day(14), 3),
        ],
        vec![
            record(b"7", day(14), 4),
            record(b"70", day(1), 5),
            record(b"7", day(13), 6),
            record(b"007", day(14), 0),
        ],
    ]
}

/// A folder with the index of each clinic, `a.idx` and `b.idx`.
fn folder(name: &str) -> Folder {
    let folder = Folder::new(name);
    let [a, b] = clinics();
    folder.file("a.idx", &built(&a));
    folder.file("b.idx", &built(&b));
    folder
}

fn merge(folder: &Folder, words: &[&str]) -> Ran {
    run_in(folder, &[&["index", "merge"], words].concat())
}

fn file(folder: &Folder, name: &str) -> Option<Vec<u8>> {
    fs::read(folder.path(name)).ok()
}

/// As if the records had been added one after another, and the others stay as they are.
#[test]
fn indexes_are_merged_in_their_order() {
    let [a, b] = clinics();
    let folder = folder("merging-order");
    let [before_a, before_b] = ["a.idx", "b.idx"].map(|name| file(&folder, name));
    let ran = merge(&folder, &["all.idx", "a.idx", "b.idx"]);
    assert_eq!((ran.status, ran.err.as_str()), (0, ""));
    assert_eq!(
        ran.out,
        "all.idx: 2 indexes merged, 7 entries added; 7 entries now\n"
    );
    assert_eq!(file(&folder, "all.idx"), Some(built(a.iter().chain(&b))));
    let ran = merge(&folder, &["all.idx", "b.idx"]);
    assert_eq!(
        ran.out,
        "all.idx: 1 index merged, 4 entries added; 11 entries now\n"
    );
    let all = a.iter().chain(&b).chain(&b);
    assert_eq!(file(&folder, "all.idx"), Some(built(all)));
    assert_eq!(file(&folder, "a.idx"), before_a);
    assert_eq!(file(&folder, "b.idx"), before_b);
    // of equal entries, those of INDEX come first
    merge(&folder, &["b.idx", "a.idx"]);
    assert_eq!(file(&folder, "b.idx"), Some(built(b.iter().chain(&a))));
}

/// Many indexes, of very different lengths.
#[test]
fn many_indexes_are_merged() {
    let folder = Folder::new("merging-many");
    let of = |number: usize| {
        let identifier = (number * 7919 % 5).to_string();
        record(identifier.as_bytes(), (2024, 1, 1), number % 33)
    };
    let records: Vec<_> = (0..150).map(of).collect();
    let (mut rest, mut names) = (&records[..], vec!["all.idx".to_string()]);
    for length in [1, 1, 40, 0, 3, 2, 1, 60, 7, 35] {
        let (some, others) = rest.split_at(length);
        names.push(format!("{}.idx", names.len()));
        folder.file(&names[names.len() - 1], &built(some));
        rest = others;
    }
    assert!(rest.is_empty());
    let words: Vec<&str> = names.iter().map(String::as_str).collect();
    assert_eq!(merge(&folder, &words).status, 0);
    assert_eq!(file(&folder, "all.idx"), Some(built(&records)));
}

#[test]
fn an_index_may_come_by_standard_input() {
    let [a, b] = clinics();
    let folder = folder("merging-standard");
    let index = folder.path("a.idx");
    let input = File::open(folder.path("b.idx")).unwrap();
    let ran = run_with_input(&["index", "merge", &index, "-"], input);
    assert_eq!((ran.status, ran.err.as_str()), (0, ""));
    assert_eq!(file(&folder, "a.idx"), Some(built(a.iter().chain(&b))));
    let ran = merge(&folder, &["-", "b.idx"]);
    assert_eq!((ran.status, ran.out.as_str()), (2, ""));
    assert!(ran.err.contains("INDEX must be a file"), "{}", ran.err);
}

/// One that is refused or cannot be read, or that is the index itself, and nothing is merged.
#[test]
fn all_are_merged_or_none() {
    let folder = folder("merging-none");
    let [a, b] = ["a.idx", "b.idx"].map(|name| file(&folder, name).unwrap());
    folder.file("cut.idx", &b[..b.len() - 1]);
    fs::hard_link(folder.path("a.idx"), folder.path("same.idx")).unwrap();
    for (other, status, told) in [
        ("cut.idx", 1, "1 index accepted, 1 refused, 0 not read"),
        ("none.idx", 2, "1 index accepted, 0 refused, 1 not read"),
        ("a.idx", 2, "1 index accepted, 0 refused, 1 not read"),
        ("same.idx", 2, "1 index accepted, 0 refused, 1 not read"),
    ] {
        let ran = merge(&folder, &["a.idx", "b.idx", other]);
        let last = format!("a.idx: left as it was: 3 entries; {told}");
        assert_eq!(ran.status, status, "{other}");
        assert_eq!(ran.out.lines().last(), Some(last.as_str()));
        assert_eq!(ran.out.contains(NOTE), status == 1);
        assert_eq!(ran.err.contains("it is INDEX itself"), other.contains('a'));
        assert_eq!(file(&folder, "a.idx"), Some(a.clone()));
        // a new index is not made for nothing
        if !other.contains('a') {
            assert_eq!(merge(&folder, &["new.idx", "b.idx", other]).status, status);
            assert_eq!(file(&folder, "new.idx"), None);
        }
    }
    assert_eq!(file(&folder, "b.idx"), Some(b));
}

#[test]
fn as_json() {
    let folder = folder("merging-json");
    folder.file("none.idx", b"\x08\0");
    let lines = |words: &[&str]| {
        let ran = merge(&folder, &[words, &["--json"]].concat());
        let parsed = ran.out.lines().map(serde_json::from_str);
        let lines: Vec<Value> = parsed.map(Result::unwrap).collect();
        (ran.status, lines)
    };
    let (status, all) = lines(&["a.idx", "b.idx"]);
    assert_eq!((status, all.len()), (0, 1));
    let bytes = file(&folder, "a.idx").unwrap().len();
    let index = json!({"file": "a.idx", "bytes": bytes, "added": 4, "entries": 7});
    assert_eq!(all[0]["index"], index);
    assert_eq!(all[0]["summary"]["accepted"], 1);
    let (status, all) = lines(&["a.idx", "b.idx", "none.idx", "no.idx"]);
    assert_eq!((status, all.len()), (2, 3));
    assert_eq!(all[0]["refusal"], 26);
    assert_eq!(all[1]["verdict"], "unread");
    let index = json!({"file": "a.idx", "bytes": bytes, "added": 0, "entries": 7});
    assert_eq!(all[2]["index"], index);
    assert_eq!(all[2]["summary"]["by_number"], json!({"26": 1}));
}

/// Nothing new: the file is not written.
#[test]
fn empty_indexes_change_nothing() {
    let folder = folder("merging-empty");
    folder.file("empty.idx", b"");
    let before = file(&folder, "a.idx");
    let ran = merge(&folder, &["a.idx", "empty.idx", "empty.idx"]);
    assert_eq!(
        ran.out,
        "a.idx: 2 indexes merged, no entry added; 3 entries now\n"
    );
    assert_eq!((ran.status, file(&folder, "a.idx")), (0, before));
    assert_eq!(merge(&folder, &["new.idx", "empty.idx"]).status, 0);
    assert_eq!(file(&folder, "new.idx"), Some(vec![]));
}
