//! `check` in a user's hands: what it accepts, which files it takes, in which order, and what it says of them.

mod common;

use std::fs;
use std::os::unix::fs::symlink;
use std::process::Command;

use common::folder::Folder;
use common::record::{put, seal, FIELDS};
use common::waiting::Waiting;
use common::{
    run, run_by_shell, run_in, run_on_terminal, run_with_input, sample, samples, Ran, NOTE,
};
use serde_json::{json, Value};

/// The samples that are accepted, how many leads are read, and how many structures that compares.
const ACCEPTED: [(&str, usize, usize); 8] = [
    ("007.scp", 0, 0),
    ("7.scp", 0, 0),
    ("beat.scp", 2, 403),
    ("limb-leads.scp", 6, 689),
    ("makers-sections.scp", 0, 0),
    ("own-tables.scp", 2, 88),
    ("padded.scp", 2, 478),
    ("two-leads.scp", 2, 0),
];

/// The numbers that there is a sample for.
const REFUSED: [u8; 13] = [1, 2, 3, 4, 5, 6, 7, 8, 9, 10, 12, 13, 14];

impl Ran {
    /// Each line as JSON.
    fn lines(&self) -> Vec<Value> {
        let lines = self.out.lines().map(serde_json::from_str);
        lines.collect::<Result<_, _>>().unwrap()
    }

    /// The names of the files that were shown.
    fn names(&self) -> Vec<String> {
        let lines = self.lines();
        let names = lines.iter().filter_map(|line| line["file"].as_str());
        names.map(str::to_string).collect()
    }
}

#[test]
fn each_sample_is_checked() {
    for (name, leads, compared) in ACCEPTED {
        let ran = run(&["check", name, "--json"]);
        assert_eq!((ran.status, ran.err.as_str()), (0, ""), "{name}");
        let shown = &ran.lines()[0];
        let bytes = sample(name).len();
        let expected = json!({"file": name, "bytes": bytes, "verdict": "accepted", "refusal": null, "lead_count": leads,
            "compared": compared});
        assert_eq!(*shown, expected);
    }
    for number in REFUSED {
        let name = format!("refused-{number}.scp");
        let ran = run(&["check", &name, "--json"]);
        assert_eq!((ran.status, ran.err.as_str()), (1, ""), "{name}");
        let shown = &ran.lines()[0];
        assert_eq!(shown["refusal"], number);
        assert!(shown.get("lead_count").is_none() && shown.get("compared").is_none());
        // 12 to 14 are of one lead, here the second
        let lead = if number > 10 { json!(2) } else { json!(null) };
        assert_eq!(shown["lead"], lead, "{name}");
        assert_eq!(shown["found"].as_array().unwrap().len(), 1);
    }
}

#[test]
fn a_record_is_a_line() {
    let ran = run(&[
        "check",
        "limb-leads.scp",
        "007.scp",
        "refused-12.scp",
        "refused-1.scp",
    ]);
    let text = "\
limb-leads.scp: accepted (410 bytes; 6 leads)
007.scp: accepted (196 bytes; no lead)
refused-12.scp: refused, number 12, lead 2 (406 bytes); rule broken: each value has a complete code of the current table; \
found: Section 6, lead 2: no value for sample 13: the stream ends inside the code at bit 47 of 48 (byte 406)
refused-1.scp: refused, number 1 (352 bytes); rule broken: a record has 142 to 1,048,576 bytes, as many as its size field says; \
found: the length is 352 bytes; the size field says 372

The proved library decided; the explanation is not proved.

4 files: 2 accepted, 2 refused, 0 not read
  Number  Files  Rule broken
       1      1  a record has 142 to 1,048,576 bytes, as many as its size field says
      12      1  each value has a complete code of the current table
busiest record: limb-leads.scp (689 structures compared)
";
    assert_eq!((ran.status, ran.out.as_str()), (1, text));
    let ran = run(&["check", "007.scp"]);
    let text =
        "007.scp: accepted (196 bytes; no lead)\n\n1 file: 1 accepted, 0 refused, 0 not read\n";
    assert_eq!((ran.status, ran.out.as_str()), (0, text));
}

/// The last line of the summary is the busiest record that was accepted, wherever it stands, and the first of several.
#[test]
fn the_busiest_record_closes_the_summary() {
    let folder = Folder::new("busiest");
    for (name, like) in [("a", "padded"), ("b", "beat"), ("c", "padded")] {
        folder.file(&format!("{name}.scp"), &sample(&format!("{like}.scp")));
    }
    symlink(samples(), folder.path("s")).unwrap();
    for (files, file, compared) in [
        ("b.scp", "b.scp", 403),
        ("a.scp b.scp", "a.scp", 478),
        ("b.scp a.scp", "a.scp", 478),
        ("s/007.scp b.scp a.scp s/own-tables.scp", "a.scp", 478),
        ("c.scp b.scp a.scp", "c.scp", 478),
        (".", "./a.scp", 478),
        ("c.scp .", "c.scp", 478),
        (
            "none.scp s/refused-13.scp s/own-tables.scp",
            "s/own-tables.scp",
            88,
        ),
        ("s/", "s/limb-leads.scp", 689),
    ] {
        let files: Vec<&str> = files.split(' ').collect();
        let line = format!("busiest record: {file} ({compared} structures compared)");
        for more in [&[][..], &["--refused"]] {
            let ran = run_in(&folder, &[&["check"], more, &files].concat());
            assert_eq!(ran.out.lines().last(), Some(line.as_str()), "{files:?}");
            assert_eq!(ran.out.matches("busiest").count(), 1);
        }
        let ran = run_in(&folder, &[&["check", "--json"], &files[..]].concat());
        let busiest = json!({"file": file, "compared": compared});
        assert_eq!(ran.lines().pop().unwrap()["summary"]["busiest"], busiest);
    }
}

/// Where nothing was compared no record is the busiest: none has code tables and leads, or all that have are refused. A record
/// of which one lead is refused is one of them, though others of its leads are read.
#[test]
fn no_record_is_the_busiest_where_nothing_was_compared() {
    let refused = REFUSED.map(|number| format!("refused-{number}.scp"));
    let refused: Vec<&str> = refused.iter().map(String::as_str).collect();
    let idle = ["007.scp", "7.scp", "makers-sections.scp", "two-leads.scp"];
    for files in [&refused[..], &idle, &["refused-12.scp", "two-leads.scp"]] {
        let ran = run(&[&["check"], files].concat());
        assert!(!ran.out.contains("busiest"), "{}", ran.out);
        let ran = run(&[&["check", "--json"], files].concat());
        let summary = ran.lines().pop().unwrap();
        assert_eq!(summary["summary"]["files"], files.len());
        assert!(summary["summary"].get("busiest").is_none(), "{summary}");
    }
}

/// A record of leads with so many samples, each read by as many comparisons as there can be for a bit: its code is one bit, the
/// last of 64 structures.
fn busy(counts: &[u32]) -> Vec<u8> {
    let mut tables = vec![1, 0, 64, 0];
    for value in 1..=63 {
        // a 1 and then six bits, others for each
        tables.extend([7, 7, 1, value, 0, 2 * value - 1, 0, 0, 0]);
    }
    tables.extend([1, 1, 1, 0, 0, 0, 0, 0, 0]);
    let ids: Vec<u8> = (1..).take(counts.len()).collect();
    let samples: u32 = counts.iter().sum();
    let writing = judge::Writing {
        section1: &FIELDS,
        section2: &tables,
        version: 13,
        flags: 0,
        step: 5000,
        interval: 2000,
        order: 0,
        firsts: &vec![1; counts.len()],
        counts,
        ids: &ids,
        samples: &vec![0; samples as usize],
    };
    judge::write_record(&writing, scp::SAMPLES_MAX, scp::RECORD_MAX).unwrap()
}

/// Long numbers are parted as others are, and a record's is the sum over its leads.
#[test]
fn a_busy_record_has_its_thousands_parted() {
    let folder = Folder::new("busy");
    folder.file("busy.scp", &busy(&[65_536, 1]));
    let ran = run_in(&folder, &["check", "busy.scp"]);
    let line = "busiest record: busy.scp (4,194,368 structures compared)";
    assert_eq!(ran.out.lines().last(), Some(line));
    let ran = run_in(&folder, &["check", "--json", "busy.scp"]);
    assert_eq!(ran.lines()[0]["compared"], 64 * 65_537);
    let ran = run_in(&folder, &["report", "busy.scp"]);
    let rows = "\
  Lead      Answer    Structures compared
     1  I   accepted            4,194,304
     2  II  accepted                   64
";
    assert!(ran.out.ends_with(rows), "{}", ran.out);
    let ran = run_in(&folder, &["samples", "busy.scp"]);
    for line in [
        "Lead 1, I: samples 1 to 65536, in steps of 5000 nV, 2000 us apart; 4,194,304 structures compared",
        "Lead 2, II: samples 1 to 1, in steps of 5000 nV, 2000 us apart; 64 structures compared",
    ] {
        assert!(ran.out.lines().any(|shown| shown == line), "{line}");
    }
}

/// A record without leads is accepted, but not one whose code tables break their rule.
#[test]
fn tables_are_judged_where_there_is_no_lead() {
    let folder = Folder::new("no-lead");
    for (name, status) in [("own-tables.scp", 0), ("refused-7.scp", 1)] {
        let mut record = sample(name);
        for id in [3, 6] {
            put(&mut record, 6 + 16 + 10 * id + 2, 0);
        }
        seal(&mut record);
        let file = folder.file(name, &record);
        let ran = run(&["check", &file, "--json"]);
        assert_eq!(ran.status, status, "{}", ran.out);
        let number = if status == 0 { json!(null) } else { json!(7) };
        assert_eq!(ran.lines()[0]["refusal"], number);
        assert_eq!(run(&["report", &file]).status, status);
    }
}

/// Many files: the same answer however many are checked at once, in their order, and in parts of what is held at once.
#[test]
fn the_answer_does_not_depend_on_the_jobs() {
    let folder = Folder::new("jobs");
    let kinds = [
        "007.scp",
        "beat.scp",
        "refused-2.scp",
        "refused-13.scp",
        "limb-leads.scp",
    ];
    for number in 0..600 {
        let kind = samples().join(kinds[number % kinds.len()]);
        fs::copy(kind, folder.path(&format!("{number:04}.scp"))).unwrap();
    }
    for form in [&["check", "."][..], &["check", ".", "--json"]] {
        let one = run_in(&folder, &[form, &["--jobs", "1"]].concat());
        assert_eq!((one.status, one.err.as_str()), (1, ""));
        for jobs in [&["--jobs", "2"][..], &["--jobs=7"], &[]] {
            let some = run_in(&folder, &[form, jobs].concat());
            assert_eq!(some.status, 1);
            assert!(some.out == one.out, "{form:?} {jobs:?}");
        }
    }
    let ran = run_in(&folder, &["check", ".", "--json", "--jobs", "2"]);
    let names: Vec<String> = (0..600).map(|n| format!("./{n:04}.scp")).collect();
    assert_eq!(ran.names(), names);
    let summary = ran.lines().pop().unwrap();
    let counts = json!({"files": 600, "accepted": 360, "refused": 240, "unread": 0, "interrupted": false,
        "passed_over": {"links": 0, "special_files": 0}, "by_number": {"2": 120, "13": 120},
        "busiest": {"file": "./0004.scp", "compared": 689}});
    assert_eq!(summary["summary"], counts);
    assert_eq!(summary["note"], NOTE);
}

/// A folder with folders, links and a pipe in it.
fn tree() -> Folder {
    let folder = Folder::new("tree");
    fs::create_dir_all(folder.path("b/c")).unwrap();
    for name in ["b.scp", "a", "b/2", "b/10", "b/c/.hidden", "z.txt"] {
        folder.file(name, &sample("7.scp"));
    }
    symlink("a", folder.path("link")).unwrap();
    symlink("..", folder.path("b/c/loop")).unwrap();
    symlink("b/c", folder.path("folder-link")).unwrap();
    symlink("nowhere", folder.path("dangling")).unwrap();
    let pipe = Command::new("mkfifo").arg(folder.path("pipe")).status();
    assert!(pipe.unwrap().success());
    folder
}

#[test]
fn a_folder_is_its_regular_files_in_order() {
    let folder = tree();
    let ran = run_in(&folder, &["check", ".", "--json"]);
    assert_eq!((ran.status, ran.err.as_str()), (0, ""));
    let names = [
        "./a",
        "./b/10",
        "./b/2",
        "./b/c/.hidden",
        "./b.scp",
        "./z.txt",
    ];
    assert_eq!(ran.names(), names);
    // paths come in the order in which they are given, as often as they are
    let ran = run_in(&folder, &["check", "--json", "z.txt", "b/c", "a", "z.txt"]);
    assert_eq!(ran.names(), ["z.txt", "b/c/.hidden", "a", "z.txt"]);
}

/// A folder with no file in it may be one that is not mounted: that is not taken for a good answer.
#[test]
fn no_file_is_no_good_answer() {
    let folder = Folder::new("nothing");
    fs::create_dir_all(folder.path("empty/inner")).unwrap();
    fs::create_dir(folder.path("links")).unwrap();
    symlink("nowhere", folder.path("links/link")).unwrap();
    let none = "0 files: 0 accepted, 0 refused, 0 not read";
    for (name, text) in [
        ("empty", format!("{none}\n")),
        ("links", format!("{none}; passed over: 1 link\n")),
    ] {
        let ran = run_in(&folder, &["check", name]);
        assert_eq!((ran.status, &ran.out), (2, &text));
        let words = "no files found; use --allow-empty if that is expected";
        assert_eq!(ran.err, format!("tigmavresh: {words}\n"));
        let ran = run_in(&folder, &["check", "--allow-empty", name]);
        assert_eq!((ran.status, &ran.out, ran.err.as_str()), (0, &text, ""));
        let ran = run_in(&folder, &["check", "--json", name]);
        assert_eq!(ran.status, 2);
    }
    // a file that cannot be read is not let pass
    let ran = run_in(&folder, &["check", "--allow-empty", "empty", "none"]);
    assert_eq!(ran.status, 2);
}

/// Links, FIFOs and the like that a folder has are passed over and counted.
#[test]
fn what_is_passed_over_is_counted() {
    let folder = tree();
    let ran = run_in(&folder, &["check", "."]);
    let text = "6 files: 6 accepted, 0 refused, 0 not read; passed over: 4 links, 1 special file";
    assert_eq!(ran.out.lines().last(), Some(text));
    let ran = run_in(&folder, &["check", ".", "--json"]);
    let summary = ran.lines().pop().unwrap();
    let passed_over = json!({"links": 4, "special_files": 1});
    assert_eq!(summary["summary"]["passed_over"], passed_over);
    let ran = run_in(&folder, &["check", "link", "a"]);
    assert!(!ran.out.contains("passed over"), "{}", ran.out);
}

#[test]
fn a_link_is_followed_where_it_is_given() {
    let folder = tree();
    let ran = run_in(&folder, &["check", "--json", "link", "folder-link"]);
    assert_eq!((ran.status, ran.err.as_str()), (0, ""));
    assert_eq!(ran.names(), ["link", "folder-link/.hidden"]);
    let ran = run_in(&folder, &["check", "dangling"]);
    assert_eq!(ran.status, 2);
    assert_eq!(ran.err, "tigmavresh: dangling: No such file or directory\n");
}

#[test]
fn what_cannot_be_read_does_not_stop_the_others() {
    let words = [
        "check",
        "none.scp",
        "007.scp",
        "none",
        "refused-2.scp",
        "--json",
    ];
    let ran = run(&words);
    assert_eq!(ran.status, 2);
    let reason = "No such file or directory";
    assert_eq!(
        ran.err,
        format!("tigmavresh: none.scp: {reason}\ntigmavresh: none: {reason}\n")
    );
    let lines = ran.lines();
    let unread = json!({"file": "none.scp", "verdict": "unread", "refusal": null, "error": reason});
    assert_eq!(lines[0], unread);
    assert_eq!(
        ran.names(),
        ["none.scp", "007.scp", "none", "refused-2.scp"]
    );
    assert_eq!(lines[4]["summary"]["unread"], 2);
    let ran = run(&words[..5]);
    assert_eq!(ran.status, 2);
    assert!(ran.out.starts_with("007.scp: accepted"), "{}", ran.out);
    assert!(
        ran.out
            .contains("\n4 files: 1 accepted, 1 refused, 2 not read\n"),
        "{}",
        ran.out
    );
}

#[test]
fn standard_input_is_one_of_the_files() {
    let input = || fs::File::open(samples().join("refused-14.scp")).unwrap();
    let ran = run_with_input(&["check", "7.scp", "-", "007.scp", "-", "--json"], input());
    assert_eq!(ran.status, 2);
    assert_eq!(ran.err, "tigmavresh: standard input: it was read already\n");
    let lines = ran.lines();
    assert_eq!(ran.names(), ["7.scp", "-", "007.scp", "-"]);
    assert_eq!(lines[1]["refusal"], 14);
    assert_eq!(lines[3]["error"], "it was read already");
}

#[test]
fn only_the_refused_are_shown_if_that_is_asked() {
    let ran = run(&["check", "--refused", "007.scp", "refused-6.scp", "beat.scp"]);
    assert_eq!(ran.status, 1);
    assert!(ran
        .first_line()
        .starts_with("refused-6.scp: refused, number 6"));
    for name in ["007.scp: ", "beat.scp: "] {
        assert!(!ran.out.contains(name), "{}", ran.out);
    }
    assert!(ran
        .out
        .contains("\n3 files: 2 accepted, 1 refused, 0 not read\n"));
    let ran = run(&["check", "--refused", "007.scp"]);
    assert_eq!(ran.out, "1 file: 1 accepted, 0 refused, 0 not read\n");
    let ran = run(&["check", "--refused", "--json", "007.scp", "refused-6.scp"]);
    assert_eq!(ran.names(), ["refused-6.scp"]);
}

#[test]
fn jobs_are_a_number_over_0() {
    for jobs in ["0", "-1", "1.5", "many", "", "1025"] {
        let ran = run(&["check", "007.scp", &format!("--jobs={jobs}")]);
        assert_eq!((ran.status, ran.out.as_str()), (2, ""), "{jobs}");
        assert!(ran.err.contains("--jobs"), "{}", ran.err);
        let words = [
            "give a whole number from 1 to 1024\n",
            "a value is required",
        ];
        assert!(
            words.iter().any(|words| ran.err.contains(words)),
            "{}",
            ran.err
        );
    }
    assert_eq!(run(&["check", "007.scp", "--jobs", "64"]).status, 0);
}

/// A terminal shows how far the work is, and a pipe is spared it.
#[test]
fn a_terminal_has_a_bar() {
    let ran = run(&["check", "."]);
    assert_eq!(ran.err, "");
    assert!(!ran.out.contains('\u{1b}'), "{}", ran.out);
    if let Some(ran) = run_on_terminal("check . --jobs 1") {
        assert_eq!(ran.status, 1);
        let bars = [" files so far: ", " files, "];
        assert!(bars.iter().any(|bar| ran.out.contains(bar)), "{}", ran.out);
        assert!(ran
            .out
            .contains("./beat.scp: accepted (418 bytes; 2 leads)"));
    }
}

/// Until the files are counted no total is shown, and then the right one; a single file has no bar.
#[test]
fn a_bar_has_no_wrong_total() {
    let folder = Folder::new("bar");
    for number in 0..2000 {
        folder.file(&format!("{number}.scp"), &sample("beat.scp"));
    }
    let Some(ran) = run_on_terminal(&format!("check --refused {}", folder.path("."))) else {
        return;
    };
    let shown = ran.out.split(['\r', '\n']);
    let shown: Vec<&str> = shown.filter(|line| line.contains(" files")).collect();
    let (last, bars) = shown.split_last().unwrap();
    assert!(last.contains("2000 files: 2000 accepted"), "{last}");
    assert!(!bars.is_empty());
    for bar in bars {
        let counting = bar.contains(" files so far: ");
        assert!(counting || bar.contains(" of 2000 files, "), "{bar}");
    }
    for words in ["check beat.scp", &format!("check {}", folder.path("7.scp"))] {
        let one = run_on_terminal(words).unwrap();
        assert!(!one.out.contains("files"), "{}", one.out);
        assert!(!one.out.contains('\u{1b}'), "{}", one.out);
    }
}

/// The reader goes away after a line: no complaint, and the status still tells of every file.
#[test]
fn a_closed_pipe_is_quiet() {
    let line = "{ \"$@\"; echo $? >&2; } | head -1";
    for (last, status) in [("007.scp", "0\n"), ("refused-3.scp", "1\n")] {
        let files = [&["7.scp"; 700][..], &[last]].concat();
        let ran = run_by_shell(line, &[&["check"][..], &files].concat());
        assert_eq!(ran.out, "7.scp: accepted (194 bytes; no lead)\n");
        assert_eq!(ran.err, status);
    }
}

/// A line does not wait for the files after it, and an interruption ends with the summary of the files so far.
#[test]
fn an_interruption_shows_the_summary() {
    for (jobs, form) in [("1", &[][..]), ("3", &[]), ("2", &["--json"])] {
        let folder = Folder::new(&format!("interrupted-{jobs}"));
        for name in ["a.scp", "b.scp", "z.scp"] {
            folder.file(name, &sample("7.scp"));
        }
        folder.file("a.scp", &sample("beat.scp"));
        folder.file("b.scp", &sample("refused-2.scp"));
        let files = ["check", "a.scp", "b.scp", "pipe", "z.scp"];
        let words = [&files[..], &["--jobs", jobs], form].concat();
        let waiting = Waiting::start(&folder, &words);
        assert!(waiting.line().contains("a.scp"));
        assert!(waiting.line().contains("b.scp"));
        waiting.send("-INT");
        let (lines, status, complaints) = waiting.end();
        assert_eq!((status, complaints.as_str()), (Some(130), ""));
        let last = lines.join("\n");
        assert!(!last.contains("z.scp"), "{last}");
        match form.is_empty() {
            true => {
                let text = "interrupted, so far 2 files: 1 accepted, 1 refused, 0 not read";
                assert!(lines.iter().any(|line| line == text), "{last}");
                let busiest = "\nbusiest record: a.scp (403 structures compared)";
                assert!(last.ends_with(busiest), "{last}");
            }
            false => {
                let summary: Value = serde_json::from_str(&last).unwrap();
                assert_eq!(summary["summary"]["files"], 2);
                assert_eq!(summary["summary"]["interrupted"], true);
                let busiest = json!({"file": "a.scp", "compared": 403});
                assert_eq!(summary["summary"]["busiest"], busiest);
            }
        }
    }
}

/// Whatever ends the tool, the lines of the files that were judged are there.
#[test]
fn a_line_is_not_lost_by_a_signal() {
    let folder = Folder::new("killed");
    folder.file("a.scp", &sample("7.scp"));
    let waiting = Waiting::start(&folder, &["check", "a.scp", "pipe"]);
    assert_eq!(waiting.line(), "a.scp: accepted (194 bytes; no lead)");
    waiting.send("-KILL");
    assert_eq!(waiting.end().0, [""; 0]);
}
