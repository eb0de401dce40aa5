//! The tool in a user's hands: exit statuses, standard input, files that are none, pipes that close.

mod common;

use std::ffi::OsStr;
use std::fs::{self, File};
use std::io::{BufRead, BufReader, Write};
use std::process::Stdio;

use common::folder::Folder;
use common::record::FIELDS;
use common::{run, run_with_input, samples, tool, Ran};

fn sample(name: &str) -> File {
    File::open(samples().join(name)).unwrap()
}

#[test]
fn standard_input_is_a_dash() {
    let ran = run_with_input(&["open", "-"], sample("007.scp"));
    assert_eq!(ran.status, 0);
    assert_eq!(
        ran.first_line(),
        "standard input: accepted (196 bytes; 12 pointers, 2 sections present)"
    );
    let ran = run_with_input(&["fields", "-"], sample("refused-6.scp"));
    assert_eq!(ran.status, 1);
    assert_eq!(
        ran.first_line(),
        "standard input: refused, number 6 (194 bytes)"
    );
    for (command, line) in [
        (
            "leads",
            "standard input: accepted (2 leads; flags 0x00, no reference beat was subtracted)",
        ),
        ("samples", "standard input: accepted (2 leads)"),
        ("check", "standard input: accepted (372 bytes; 2 leads)"),
        ("report", "standard input: accepted (372 bytes; 2 leads)"),
    ] {
        let ran = run_with_input(&[command, "-"], sample("two-leads.scp"));
        assert_eq!((ran.status, ran.first_line()), (0, line));
    }
    let ran = run_with_input(&["samples", "-", "--json"], sample("two-leads.scp"));
    assert!(ran.out.contains("\"file\": \"-\""), "{}", ran.out);
}

#[test]
fn standard_input_stands_among_files_once() {
    let ran = run_with_input(&["open", "7.scp", "-", "-"], sample("007.scp"));
    assert_eq!(ran.status, 2);
    assert_eq!(ran.err, "tigmavresh: standard input: it was read already\n");
    assert!(ran
        .out
        .ends_with("3 files: 2 accepted, 0 refused, 1 not read\n"));
}

#[test]
fn a_missing_file_does_not_stop_the_others() {
    for words in [
        ["open", "none.scp", "007.scp", "refused-2.scp"],
        ["open", "007.scp", "none.scp", "refused-2.scp"],
        ["open", "007.scp", "refused-2.scp", "none.scp"],
    ] {
        let ran = run(&words);
        assert_eq!(ran.status, 2);
        assert_eq!(ran.err, "tigmavresh: none.scp: No such file or directory\n");
        assert!(ran.out.contains("007.scp: accepted"));
        assert!(ran.out.contains("refused-2.scp: refused, number 2"));
        assert!(ran
            .out
            .ends_with("\n\n3 files: 1 accepted, 1 refused, 1 not read\n"));
        assert!(!ran.out.starts_with('\n') && !ran.out.contains("\n\n\n"));
    }
    for command in ["fields", "leads", "samples", "report"] {
        let ran = run(&[command, "none.scp"]);
        assert_eq!((ran.status, ran.out.as_str()), (2, ""));
    }
}

#[test]
fn a_folder_is_no_file() {
    for command in ["open", "fields", "leads", "samples", "report"] {
        let ran = run(&[command, "."]);
        assert_eq!(ran.status, 2);
        assert_eq!(ran.err, "tigmavresh: .: Is a directory\n");
        assert_eq!(ran.out, "");
    }
}

#[test]
fn an_empty_file_is_refused() {
    let folder = Folder::new("empty");
    let file = folder.file("empty.scp", b"");
    for command in ["open", "fields", "leads", "samples", "report"] {
        let ran = run(&[command, &file]);
        assert_eq!(ran.status, 1);
        assert_eq!(
            ran.first_line(),
            format!("{file}: refused, number 1 (0 bytes)")
        );
        assert!(ran.out.contains("there is no size field"));
    }
}

/// A file that is too long is refused without being read whole, and its size is shown all the same.
#[test]
fn a_long_file_is_refused_with_its_size() {
    let folder = Folder::new("long");
    let file = folder.file("long.scp", b"");
    let long = File::options().write(true).open(&file).unwrap();
    long.set_len(8_000_000_000).unwrap();
    let ran = run(&["open", &file]);
    assert_eq!(ran.status, 1);
    assert_eq!(
        ran.first_line(),
        format!("{file}: refused, number 1 (8,000,000,000 bytes)")
    );

    let ran = run_with_input(&["open", "-"], File::open(&file).unwrap());
    assert_eq!(ran.status, 1);
    assert_eq!(
        ran.first_line(),
        "standard input: refused, number 1 (over 1,048,576 bytes)"
    );
}

/// The reader of the output goes away early: no complaint, and the status still tells of every file.
#[test]
fn a_closed_pipe_is_quiet() {
    for (last, status) in [("007.scp", 0), ("refused-3.scp", 1)] {
        let mut files = vec!["007.scp"; 500];
        files.push(last);
        let mut child = tool()
            .arg("open")
            .args(files)
            .stdout(Stdio::piped())
            .stderr(Stdio::piped())
            .spawn()
            .unwrap();
        let mut line = String::new();
        let mut reader = BufReader::with_capacity(1, child.stdout.take().unwrap());
        reader.read_line(&mut line).unwrap();
        assert!(line.starts_with("007.scp: accepted"));
        drop(reader);
        let ran = Ran::from(child.wait_with_output().unwrap());
        assert_eq!((ran.status, ran.err.as_str()), (status, ""));
    }
}

/// The same in the middle of a long table.
#[test]
fn a_closed_pipe_is_quiet_in_a_table() {
    let folder = Folder::new("table");
    let file = folder.file("long.scp", &long_lead());
    for form in ["--csv", "--json"] {
        let mut child = tool()
            .args(["samples", &file, form])
            .stdout(Stdio::piped())
            .stderr(Stdio::piped())
            .spawn()
            .unwrap();
        let mut line = String::new();
        let mut reader = BufReader::with_capacity(1, child.stdout.take().unwrap());
        reader.read_line(&mut line).unwrap();
        drop(reader);
        let ran = Ran::from(child.wait_with_output().unwrap());
        assert_eq!((ran.status, ran.err.as_str()), (0, ""), "{form}");
    }
    let ran = run(&["samples", &file, "--csv"]);
    assert_eq!(ran.out.lines().count(), 32_001);
}

/// A record with one lead of 32,000 samples.
fn long_lead() -> Vec<u8> {
    let writing = judge::Writing {
        section1: &FIELDS,
        section2: &[],
        version: 13,
        flags: 0,
        step: 1000,
        interval: 1000,
        order: 1,
        firsts: &[1],
        counts: &[32_000],
        ids: &[1],
        samples: &[-7; 32_000],
    };
    judge::write_record(&writing, 0, scp::RECORD_MAX).unwrap()
}

#[test]
fn an_answer_that_cannot_be_written_is_told() {
    for words in [
        &["open", "007.scp"][..],
        &["open", "007.scp", "--json"],
        &["fields", "007.scp", "--json"],
        &["leads", "beat.scp"],
        &["samples", "beat.scp"],
        &["samples", "beat.scp", "--csv"],
        &["samples", "beat.scp", "--json"],
        &["check", "."],
        &["check", ".", "--json"],
        &["report", "refused-1.scp"],
        &["report", "refused-1.scp", "--json"],
        &["index", "list", "/dev/null", "--csv"],
        &["index", "check", "/dev/null"],
        &["index", "find", "/dev/null", "007"],
        &["--explain", "1"],
        &["man"],
        &["completions", "bash"],
    ] {
        let full = File::options().write(true).open("/dev/full").unwrap();
        let output = tool().args(words).stdout(full).output();
        let ran = Ran::from(output.unwrap());
        assert_eq!(ran.status, 2, "{words:?}");
        assert_eq!(
            ran.err,
            "tigmavresh: standard output: No space left on device\n"
        );
    }
}

#[test]
fn a_bad_command_line_is_told() {
    for words in [
        &[][..],
        &["open"],
        &["fields"],
        &["fields", "007.scp", "7.scp"],
        &["close", "007.scp"],
        &["open", "--all", "007.scp"],
        &["fields", "--csv", "007.scp"],
        &["leads"],
        &["leads", "007.scp", "7.scp"],
        &["leads", "--csv", "beat.scp"],
        &["samples"],
        &["samples", "--csv", "--json", "beat.scp"],
        &["samples", "--all", "beat.scp"],
        &["pack"],
        &["pack", "own-tables.scp"],
        &["pack", "own-tables.scp", "a", "b"],
        &["pack", "--json", "own-tables.scp", "a"],
        &["write", "job.json"],
        &["write", "--all", "job.json", "a"],
        &["check"],
        &["check", "--csv", "."],
        &["report"],
        &["report", "007.scp", "7.scp"],
        &["man", "open"],
        &["completions"],
    ] {
        let ran = run(words);
        assert_eq!((ran.status, ran.out.as_str()), (2, ""), "{words:?}");
        assert!(
            ran.err.contains("Usage: tigmavresh"),
            "{words:?}: {}",
            ran.err
        );
    }
}

#[test]
fn a_place_is_a_number() {
    for place in ["first", "-1", "1.5", "", "99999999999999999999"] {
        let ran = run(&["samples", "beat.scp", &format!("--lead={place}")]);
        assert_eq!((ran.status, ran.out.as_str()), (2, ""), "{place}");
        assert!(ran.err.contains("--lead"), "{}", ran.err);
        let words = ["give the number of a lead, from 1\n", "a value is required"];
        assert!(
            words.iter().any(|words| ran.err.contains(words)),
            "{}",
            ran.err
        );
    }
    for place in ["0", "3", "18446744073709551615"] {
        let ran = run(&["samples", "beat.scp", "--lead", place]);
        assert_eq!(ran.status, 1, "{place}");
        let line =
            format!("beat.scp: absent, number 10 (418 bytes): the record has no lead {place}: ");
        assert!(ran.first_line().starts_with(&line), "{}", ran.out);
    }
}

#[test]
fn help_says_all_of_it() {
    let commands = "open fields leads samples check report pack write index help man completions";
    let ran = run(&["--help"]);
    assert_eq!((ran.status, ran.err.as_str()), (0, ""));
    let words = [
        "--explain",
        "Exit status:",
        "  0  ",
        "  1  ",
        "  2  ",
        "standard input",
    ];
    for word in commands.split(' ').chain(words) {
        assert!(ran.out.contains(word), "{word}\n{}", ran.out);
    }
    let words =
        "--json --json --json --lead --jobs --json --preserve --force find COMMAND man SHELL";
    for (command, word) in commands.split(' ').zip(words.split(' ')) {
        let ran = run(&[command, "--help"]);
        assert_eq!(ran.status, 0);
        let told = ran.out.contains(word) && ran.out.contains("Exit status:");
        assert!(told, "{}", ran.out);
        let asked = run(&["help", command]);
        assert_eq!((asked.status, asked.out), (0, ran.out), "{command}");
    }
    for own in ["add", "find", "list", "check"] {
        let (asked, shown) = (run(&["help", "index", own]), run(&["index", own, "--help"]));
        assert_eq!((asked.status, asked.out), (0, shown.out), "{own}");
    }
    assert_eq!(run(&["help"]).out, run(&["--help"]).out);
    let ran = run(&["help", "chekc"]);
    assert_eq!((ran.status, ran.out.as_str()), (2, ""));
    assert!(ran.err.contains("'check'"), "{}", ran.err);
}

#[test]
fn a_strange_name_is_shown_in_one_line() {
    let folder = Folder::new("names");
    let bytes = fs::read(samples().join("7.scp")).unwrap();
    let mut file = File::create(folder.0.join("a\nb \x1b[7m.scp")).unwrap();
    file.write_all(&bytes).unwrap();
    let output = tool()
        .current_dir(&folder.0)
        .args(["open", "a\nb \x1b[7m.scp"])
        .output();
    let ran = Ran::from(output.unwrap());
    assert!(
        ran.first_line()
            .starts_with("a\\nb \\u{1b}[7m.scp: accepted"),
        "{}",
        ran.out
    );
}

/// A name need not be text.
#[cfg(unix)]
#[test]
fn a_name_that_is_no_text_is_opened() {
    use std::os::unix::ffi::OsStrExt;

    let folder = Folder::new("bytes");
    let name = OsStr::from_bytes(b"\xFF.scp");
    fs::copy(samples().join("7.scp"), folder.0.join(name)).unwrap();
    let output = tool().current_dir(&folder.0).arg("open").arg(name).output();
    let ran = Ran::from(output.unwrap());
    assert_eq!(ran.status, 0);
    assert!(ran
        .first_line()
        .ends_with(".scp: accepted (194 bytes; 12 pointers, 2 sections present)"));
}
