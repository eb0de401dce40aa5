//! Damage to the tool's surroundings: files that vanish, cannot be read or are no files, a full disk, a kill, strange names.

mod common;

use std::ffi::OsStr;
use std::fs::{self, File, Permissions};
use std::io::{BufRead, BufReader, Seek};
use std::os::unix::ffi::OsStrExt;
use std::os::unix::fs::PermissionsExt;
use std::process::{Command, Stdio};
use std::thread;
use std::time::{Duration, Instant};

use common::folder::Folder;
use common::{run, run_by_shell, run_in, run_with_input, sample, samples, tool, Ran};
use serde_json::Value;

/// Files that are gone, or have become folders, between listing and reading. The tool has listed the folder when it shows the
/// first line, and waits for its lines to be read.
#[test]
fn files_may_vanish() {
    const FILES: usize = 2000;
    let folder = Folder::new("vanish");
    // so long that the lines fill the pipe, and the tool waits, long before the last files
    let name = |number: usize| format!("{number:0100}");
    for number in 1..=FILES {
        folder.file(&name(number), &sample("7.scp"));
    }
    let mut child = tool()
        .current_dir(&folder.0)
        .args(["check", ".", "--jobs", "1"])
        .stdout(Stdio::piped())
        .stderr(Stdio::piped())
        .spawn()
        .unwrap();
    let mut lines = BufReader::new(child.stdout.take().unwrap()).lines();
    let first = lines.next().unwrap().unwrap();
    assert_eq!(
        first,
        format!("./{}: accepted (194 bytes; no lead)", name(1))
    );
    let [gone, folded] = [FILES - 2, FILES - 1].map(name);
    fs::remove_file(folder.path(&gone)).unwrap();
    fs::remove_file(folder.path(&folded)).unwrap();
    fs::create_dir(folder.path(&folded)).unwrap();
    let lines: Vec<String> = lines.map(Result::unwrap).collect();
    let ran = Ran::from(child.wait_with_output().unwrap());
    assert_eq!(ran.status, 2);
    assert!(lines.contains(&format!("./{}: accepted (194 bytes; no lead)", name(FILES))));
    let summary = "2000 files: 1998 accepted, 0 refused, 2 not read";
    assert_eq!(lines.last().unwrap(), summary);
    let reasons = format!(
        "tigmavresh: ./{gone}: No such file or directory\ntigmavresh: ./{folded}: Is a directory\n"
    );
    assert_eq!(ran.err, reasons);
}

/// A file and a folder that nobody may read are reported, and the others are checked all the same. Root may read them.
#[test]
fn what_may_not_be_read_is_told() {
    let folder = Folder::new("unreadable");
    fs::create_dir(folder.path("b")).unwrap();
    for name in ["a.scp", "b/in.scp", "c.scp"] {
        folder.file(name, &sample("7.scp"));
    }
    let locked = ["a.scp", "b"].map(|name| folder.path(name));
    for path in &locked {
        fs::set_permissions(path, Permissions::from_mode(0o000)).unwrap();
    }
    let is_root = File::open(&locked[0]).is_ok();
    let ran = run_in(&folder, &["check", "."]);
    fs::set_permissions(&locked[1], Permissions::from_mode(0o700)).unwrap();
    assert!(ran.out.contains("./c.scp: accepted"), "{}", ran.out);
    let (status, told) = match is_root {
        true => (0, ""),
        false => (
            2,
            "tigmavresh: ./a.scp: Permission denied\ntigmavresh: ./b: Permission denied\n",
        ),
    };
    assert_eq!((ran.status, ran.err.as_str()), (status, told));
}

/// A file that opens and then cannot be read, for anybody.
#[test]
fn a_file_that_fails_is_told() {
    for command in ["check", "open", "report"] {
        let ran = run(&[command, "/proc/self/mem"]);
        assert_eq!(ran.status, 2, "{command}");
        assert_eq!(ran.err, "tigmavresh: /proc/self/mem: Input/output error\n");
    }
}

#[test]
fn a_folder_is_no_record_to_write_from_or_to() {
    let folder = Folder::new("folders");
    let (here, out) = (folder.path(""), folder.path("out.scp"));
    for words in [["pack", &here, &out], ["write", &here, &out]] {
        let ran = run(&words);
        assert_eq!((ran.status, ran.out.as_str()), (2, ""));
        assert!(ran.err.ends_with("Is a directory\n"), "{}", ran.err);
    }
    for words in [
        ["pack", "own-tables.scp", &here],
        ["write", "job.json", &here],
    ] {
        assert_eq!(run(&words).status, 2);
    }
    assert_eq!(folder.names(), [""; 0]);
}

/// A file of 4 GiB is refused by its length, and no more of it is read than shows that.
#[test]
fn a_huge_file_is_not_read_whole() {
    let folder = Folder::new("huge");
    let path = folder.file("huge.scp", &sample("beat.scp"));
    let huge = File::options().write(true).open(&path).unwrap();
    huge.set_len(1 << 32).unwrap();
    folder.file("empty.scp", b"");
    let ran = run_in(&folder, &["check", "huge.scp", "empty.scp"]);
    assert_eq!((ran.status, ran.err.as_str()), (1, ""));
    for line in [
        "huge.scp: refused, number 1 (4,294,967,296 bytes); rule broken: ",
        "found: the length is 4,294,967,296 bytes, over 1,048,576; the size field says 418\n",
        "empty.scp: refused, number 1 (0 bytes); rule broken: ",
        "; the length is 0 bytes, under 142; there is no size field (bytes 3 to 6)\n",
    ] {
        assert!(ran.out.contains(line), "{line}\n{}", ran.out);
    }
    let mut input = File::open(&path).unwrap();
    let ran = run_with_input(&["check", "-"], input.try_clone().unwrap());
    assert!(
        ran.first_line().contains("number 1 (over 1,048,576 bytes)"),
        "{}",
        ran.out
    );
    let read = input.stream_position().unwrap();
    assert!(read < 1_100_000, "{read} bytes were read");
}

/// A disk with no room: nothing is left of what was to be written. It is a small one in memory, if one can be had.
#[test]
fn nothing_is_written_to_a_full_disk() {
    let folder = Folder::new("full");
    let line =
        "mount -t tmpfs -o size=4k tmpfs \"$0\" && head -c 4096 /dev/zero >\"$0/full\" || exit 77
        \"$@\"; echo \"status $?\"; ls -A \"$0\"";
    for words in [["pack", "own-tables.scp"], ["write", "job.json"]] {
        let out = folder.path("out.scp");
        let here = folder.path("");
        let program = tool();
        let mut shell = Command::new("unshare");
        shell
            .args(["--mount", "--map-root-user", "sh", "-c", line, &here])
            .arg(program.get_program())
            .args(program.get_args())
            .args(words)
            .arg(out)
            .current_dir(samples());
        let ran = Ran::from(shell.output().unwrap());
        if [77, 127].contains(&ran.status) || ran.err.starts_with("unshare:") {
            return println!("no disk of its own can be mounted: {}", ran.err);
        }
        assert_eq!(ran.out, "status 2\nfull\n", "{}", ran.err);
        assert!(
            ran.err.ends_with("out.scp: No space left on device\n"),
            "{}",
            ran.err
        );
    }
}

/// Killed at any moment, pack leaves the whole record under its name or nothing, and with --force what was there or the whole.
#[test]
fn a_killed_pack_leaves_all_or_nothing() {
    let folder = Folder::new("killed");
    let whole = folder.path("whole.scp");
    let began = Instant::now();
    assert_eq!(run(&["pack", "own-tables.scp", &whole]).status, 0);
    let takes = began.elapsed();
    let whole = fs::read(whole).unwrap();
    for moment in 0..24 {
        let new = folder.path(&format!("new-{moment}.scp"));
        kill_after(takes * moment / 20, &["pack", "own-tables.scp", &new]);
        if let Ok(there) = fs::read(&new) {
            assert!(there == whole, "{} bytes", there.len());
        }
        let old = folder.file(&format!("old-{moment}.scp"), b"what was there");
        kill_after(
            takes * moment / 20,
            &["pack", "own-tables.scp", &old, "--force"],
        );
        let there = fs::read(&old).unwrap();
        assert!(
            there == whole || there == b"what was there",
            "{} bytes",
            there.len()
        );
    }
}

/// Runs the tool and kills it after a time, if it is not done by then.
fn kill_after(time: Duration, words: &[&str]) {
    let mut command = tool();
    command
        .args(words)
        .stdout(Stdio::null())
        .stderr(Stdio::null());
    let mut child = command.spawn().unwrap();
    thread::sleep(time);
    child.kill().unwrap();
    child.wait().unwrap();
}

/// Names with newlines, and with bytes that are no text: a line each in text and in JSON, and no two alike.
#[test]
fn names_are_any_bytes() {
    let folder = Folder::new("any-bytes");
    for name in [&b"a\nb.scp"[..], b"M\xFCller.scp", b"M\xFDller.scp"] {
        fs::write(folder.0.join(OsStr::from_bytes(name)), sample("7.scp")).unwrap();
    }
    let ran = run_in(&folder, &["check", "."]);
    assert_eq!((ran.status, ran.err.as_str()), (0, ""));
    let lines: Vec<&str> = ran.out.lines().take(3).collect();
    let shown = ["./M\\xFCller.scp", "./M\\xFDller.scp", "./a\\nb.scp"];
    assert_eq!(
        lines,
        shown.map(|name| format!("{name}: accepted (194 bytes; no lead)"))
    );
    let ran = run_in(&folder, &["check", ".", "--json"]);
    let lines: Vec<Value> = ran
        .out
        .lines()
        .map(|line| serde_json::from_str(line).unwrap())
        .collect();
    assert_eq!(lines.len(), 4);
    assert_eq!(
        lines[0]["file_bytes"],
        "2E 2F 4D FC 6C 6C 65 72 2E 73 63 70"
    );
    assert_eq!(
        (&lines[2]["file"], lines[2].get("file_bytes")),
        (&"./a\nb.scp".into(), None)
    );
    let output = tool()
        .current_dir(&folder.0)
        .arg("report")
        .arg(OsStr::from_bytes(b"M\xFCller.scp"))
        .output();
    let ran = Ran::from(output.unwrap());
    assert_eq!(
        ran.first_line(),
        "M\\xFCller.scp: accepted (194 bytes; no lead)"
    );
}

/// An answer that goes to a standard output which is closed from the start is not written, and one to /dev/null is.
#[test]
fn a_closed_output_takes_no_answer() {
    let closed = "tigmavresh: standard output: it is closed\n";
    for (words, status) in [
        (&["check", "007.scp"][..], 0),
        (&["fields", "007.scp"], 0),
        (&["report", "refused-1.scp"], 1),
        (&["man"], 0),
        (&["--explain", "1"], 0),
        (&["--help"], 0),
        (&["check", "--version"], 2),
        (&["--version"], 0),
    ] {
        let ran = run_by_shell("exec \"$@\" >&-", words);
        assert_eq!(ran.status, 2, "{words:?}");
        if status < 2 {
            assert_eq!(ran.err, closed, "{words:?}");
        }
        for open in ["exec \"$@\" >/dev/null", "exec \"$@\" <&- 1<>/dev/null"] {
            let ran = run_by_shell(open, words);
            assert_eq!(ran.status, status, "{words:?} {open}");
            assert_eq!(ran.err.is_empty(), status < 2, "{words:?} {open}");
        }
    }
    let ran = run_by_shell("exec \"$@\" >&-", &["pack", "own-tables.scp", "-"]);
    assert_eq!((ran.status, ran.err.as_str()), (2, closed));
    let ran = run_by_shell("exec \"$@\" >&-", &["write", "job.json", "-"]);
    assert_eq!((ran.status, ran.err.as_str()), (2, closed));
}
