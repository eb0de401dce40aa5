//! `pack` and `write` in a user's hands: what they write, what they refuse, and that nothing is ever half there.

mod common;

use std::fs::{self, File, Permissions};
use std::os::unix::fs::PermissionsExt;
use std::path::Path;
use std::process::{Command, Stdio};
use std::time::{Duration, UNIX_EPOCH};

use common::folder::Folder;
use common::record::{pad, put, seal, section, FIELDS};
use common::{
    run, run_by_shell, run_on_terminal, run_with_input, sample, samples, tool, Ran, NOTE,
};
use judge::make::{self, Rng};
use judge::Writing;
use scp::Lead;

// ---- where a record is put

/// A record that only its owner may read is not packed into one that others may.
#[test]
fn a_packed_record_has_the_permissions_of_its_source() {
    let folder = Folder::new("modes");
    let (source, out) = (
        folder.file("in.scp", &sample("own-tables.scp")),
        folder.path("out.scp"),
    );
    let mode = |path: &str| fs::metadata(path).unwrap().permissions().mode() & 0o777;
    for (wanted, umask) in [
        (0o600, "022"),
        (0o640, "077"),
        (0o644, "077"),
        (0o444, "022"),
    ] {
        fs::set_permissions(&source, Permissions::from_mode(wanted)).unwrap();
        for force in [&[][..], &["--force"]] {
            let line = format!("umask {umask} && exec \"$@\"");
            let ran = run_by_shell(&line, &[&["pack", &source, &out], force].concat());
            assert_eq!(ran.status, 0, "{}", ran.err);
            assert_eq!(mode(&out), wanted);
            fs::set_permissions(&out, Permissions::from_mode(0o666)).unwrap();
        }
        fs::remove_file(&out).unwrap();
    }
    // standard input has none
    let input = File::open(samples().join("own-tables.scp")).unwrap();
    let ran = run_with_input(&["pack", "-", &out], input);
    assert_eq!((ran.status, mode(&out) & 0o600), (0, 0o600));
}

#[test]
fn a_modification_time_is_preserved_if_that_is_asked() {
    let folder = Folder::new("times");
    let (source, out) = (
        folder.file("in.scp", &sample("own-tables.scp")),
        folder.path("out.scp"),
    );
    let then = UNIX_EPOCH + Duration::new(1_234_567_890, 123_456_789);
    File::options()
        .write(true)
        .open(&source)
        .unwrap()
        .set_modified(then)
        .unwrap();
    let modified = |path: &str| fs::metadata(path).unwrap().modified().unwrap();
    assert_eq!(run(&["pack", "--preserve", &source, &out]).status, 0);
    assert_eq!(modified(&out), then);
    assert_eq!(run(&["pack", "--force", &source, &out]).status, 0);
    assert_ne!(modified(&out), then);
    assert_eq!(
        run(&["pack", "--force", "--preserve", &source, &out]).status,
        0
    );
    assert_eq!(modified(&out), then);
    for words in [
        ["pack", "--preserve", "-", &out],
        ["pack", "--preserve", &source, "-"],
    ] {
        let ran = run(&words);
        assert_eq!((ran.status, ran.out.as_str()), (2, ""));
        assert!(ran.err.contains("have no modification time"), "{}", ran.err);
    }
}

#[test]
fn a_file_is_replaced_only_if_that_is_asked() {
    let folder = Folder::new("replaced");
    let out = folder.file("out.scp", b"mine");
    for words in [["pack", "own-tables.scp"], ["write", "job.json"]] {
        let ran = run(&[words[0], words[1], &out]);
        assert_eq!((ran.status, ran.out.as_str()), (2, ""));
        let told = "already exists; use --force to replace it";
        assert_eq!(ran.err, format!("tigmavresh: {out}: {told}\n"));
        assert_eq!(fs::read(&out).unwrap(), b"mine");
        let ran = run(&[words[0], words[1], &out, "--force"]);
        assert_eq!((ran.status, ran.err.as_str()), (0, ""));
        assert!(scp::open(&fs::read(&out).unwrap()).is_ok());
        assert_eq!(folder.names(), ["out.scp"]);
        fs::write(&out, b"mine").unwrap();
    }
}

#[test]
fn a_record_is_packed_in_its_own_place() {
    let folder = Folder::new("in-place");
    let file = folder.file("own-tables.scp", &sample("own-tables.scp"));
    let ran = run(&["pack", &file, &file, "--force"]);
    assert_eq!((ran.status, ran.err.as_str()), (0, ""));
    assert_eq!(fs::read(&file).unwrap().len(), 406);
}

#[test]
fn a_folder_that_is_not_there_is_told() {
    let folder = Folder::new("no-folder");
    for words in [["pack", "own-tables.scp"], ["write", "job.json"]] {
        let out = folder.path("none/out.scp");
        let ran = run(&[words[0], words[1], &out]);
        assert_eq!((ran.status, ran.out.as_str()), (2, ""));
        let told = format!("there is no folder {}", folder.path("none"));
        assert_eq!(ran.err, format!("tigmavresh: {out}: {told}\n"));
        assert_eq!(folder.names(), [""; 0]);
    }
}

/// A folder, a device and a pipe are not replaced, whatever is asked.
#[test]
fn what_is_no_file_is_not_replaced() {
    let folder = Folder::new("no-file");
    for out in [&folder.path("."), "/dev/null", "/dev/full"] {
        for force in [&[][..], &["--force"]] {
            let ran = run(&[&["write", "job.json", out], force].concat());
            assert_eq!((ran.status, ran.out.as_str()), (2, ""), "{out}");
            let told = "exists but is not a regular file";
            assert_eq!(ran.err, format!("tigmavresh: {out}: {told}\n"));
        }
    }
    assert!(!fs::metadata("/dev/null").unwrap().is_file());
    assert_eq!(folder.names(), [""; 0]);
}

#[cfg(unix)]
#[test]
fn a_link_is_followed() {
    use std::os::unix::fs::symlink;

    let folder = Folder::new("links");
    let real = folder.file("real.scp", b"mine");
    fs::set_permissions(&real, fs::Permissions::from_mode(0o640)).unwrap();
    let link = folder.path("link.scp");
    symlink("real.scp", &link).unwrap();
    assert_eq!(run(&["write", "job.json", &link]).status, 2);
    assert_eq!(fs::read(&real).unwrap(), b"mine");
    assert_eq!(run(&["write", "job.json", &link, "--force"]).status, 0);
    assert_eq!(fs::read(&real).unwrap(), job_record());
    assert!(fs::symlink_metadata(&link).unwrap().is_symlink());
    let mode = fs::metadata(&real).unwrap().permissions().mode();
    assert_eq!(mode & 0o777, 0o640, "its permissions stay");

    let lost = folder.path("lost.scp");
    symlink("none.scp", &lost).unwrap();
    let ran = run(&["write", "job.json", &lost, "--force"]);
    assert_eq!(ran.status, 2);
    assert!(ran.err.ends_with("it is a link that leads nowhere\n"));
    assert_eq!(folder.names(), ["link.scp", "lost.scp", "real.scp"]);
}

#[test]
fn a_dash_is_standard_output() {
    for (words, record) in [
        (["write", "job.json", "-"], job_record()),
        (["pack", "limb-leads.scp", "-"], sample("limb-leads.scp")),
    ] {
        let output = tool().args(words).output().unwrap();
        assert_eq!(output.status.code(), Some(0));
        assert!(output.stdout == record, "{words:?}");
        let said = String::from_utf8(output.stderr).unwrap();
        assert!(said.starts_with("tigmavresh: "), "{said}");
        assert!(said.contains("standard output"), "{said}");
    }
    // of what is refused or left alone, nothing goes there
    for words in [
        ["pack", "beat.scp", "-"],
        ["pack", "refused-2.scp", "-"],
        ["pack", "none.scp", "-"],
    ] {
        let ran = run(&words);
        assert_ne!(ran.status, 0);
        assert_eq!(ran.out, "", "{words:?}");
        assert!(ran.err.starts_with(&format!("tigmavresh: {}", words[1])));
    }
}

#[test]
fn a_record_does_not_go_to_a_terminal() {
    for words in ["write job.json -", "pack own-tables.scp -"] {
        let Some(ran) = run_on_terminal(words) else {
            return;
        };
        assert_eq!(ran.status, 2, "{}", ran.out);
        let told = "standard output: a record is not written to a terminal";
        assert_eq!(ran.out.trim_end(), format!("tigmavresh: {told}"));
    }
}

#[test]
fn a_full_disk_is_told() {
    for words in [["write", "job.json", "-"], ["pack", "own-tables.scp", "-"]] {
        let full = File::options().write(true).open("/dev/full").unwrap();
        let ran = Ran::from(tool().args(words).stdout(full).output().unwrap());
        assert_eq!(ran.status, 2, "{words:?}");
        let told = "tigmavresh: standard output: No space left on device\n";
        assert_eq!(ran.err, told);
    }
}

/// A reader of standard output that is gone has no whole record.
#[test]
fn a_closed_pipe_is_told() {
    let mut command = Command::new("sh");
    let tool = tool();
    command
        .args(["-c", "sleep 0.2; exec \"$@\"", "sh"])
        .arg(tool.get_program())
        .args(tool.get_args())
        .args(["write", "job.json", "-"])
        .current_dir(samples())
        .stdout(Stdio::piped())
        .stderr(Stdio::piped());
    let mut child = command.spawn().unwrap();
    drop(child.stdout.take());
    let ran = Ran::from(child.wait_with_output().unwrap());
    assert_eq!(ran.status, 2);
    assert_eq!(ran.err, "tigmavresh: standard output: Broken pipe\n");
}

/// Files may not grow: what fails half way leaves nothing behind, and what was there still is.
#[test]
fn nothing_is_left_of_a_failure() {
    let folder = Folder::new("failure");
    folder.file("there.scp", b"mine");
    let line = "trap '' XFSZ; ulimit -f 0; exec \"$@\"";
    for words in [["pack", "own-tables.scp"], ["write", "job.json"]] {
        for out in ["there.scp", "new.scp"] {
            let out = folder.path(out);
            let ran = run_by_shell(line, &[&words[..], &[&out, "--force"]].concat());
            assert_eq!((ran.status, ran.out.as_str()), (2, ""), "{}", ran.err);
            assert!(ran.err.ends_with("File too large\n"), "{}", ran.err);
            assert_eq!(folder.names(), ["there.scp"]);
            assert_eq!(fs::read(folder.path("there.scp")).unwrap(), b"mine");
        }
    }
}

// ---- packing

/// A lead and its samples, without the structures compared: another stream may take more or fewer.
fn read(record: &[u8], place: usize) -> (Lead, Vec<i16>) {
    let (lead, samples) = scp::samples(record, place).unwrap();
    let compared = 0;
    (Lead { compared, ..lead }, samples)
}

#[test]
fn packing_says_how_many_bytes_it_saved() {
    let folder = Folder::new("packed");
    let out = folder.path("out.scp");
    let ran = run(&["pack", "own-tables.scp", &out]);
    assert_eq!((ran.status, ran.err.as_str()), (0, ""));
    let text = format!(
        "own-tables.scp: packed into {out} (408 bytes, now 406: 2 saved)\n  \
         Place  Lead  Samples  Bytes before  Bytes packed\n      \
         1  I          20            12            11\n      \
         2  II          8             7             7\n"
    );
    assert_eq!(ran.out, text);
    let packed = fs::read(&out).unwrap();
    assert_eq!(packed.len(), 406);
    let before = sample("own-tables.scp");
    for place in [1, 2] {
        assert_eq!(read(&packed, place), read(&before, place));
    }
    assert_eq!(folder.names(), ["out.scp"]);
    // packed once, there is nothing more to save
    let again = folder.path("again.scp");
    let ran = run(&["pack", &out, &again]);
    assert!(ran.first_line().ends_with("(406 bytes, now 406: 0 saved)"));
    assert_eq!(fs::read(&again).unwrap(), packed);
}

#[test]
fn a_refused_record_is_not_packed() {
    let folder = Folder::new("not-packed");
    let out = folder.path("out.scp");
    for (name, number) in [
        ("refused-10.scp", 10),
        ("refused-2.scp", 2),
        ("refused-7.scp", 7),
        ("refused-9.scp", 9),
        ("refused-12.scp", 12),
        ("refused-14.scp", 14),
    ] {
        let ran = run(&["pack", name, &out]);
        assert_eq!((ran.status, ran.err.as_str()), (1, ""), "{name}");
        let line = format!("{name}: refused, number {number} (");
        assert!(ran.out.starts_with(&line), "{}", ran.out);
        assert!(ran.out.contains(NOTE));
    }
    let ran = run(&["pack", "none.scp", &out]);
    assert_eq!(ran.status, 2);
    assert_eq!(ran.err, "tigmavresh: none.scp: No such file or directory\n");
    assert_eq!(folder.names(), [""; 0]);
}

/// A change of a record, all checks to be made after it.
type Change = fn(&mut Vec<u8>);

/// Adds an empty Section 7 after all others.
fn add_section_7(record: &mut Vec<u8>) {
    let start = record.len();
    record.extend([0, 0, 7, 0, 16, 0, 0, 0, 13, 13, 0, 0, 0, 0, 0, 0]);
    put(record, 6 + 16 + 70 + 2, 16);
    put(record, 6 + 16 + 70 + 6, start + 1);
}

/// Adds a pointer to an absent Section 128: all sections move on.
fn add_pointer(record: &mut Vec<u8>) {
    let end = 6 + 136;
    record.splice(end..end, [128, 0, 0, 0, 0, 0, 0, 0, 0, 0]);
    put(record, 6 + 4, 146);
    put(record, 6 + 16 + 2, 146);
    for id in [1, 2, 3, 6] {
        let moved = section(record, id) + 10;
        put(record, 6 + 16 + 10 * id + 6, moved + 1);
    }
}

/// Content that would be lost, and what is said of it.
const LOSSES: [(Change, &str); 12] = [
    (add_section_7, "Section 7, measurements, is not written"),
    (add_pointer, "there are 13 pointers, and 12 are written"),
    (
        |record| record[6 + 16 + 40 + 6] = 9,
        "Section 4 is absent, and its pointer has index 9, not 0",
    ),
    (
        |record| {
            let at = section(record, 3);
            record[at + 9] = 14;
        },
        "Section 3 has the version bytes 13 and 14, which differ",
    ),
    (
        |record| {
            let at = section(record, 6);
            record[at + 8..at + 10].fill(14);
        },
        "sections have different versions: 13, 14",
    ),
    (
        |record| record[6 + 8..6 + 10].fill(20),
        "sections have different versions: 13, 20",
    ),
    (
        |record| {
            let at = section(record, 2);
            record[at + 12] = 1;
        },
        "Section 2 has reserved bytes that are not 0",
    ),
    (
        |record| *record.last_mut().unwrap() = 7,
        "Section 6 ends in a spare byte of 0x07, not 0",
    ),
    (
        |record| {
            let at = section(record, 2);
            record[at - 1] = 0x20;
        },
        "Section 1 ends in a spare byte of 0x20, not 0",
    ),
    (
        |record| record.extend([0, 0, 5]),
        "are in no section, and not all are 0",
    ),
    (
        |record| {
            let at = section(record, 3);
            record[at + 17] = 0x80;
            record[at + 12] = 0x80;
        },
        "Section 3 has reserved bytes that are not 0",
    ),
    (
        |record| record[6 + 8] = 12,
        "Section 0 has the version bytes 12 and 13, which differ",
    ),
];

#[test]
fn a_record_that_would_lose_something_is_left_alone() {
    let folder = Folder::new("left-alone");
    let record = spare_ends();
    let out = folder.path("out.scp");
    for (change, reason) in LOSSES {
        let mut changed = record.clone();
        change(&mut changed);
        seal(&mut changed);
        let file = folder.file("changed.scp", &changed);
        let ran = run(&["pack", &file, &out]);
        assert_eq!((ran.status, ran.err.as_str()), (1, ""), "{reason}");
        let heading = format!("{file}: left alone, as packing would lose something");
        assert_eq!(ran.first_line(), heading, "{reason}");
        let found = ran.out.lines().any(|line| line.ends_with(reason));
        assert!(found, "{reason}\n{}", ran.out);
        assert_eq!(folder.names(), ["changed.scp"]);
    }
    for name in ["beat.scp", "padded.scp"] {
        let ran = run(&["pack", name, &out]);
        assert_eq!(ran.status, 1);
        let reason = "  a reference beat was subtracted from its leads";
        assert!(ran.out.lines().any(|line| line == reason), "{}", ran.out);
        assert_eq!(folder.names(), ["changed.scp"]);
    }
}

/// The leads of `own-tables.scp`, the second one cut so that Section 6 ends in a spare byte; Section 1 does too.
fn spare_ends() -> Vec<u8> {
    let record = sample("own-tables.scp");
    let tables = &record[section(&record, 2) + 16..section(&record, 3)];
    let leads = [1, 2].map(|place| scp::samples(&record, place).unwrap().1);
    let fields = [&[30, 2, 0, b'x', 0][..], &FIELDS].concat();
    let cut = |count: usize| {
        let samples = [&leads[0], &leads[1][..count]].concat();
        let writing = Writing {
            section1: &fields,
            section2: tables,
            version: 13,
            flags: 0,
            step: 5000,
            interval: 2000,
            order: 0,
            firsts: &[1, 7],
            counts: &[20, count as u32],
            ids: &[1, 2],
            samples: &samples,
        };
        judge::write_record(&writing, 1000, scp::RECORD_MAX).unwrap()
    };
    let is_odd = |record: &Vec<u8>| {
        let leads = scp::leads(record).unwrap();
        leads.iter().map(|lead| lead.bytes).sum::<usize>() % 2 == 1
    };
    (1..=8).map(cut).find(is_odd).unwrap()
}

/// Gaps of zeros, sections in any order and bits that fill up a stream hold nothing.
#[test]
fn what_holds_nothing_is_no_loss() {
    let folder = Folder::new("no-loss");
    let record = spare_ends();
    let mut changed = record.clone();
    changed.extend([0; 5]);
    seal(&mut changed);
    let file = folder.file("changed.scp", &changed);
    let out = folder.path("out.scp");
    let ran = run(&["pack", &file, &out]);
    assert_eq!(ran.status, 0, "{}", ran.out);
    assert!(ran.first_line().ends_with(": 5 saved)"), "{}", ran.out);
    assert_eq!(fs::read(&out).unwrap(), record);
}

/// Padding of a stream holds nothing either, whatever its bits are: it is taken away, and the samples stay. Both streams are
/// odd here, so that none of the padding takes the place of a spare byte.
#[test]
fn padding_is_taken_away() {
    let folder = Folder::new("padding");
    let out = folder.path("out.scp");
    let record = record_with([1, 1]);
    for (byte, places) in [(0, &[1][..]), (0xFF, &[2]), (0x55, &[1, 2])] {
        let mut padded = record.clone();
        for &place in places {
            pad(&mut padded, place, &[byte]);
        }
        let file = folder.file("padded.scp", &padded);
        let ran = run(&["pack", &file, &out, "--force"]);
        assert_eq!((ran.status, ran.err.as_str()), (0, ""), "{}", ran.out);
        let packed = fs::read(&out).unwrap();
        assert!(packed == record && packed.len() < padded.len());
        for place in [1, 2] {
            assert_eq!(scp::samples(&packed, place), scp::samples(&padded, place));
            let bytes = [&padded, &packed].map(|record| scp::lead(record, place).unwrap().bytes);
            let saved = usize::from(places.contains(&place));
            assert_eq!(bytes[0] - bytes[1], saved, "lead {place}");
        }
    }
}

/// A byte more behind a lead is padding, and two are too many.
#[test]
fn too_much_padding_is_refused() {
    let folder = Folder::new("too-much");
    for (more, answer) in [
        (&[0xFF][..], "accepted (2 leads)"),
        (&[0xFF; 2], "1 of 2 leads refused"),
    ] {
        let mut padded = sample("two-leads.scp");
        pad(&mut padded, 2, more);
        let file = folder.file("padded.scp", &padded);
        let ran = run(&["samples", &file]);
        assert_eq!(ran.first_line(), format!("{file}: {answer}"));
        assert_eq!(ran.status == 0, more.len() == 1, "{}", ran.out);
        let found = "Section 6, lead 2: 16 bits are left of 144 after the last sample";
        assert_eq!(ran.out.contains(found), more.len() == 2, "{}", ran.out);
    }
}

/// Records that the judge wrote are packed as they can be: they come back byte for byte.
#[test]
fn what_is_packed_stays_so() {
    let folder = Folder::new("packed-twice");
    let out = folder.path("out.scp");
    let mut packed = 0;
    for seed in 0..150 {
        let call = make::to_write(&mut Rng::new(seed));
        let Ok(record) = judge::write_record(&call.writing(), usize::MAX, usize::MAX) else {
            continue;
        };
        let file = folder.file("in.scp", &record);
        let ran = run(&["pack", &file, &out, "--force"]);
        assert_eq!((ran.status, ran.err.as_str()), (0, ""), "seed {seed}");
        assert!(fs::read(&out).unwrap() == record, "seed {seed}");
        packed += 1;
    }
    assert!(packed > 50, "{packed}");
}

/// Any record is packed, refused or left alone; what is packed has the same leads, and is no longer.
#[test]
fn any_record_may_be_given() {
    let folder = Folder::new("any");
    let out = folder.path("out.scp");
    for seed in 0..150 {
        let record = make::record(&mut Rng::new(seed));
        let file = folder.file("in.scp", &record);
        let ran = run(&["pack", &file, &out, "--force"]);
        assert_eq!(ran.err, "", "seed {seed}");
        match ran.status {
            0 => {
                let packed = fs::read(&out).unwrap();
                assert!(packed.len() <= record.len());
                let leads = scp::leads(&record).unwrap().len();
                for place in 1..=leads {
                    assert_eq!(read(&packed, place), read(&record, place));
                }
                fs::remove_file(&out).unwrap();
            }
            status => {
                assert_eq!(status, 1, "seed {seed}");
                assert!(!Path::new(&out).exists(), "seed {seed}");
            }
        }
    }
}

// ---- writing from a job

/// The record of `job.json`, by the judge.
fn job_record() -> Vec<u8> {
    record_with([1, 2])
}

/// The same with the leads at these places of `limb-leads.scp`.
fn record_with(places: [usize; 2]) -> Vec<u8> {
    let leads = sample("limb-leads.scp");
    let samples: Vec<i16> = places
        .map(|place| scp::samples(&leads, place).unwrap().1)
        .concat();
    let mut fields = vec![2, 4, 0, b'0', b'0', b'7', 0];
    fields.extend([14, 0, 0, 25, 4, 0, 0xE8, 7, 3, 14, 26, 3, 0, 9, 26, 53]);
    fields.extend([30, 8, 0]);
    fields.extend(b"Made up\0");
    fields.extend([255, 0, 0]);
    let writing = Writing {
        section1: &fields,
        section2: &[0x1F, 0x4E],
        version: 13,
        flags: 0,
        step: 5000,
        interval: 2000,
        order: 2,
        firsts: &[1, 1],
        counts: &[40, 40],
        ids: &[1, 2],
        samples: &samples,
    };
    judge::write_record(&writing, 40, scp::RECORD_MAX).unwrap()
}

#[test]
fn a_job_is_written_and_read_back() {
    let folder = Folder::new("written");
    let out = folder.path("out.scp");
    let ran = run(&["write", "job.json", &out]);
    assert_eq!((ran.status, ran.err.as_str()), (0, ""));
    let line = format!("{out}: written (320 bytes; 2 leads, 80 samples)\n");
    assert_eq!(ran.out, line);
    assert_eq!(fs::read(&out).unwrap(), job_record());
    assert_eq!(folder.names(), ["out.scp"]);
    let ran = run(&["samples", &out, "--csv"]);
    assert_eq!(ran.out.as_bytes(), sample("job.csv"));
}

/// The example in docs/JOBS.md is the one in samples/.
#[test]
fn the_example_is_the_sample() {
    let docs = Path::new(env!("CARGO_MANIFEST_DIR")).join("../../docs/JOBS.md");
    let page = fs::read_to_string(docs).unwrap();
    let job = String::from_utf8(sample("job.json")).unwrap();
    assert!(page.contains(&format!("```json\n{job}```\n")));
}

/// The tool says of wrong jobs what docs/JOBS.md says.
#[test]
fn the_examples_of_wrong_jobs_are_true() {
    let docs = Path::new(env!("CARGO_MANIFEST_DIR")).join("../../docs/JOBS.md");
    let page = fs::read_to_string(docs).unwrap();
    let folder = Folder::new("wrong-jobs");
    for (job, csv) in [
        (&[["\"version\": 13", "\"version\": 300"]][..], &[][..]),
        (&[], &[["\n6,1,1", "\n6,1,40000"]]),
        (&[["_order\": 2", "_order\": 3"]], &[]),
    ] {
        let ran = changed(&folder, job, csv);
        let told = format!("{}{}", ran.out, ran.err).replace(&folder.path(""), "");
        assert!(page.contains(&told), "{told}");
    }
}

#[test]
fn a_job_may_come_by_standard_input() {
    let folder = Folder::new("by-input");
    let out = folder.path("out.scp");
    let job = File::open(samples().join("job.json")).unwrap();
    let output = tool().args(["write", "-", &out]).stdin(job).output();
    let ran = Ran::from(output.unwrap());
    assert_eq!((ran.status, ran.err.as_str()), (0, ""));
    assert_eq!(fs::read(&out).unwrap(), job_record());
}

/// Texts put for others, one after another.
type Changes<'a> = &'a [[&'a str; 2]];

/// `job.json` with these changes, beside `job.csv` with those, written to `out.scp`.
fn changed(folder: &Folder, job: Changes, csv: Changes) -> Ran {
    let change = |name: &str, changes: Changes| {
        let mut text = String::from_utf8(sample(name)).unwrap();
        for [from, to] in changes {
            assert!(text.contains(from), "{from}");
            text = text.replacen(from, to, 1);
        }
        folder.file(name, text.as_bytes())
    };
    let file = change("job.json", job);
    change("job.csv", csv);
    run(&["write", &file, &folder.path("out.scp")])
}

/// The leads of every command are those of the job, also by other tables, in spans of their own.
#[test]
fn jobs_may_say_many_things() {
    let folder = Folder::new("many");
    let one_table = "\"01 00 02 00 01 01 01 00 00 00 00 00 00 01 11 01 00 00 01 00 00 00\"";
    let later = "\"name\": \"I\", \"first_sample\": 2";
    let cases: [(Changes, Changes, &str); 9] = [
        (&[["\"default\"", "\"none\""]], &[], "1   1  I  "),
        (&[["\"default\"", one_table]], &[], "1   1  I  "),
        (&[["\"flags\": 0", "\"flags\": 254"]], &[], "flags 0xFE"),
        (&[["_order\": 2", "_order\": 1"]], &[], "2000      1"),
        (
            &[["\"name\": \"I\"", "\"id\": 1, \"name\": \"I\""]],
            &[],
            "1   1  I  ",
        ),
        (&[["\"name\": \"II\"", "\"id\": 2"]], &[], "2   2  II "),
        (&[[", \"first_sample\": 1", ""]], &[], "2   2  II "),
        (
            &[["\"name\": \"I\", \"first_sample\": 1", later]],
            &[["\r\n1,0,0", "\r\n1,,0"]],
            "      2    40       39",
        ),
        (&[], &[["1 I (5000 nV)", "I"]], "1   1  I  "),
    ];
    for (job, csv, leads) in cases {
        let ran = changed(&folder, job, csv);
        assert_eq!((ran.status, ran.err.as_str()), (0, ""), "{job:?}");
        let out = folder.path("out.scp");
        let ran = run(&["leads", &out]);
        assert!(ran.out.contains(leads), "{job:?}: {leads}\n{}", ran.out);
        assert_eq!(run(&["samples", &out]).status, 0);
        fs::remove_file(out).unwrap();
    }
}

/// The replacements in the job, and what is said of each.
const WRONG_JOBS: [([&str; 2], &str); 26] = [
    (
        ["{\n", "{{\n"],
        "job.json: line 1, column 2: key must be a string",
    ),
    (
        ["13", "256"],
        "job.json: line 10, column 16: 256 is outside 0 to 255",
    ),
    (
        ["13", "-1"],
        "job.json: line 10, column 15: -1 is outside 0 to 255",
    ),
    (
        ["5000", "65536"],
        "job.json: line 12, column 25: 65536 is outside 0 to 65535",
    ),
    (["2000", "1e9"], "1000000000 is outside 0 to 65535"),
    (
        ["13", "1.3"],
        "1.3 is not written as a whole number from 0 to 255",
    ),
    (["13", "\"13\""], "expected a whole number from 0 to 255"),
    (
        ["\"tag\": 30", "\"tag\": 300"],
        "job.json: line 7, column 16: 300 is outside 0 to 255",
    ),
    (["\"tag\": 30", "\"tag\": 255"], "tag 255 is the end mark"),
    (["\"tag\": 30, ", ""], "missing field `tag`"),
    (
        ["E8 07", "E8 7"],
        "line 5, column 38: \"7\" is not pairs of hex digits",
    ),
    (["Made up", "Gem\u{e4}cht"], "the letter 'ä' is not ASCII"),
    (
        ["\"007\"", "\"007\", \"hex\": \"\""],
        "tag 2 has either a text or hex",
    ),
    (
        ["\"default\"", "\"huffman\""],
        "\"huffman\" is not pairs of hex digits",
    ),
    (
        ["\"default\"", "\"\""],
        "the tables are \"default\", \"none\", or hex",
    ),
    (
        ["\"flags\": 0", "\"flags\": 1"],
        "a reference beat was subtracted, and none is",
    ),
    (["\"flags\": 0,", ""], "missing field `flags`"),
    (
        ["\"flags\": 0,", "\"flags\": 0, \"flags\": 0,"],
        "duplicate field `flags`",
    ),
    (["\"flags\"", "\"Flags\""], "unknown field `Flags`"),
    (["\"I\"", "\"IV\""], "no lead is called \"IV\""),
    (
        ["\"name\": \"I\"", "\"id\": 2, \"name\": \"I\""],
        "ID 2 is II, not \"I\"",
    ),
    (["\"name\": \"I\", ", ""], "a lead has an id or a name"),
    (
        ["_sample\": 1", "_sample\": 4294967296"],
        "4294967296 is outside 0 to 4294967295",
    ),
    (
        ["_sample\": 1", "_sample\": 2"],
        "lead 1, I: first_sample is 2, and its first sample has number 1",
    ),
    (
        ["job.csv", "none.csv"],
        "none.csv: No such file or directory",
    ),
    (
        ["{ \"name\": \"I\", \"first_sample\": 1 },", ""],
        "2 columns stand after the sample numbers, for 1 leads",
    ),
];

/// The same in the table of samples.
const WRONG_TABLES: [([&str; 2], &str); 6] = [
    (["\r\n7,", "\r\n7,x"], "job.csv: line 8, column 2: \"x"),
    (["\r\n7,", "\r\n7,99999"], "is outside -32768 to 32767"),
    (
        ["\r\n7,", "\r\n6,"],
        "job.csv: line 8, column 1: sample 6 comes after 6",
    ),
    (
        ["\r\n7,", "\r\n7,7,"],
        "job.csv: line 8: it has 4 cells, and line 1 has 3",
    ),
    (
        ["1 I (5000", "1 I (4000"],
        "job.csv: line 1, column 2: the head is \"1 I (4000 nV)\"",
    ),
    (
        ["sample,1 I (5000 nV)", "sample"],
        "job.csv: line 1: 1 columns stand after the sample numbers, for 2 leads",
    ),
];

/// Anything that is not understood is reported with its place, and nothing is written.
#[test]
fn what_a_job_says_wrongly_is_told() {
    let folder = Folder::new("wrong");
    let in_jobs = WRONG_JOBS.map(|(change, told)| (vec![change], Vec::new(), told));
    let in_tables = WRONG_TABLES.map(|(change, told)| (Vec::new(), vec![change], told));
    for (job, csv, told) in in_jobs.into_iter().chain(in_tables) {
        let ran = changed(&folder, &job, &csv);
        assert_eq!((ran.status, ran.out.as_str()), (2, ""), "{told}");
        assert!(ran.err.contains(told), "{told}\n{}", ran.err);
        assert!(ran.err.starts_with("tigmavresh: ") && ran.err.lines().count() == 1);
        assert_eq!(folder.names(), ["job.csv", "job.json"], "{told}");
    }
    let ran = run(&["write", "none.json", &folder.path("out.scp")]);
    assert_eq!(ran.status, 2);
    assert_eq!(
        ran.err,
        "tigmavresh: none.json: No such file or directory\n"
    );
}

/// A job that is understood and breaks a rule is refused by the library, and the findings are reported.
const ONE_CODE: &str = "\"01 00 01 00 01 01 01 00 00 00 00 00 00\"";
const NO_FIRST: [&str; 2] = [", \"first_sample\": 1", ""];

/// Changes of a job and of its samples, the refusal, and what is found.
const REFUSED: [(Changes, Changes, u8, &str); 12] = [
    (
        &[["\"tag\": 26", "\"tag\": 27"]],
        &[],
        6,
        "there is no tag 26",
    ),
    (
        &[["\"tag\": 30", "\"tag\": 2"]],
        &[],
        6,
        "tag 2 occurs 2 times, not once",
    ),
    (
        &[["\"007\"", "\"00\\u00007\""]],
        &[],
        6,
        "tag 2 has a NUL as byte 3 of 5",
    ),
    (
        &[["09 1A 35", "09 1A"]],
        &[],
        6,
        "tag 26 has length 2, not 3",
    ),
    (
        &[["default", "1F 4E 00"]],
        &[],
        7,
        "1 byte after the code tables, where none may be",
    ),
    (
        &[["default", "09 00"]],
        &[],
        7,
        "the number of tables is 9, not 1 to 8",
    ),
    (
        &[["\"default\"", ONE_CODE]],
        &[],
        15,
        "lead 1, I: no code for its difference",
    ),
    // the difference, not the sample
    (
        &[["\"default\"", "\"none\""]],
        &[
            ["\n1,0,0", "\n1,-32768,0"],
            ["\n2,0,0", "\n2,32767,0"],
            ["\n3,0,0", "\n3,-32768,0"],
        ],
        15,
        "lead 1, I: no code for its difference of order 2 at sample 3, -131,070\n",
    ),
    (
        &[["_order\": 2", "_order\": 3"]],
        &[],
        17,
        "the order is 3, not 0 to 2",
    ),
    (
        &[["5000", "0"]],
        &[["1 I (5000 nV),2 II (5000 nV)", "I,II"]],
        17,
        "the step is 0",
    ),
    (&[["2000", "0"]], &[], 17, "the interval is 0"),
    (
        &[NO_FIRST, NO_FIRST],
        &[["\r\n1,0,0", "\r\n0,0,0\r\n1,0,0"]],
        17,
        "lead 1, I: its first sample has number 0",
    ),
];

#[test]
fn a_job_that_is_refused_is_explained() {
    let folder = Folder::new("job-refused");
    for (job, csv, number, found) in REFUSED {
        let ran = changed(&folder, job, csv);
        assert_refused(&folder, &ran, number, found);
    }
}

#[track_caller]
fn assert_refused(folder: &Folder, ran: &Ran, number: u8, found: &str) {
    assert_eq!((ran.status, ran.err.as_str()), (1, ""), "{found}");
    let line = format!("{}: refused, number {number}", folder.path("job.json"));
    assert_eq!(ran.first_line(), line);
    assert!(ran.out.contains(found), "{found}\n{}", ran.out);
    assert!(ran.out.contains(NOTE));
    assert_eq!(folder.names(), ["job.csv", "job.json"]);
}

/// Writes `leads` leads of `count` samples, all 0 and without code tables.
fn written(folder: &Folder, leads: usize, count: usize) -> Ran {
    let text = String::from_utf8(sample("job.json")).unwrap();
    let ids: Vec<String> = (1..=leads).map(|id| format!("{{\"id\": {id}}}")).collect();
    let start = text.find("\"leads\"").unwrap();
    let end = text.find("\"samples\"").unwrap();
    let text = format!(
        "{}\"leads\": [{}],\n  {}",
        &text[..start],
        ids.join(", "),
        &text[end..]
    );
    let file = folder.file("job.json", text.replace("default", "none").as_bytes());
    let names = (1..=leads).map(|id| names(id as u8));
    let head: Vec<String> = ["sample".to_string()].into_iter().chain(names).collect();
    let mut table = head.join(",");
    for number in 1..=count {
        table.push_str(&format!("\n{number}"));
        table.push_str(&",0".repeat(leads));
    }
    folder.file("job.csv", table.as_bytes());
    run(&["write", &file, &folder.path("out.scp")])
}

/// A lead that is too long for its stream, and leads that are too long for the record.
#[test]
fn a_job_that_is_too_long_is_refused() {
    let folder = Folder::new("too-long");
    let job = |leads, count| written(&folder, leads, count);
    let found = "lead 1, I: its shortest stream has 65,536 bytes, over 65,535";
    assert_refused(&folder, &job(1, 32_768), 16, found);
    let found = "the record would have 1,048,956 bytes, over 1,048,576";
    assert_refused(&folder, &job(16, 32_767), 16, found);
    let found = "lead 2, II: it has 65,537 samples, not 1 to 65,536";
    assert_refused(&folder, &job(2, 65_537), 17, found);
    let found = "there are 33 leads, not 1 to 32";
    assert_refused(&folder, &job(33, 1), 17, found);
    let found = "there are 0 leads, not 1 to 32";
    assert_refused(&folder, &job(0, 0), 17, found);
}

/// The longest stream, and numbers as the rules have them.
#[test]
fn long_numbers_are_parted() {
    let folder = Folder::new("parted");
    let (written, out) = (written(&folder, 1, 32_767), folder.path("out.scp"));
    let bytes = fs::read(&out).unwrap().len();
    let bytes = format!("{},{:03} bytes", bytes / 1000, bytes % 1000);
    let line = format!("{out}: written ({bytes}; 1 lead, 32,767 samples)\n");
    assert_eq!((written.status, written.out), (0, line));
    let packed = run(&["pack", &out, &folder.path("packed.scp")]);
    assert!(
        packed.first_line().contains(&format!(" ({bytes}, now ")),
        "{}",
        packed.out
    );
}

/// The name of a lead of these few IDs.
fn names(id: u8) -> String {
    match id {
        1 => "I".to_string(),
        2 => "II".to_string(),
        3..=9 => format!("V{}", id - 2),
        10..=15 => format!("V{}R", id - 8),
        16 => "X".to_string(),
        17 => "Y".to_string(),
        18 => "Z".to_string(),
        19 => "CC5".to_string(),
        20 => "CM5".to_string(),
        21 => "left arm".to_string(),
        22 => "right arm".to_string(),
        23 => "left leg".to_string(),
        24..=30 => format!(
            "Frank {}",
            ["I", "E", "C", "A", "M", "F", "H"][id as usize - 24]
        ),
        _ => format!("{}-cal", names(id - 30)),
    }
}
