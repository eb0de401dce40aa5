//! The tool about itself: refusals explained, its manual page, shells' completions, its version.

mod common;

/// The build script, which says when cargo is to build anew.
#[allow(dead_code)]
#[path = "../build.rs"]
mod build;

use std::fs;
use std::io::Write;
use std::os::unix::fs::symlink;
use std::path::{Path, PathBuf};
use std::process::{Command, Stdio};

use common::folder::Folder;
use common::{run, run_in, samples, Ran};
use scp::Refusal;
use walkdir::{DirEntry, WalkDir};

/// The commands, as the help lists them.
fn commands() -> Vec<String> {
    let help = run(&["--help"]).out;
    let list = help.lines().skip_while(|line| *line != "Commands:").skip(1);
    let names = list.take_while(|line| !line.is_empty());
    names
        .filter_map(|line| line.split_whitespace().next())
        .map(str::to_string)
        .collect()
}

/// The words of each command's help: the command, or the command and one of its own.
fn helped() -> Vec<Vec<String>> {
    let own = |command: String| match command.as_str() {
        "index" => ["add", "find", "list", "check"]
            .map(|own| vec![command.clone(), own.to_string()])
            .into(),
        _ => vec![vec![command]],
    };
    commands().into_iter().flat_map(own).collect()
}

/// Runs another program with this standard input, if it is there.
fn other(program: &str, words: &[&str], input: &str) -> Option<Ran> {
    let mut command = Command::new(program);
    command.args(words).stdin(Stdio::piped());
    command.stdout(Stdio::piped()).stderr(Stdio::piped());
    let Ok(mut child) = command.spawn() else {
        println!("there is no {program}");
        return None;
    };
    let mut to = child.stdin.take().unwrap();
    let _ = to.write_all(input.as_bytes());
    drop(to);
    let ran = Ran::from(child.wait_with_output().unwrap());
    // what an emulator says of a program that is not there
    Some(ran).filter(|ran| ran.status != 127)
}

#[test]
fn every_refusal_is_explained() {
    let mut names = Vec::new();
    for number in Refusal::all().map(Refusal::number) {
        let ran = run(&["--explain", &number.to_string()]);
        assert_eq!((ran.status, ran.err.as_str()), (0, ""));
        let name = ran
            .first_line()
            .strip_prefix(&format!("Refusal {number}: "));
        names.push(name.unwrap().to_string());
        assert!(ran.out.contains("\n\nFor example, "), "{}", ran.out);
        let given = [
            "\n\nGiven by ",
            "\n\nOnly programs that call the library see this.\n",
        ];
        assert_eq!(
            given.map(|words| ran.out.contains(words)),
            [number != 11, number == 11]
        );
    }
    let all = names.len();
    names.sort();
    names.dedup();
    assert_eq!((names.len(), all), (all, Refusal::all().count()));
    for number in ["0", "255", "256", "-1", "one", ""] {
        let ran = run(&[&format!("--explain={number}")]);
        assert_eq!((ran.status, ran.out.as_str()), (2, ""), "{number}");
        let words = ["no refusal has this number\n", "a value is required"];
        assert!(
            words.iter().any(|words| ran.err.contains(words)),
            "{}",
            ran.err
        );
    }
    assert_eq!(run(&["--explain", "1", "open", "007.scp"]).status, 2);
}

/// An explanation says of a sample what the tool finds there.
#[test]
fn explanations_are_true_of_the_samples() {
    for (number, facts) in [
        (1, &["372", "352"][..]),
        (2, &["0x5937", "0x5A44"]),
        (3, &["ID 128", "200"]),
        (4, &["Section 8", "Section 7"]),
        (5, &["Section 1", "0x5C64", "0x4C45"]),
        (6, &["no NUL at its end"]),
        (7, &["table 2", "prefix 101", "10"]),
        (8, &["10"]),
        (9, &["1000", "2000"]),
        (10, &["Section 6"]),
        (12, &["sample 13"]),
        (13, &["sample 6", "32,820"]),
        (14, &["20 bits are left"]),
    ] {
        let told = run(&["--explain", &number.to_string()]).out;
        let told = told.replace('\n', " ");
        let name = format!("refused-{number}.scp");
        assert!(told.contains(&format!("samples/{name}")), "{told}");
        let found = run(&["check", &name]).out;
        assert!(
            found.starts_with(&format!("{name}: refused, number {number}")),
            "{found}"
        );
        for fact in facts {
            assert!(told.contains(fact), "{fact}: {told}");
            assert!(found.contains(fact), "{fact}: {found}");
        }
    }
}

#[test]
fn the_manual_has_every_command() {
    let ran = run(&["man"]);
    assert_eq!((ran.status, ran.err.as_str()), (0, ""));
    assert!(
        ran.out.starts_with(".TH \"TIGMAVRESH\" \"1\""),
        "{}",
        ran.first_line()
    );
    let commands = commands();
    assert_eq!((commands.len(), helped().len()), (12, 15));
    let all = helped().into_iter().map(|words| words.join(" "));
    for command in all.chain(commands) {
        assert!(
            ran.out.contains(&format!("\n.SS \"{command}\"\n")),
            "{command}"
        );
    }
    // every option that a command's help has
    for command in helped() {
        let command = command.join(" ");
        let words: Vec<&str> = command.split(' ').chain(["--help"]).collect();
        let help = run(&words).out;
        let words = help
            .split_whitespace()
            .filter_map(|word| word.strip_prefix("--"));
        for option in words {
            let option = option.trim_end_matches([',', '.']).replace('-', "\\-");
            assert!(
                ran.out.contains(&format!("\\-\\-{option}")),
                "{command}: {option}"
            );
        }
    }
    assert_eq!(
        ran.out
            .matches("some of the work could not be done")
            .count(),
        1
    );
    assert_eq!(ran.out.matches("OUT was written").count(), 2);
}

/// The end of a command's help fits the command.
#[test]
fn the_help_of_a_command_is_its_own() {
    let (others, input) = ("stops the others.\n", "A FILE of - is standard input.");
    let own = ["add", "find", "list", "check"].map(|own| format!("index {own}"));
    for command in commands().into_iter().chain(own) {
        let words: Vec<&str> = command.split(' ').chain(["--help"]).collect();
        let help = run(&words).out;
        let words = command.as_str();
        let reads_index = ["index find", "index list", "index check"].contains(&words);
        let index = "An INDEX of - is standard input.";
        assert_eq!(help.contains(index), reads_index, "{help}");
        let many = ["open", "check"].contains(&words);
        assert_eq!(help.ends_with(others), many, "{help}");
        let reads = many || ["fields", "leads", "samples", "report"].contains(&words);
        assert_eq!(help.contains(input), reads, "{help}");
        let refuses = !["help", "man", "completions"].contains(&words);
        assert_eq!(help.contains("\n  1  "), refuses, "{help}");
        assert_eq!(help.matches("\nExit status:\n  0  ").count(), 1, "{help}");
    }
}

/// Each example of README.md is what the tool shows, and each command is there.
#[test]
fn the_readme_is_true() {
    let top = Path::new(env!("CARGO_MANIFEST_DIR")).join("../..");
    let readme = fs::read_to_string(top.join("README.md")).unwrap();
    let folder = Folder::new("readme");
    symlink(samples(), folder.path("samples")).unwrap();
    let mut examples = 0;
    for part in readme.split("`./tigmavresh ").skip(1) {
        let Some((words, text)) = part.split_once("` shows:\n\n```text\n") else {
            continue;
        };
        let words: Vec<&str> = words.split(' ').collect();
        let text = text.split_once("```").unwrap().0;
        assert_eq!(run_in(&folder, &words).out, text, "{words:?}");
        examples += 1;
    }
    assert!(examples >= 5, "{examples}");
    assert_eq!(readme.matches("```text\n").count(), examples);
    for command in commands() {
        let line = format!("\n./tigmavresh {command} ");
        assert!(readme.contains(&line), "{command}");
    }
}

/// The manual page is well formed, and is shown as text.
#[test]
fn the_manual_can_be_read() {
    let page = run(&["man"]).out;
    if let Some(ran) = other("groff", &["-man", "-ww", "-Tascii", "-P-cbou"], &page) {
        assert_eq!((ran.status, ran.err.as_str()), (0, ""));
        for words in [
            "tigmavresh - Opens, checks",
            "tigmavresh --explain N\n",
            "(bash, elvish, fish, powershell, zsh)",
            "tigmavresh check [OPTIONS] PATH...",
            "tigmavresh index add [OPTIONS] INDEX PATH...",
            "tigmavresh index merge [OPTIONS] INDEX OTHER...",
            "tigmavresh index find [OPTIONS] INDEX IDENTIFIER",
            "--jobs N",
        ] {
            assert!(ran.out.contains(words), "{words}\n{}", ran.out);
        }
    }
}

#[test]
fn shells_can_complete() {
    for shell in ["bash", "zsh", "fish"] {
        let ran = run(&["completions", shell]);
        assert_eq!((ran.status, ran.err.as_str()), (0, ""));
        for command in commands() {
            assert!(ran.out.contains(&command), "{shell}: {command}");
        }
        assert!(ran.out.contains("refused"), "{shell}");
        if let Some(read) = other(shell, &["-n"], &ran.out) {
            assert_eq!((read.status, read.err.as_str()), (0, ""), "{shell}");
        }
    }
    assert_eq!(run(&["completions", "none"]).status, 2);
}

/// The words that bash offers after `tigmavresh check --`, and after `tigmavresh re`.
#[test]
fn bash_completes_commands_and_options() {
    let completions = run(&["completions", "bash"]).out;
    for (words, offered) in [
        (
            "tigmavresh check --",
            &["--refused", "--json", "--jobs"][..],
        ),
        ("tigmavresh re", &["report"]),
        ("tigmavresh in", &["index"]),
        ("tigmavresh index ", &["add", "find", "list", "check"]),
        ("tigmavresh index list --", &["--csv", "--excel", "--json"]),
        ("tigmavresh --ex", &["--explain"]),
    ] {
        let last = words.split(' ').count() - 1;
        let ask = format!(
            "{completions}\nCOMP_WORDS=({words}); COMP_CWORD={last}\n\
             _tigmavresh tigmavresh \"${{COMP_WORDS[{last}]}}\" \"${{COMP_WORDS[{}]}}\"\n\
             printf '%s\\n' \"${{COMPREPLY[@]}}\"\n",
            last - 1
        );
        let Some(ran) = other("bash", &["-s"], &ask) else {
            return;
        };
        for one in offered {
            assert!(
                ran.out.lines().any(|line| line == *one),
                "{words}: {}{}",
                ran.out,
                ran.err
            );
        }
    }
}

/// Calls git in a folder.
fn git(folder: &Folder, words: &[&str]) {
    let name = [
        "-c",
        "user.name=Nobody",
        "-c",
        "user.email=nobody@localhost",
    ];
    let mut git = Command::new("git");
    git.args(name).args(words).current_dir(&folder.0);
    assert!(git.status().unwrap().success(), "{words:?}");
}

/// Each file that a build watches for the commit, also in a folder, and its bytes.
fn watched(folder: &Folder) -> Vec<(PathBuf, Vec<u8>)> {
    let files = build::commit_files(&folder.0.join(".git")).into_iter();
    let files = files.flat_map(|path| WalkDir::new(path).sort_by_file_name());
    let files = files.flatten().filter(|entry| entry.file_type().is_file());
    let with_bytes = |file: DirEntry| (file.path().to_path_buf(), fs::read(file.path()).unwrap());
    files.map(with_bytes).collect()
}

/// A commit changes what a build watches, and another branch does not, wherever git keeps the branch.
#[test]
fn a_build_follows_the_commit() {
    let folder = Folder::new("commits");
    let commit = || {
        git(
            &folder,
            &["commit", "-q", "--allow-empty", "-m", "A commit"],
        )
    };
    git(&folder, &["init", "-q"]);
    commit();
    let first = watched(&folder);
    git(&folder, &["branch", "other"]);
    assert_eq!(watched(&folder), first);
    commit();
    let second = watched(&folder);
    assert_ne!(second, first);
    git(&folder, &["pack-refs", "--all"]);
    let packed = watched(&folder);
    assert_ne!(packed, second);
    commit();
    assert_ne!(watched(&folder), packed);
    git(&folder, &["checkout", "-q", "--detach"]);
    let detached = watched(&folder);
    commit();
    assert_ne!(watched(&folder), detached);
}

/// The version names the commit and the kit, as they are asked for here.
#[test]
fn the_version_says_what_was_proved() {
    let top = Path::new(env!("CARGO_MANIFEST_DIR")).join("../..");
    let said = |program: &str, words: &[&str]| {
        let output = Command::new(program).args(words).current_dir(&top).output();
        let output = output.ok().filter(|output| output.status.success())?;
        let said = String::from_utf8(output.stdout).ok()?;
        Some(said.lines().next()?.to_string())
    };
    let git = [
        "--git-dir=.git",
        "--work-tree=.",
        "rev-parse",
        "--short",
        "HEAD",
    ];
    let commit = said("git", &git).unwrap_or_else(|| "unknown".to_string());
    let kit = said("rt", &["version"]).unwrap_or_else(|| "kit unknown".to_string());
    let ran = run(&["--version"]);
    assert_eq!(ran.status, 0);
    let version = env!("CARGO_PKG_VERSION");
    let expected = ["", "-changed"]
        .map(|mark| format!("tigmavresh {version} (commit {commit}{mark}, {kit})\n"));
    assert!(expected.contains(&ran.out), "{} {expected:?}", ran.out);
}
