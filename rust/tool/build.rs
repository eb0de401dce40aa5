//! Tells the tool what was proved, for its version: the commit of the library's sources, and the kit.
//!
//! A build needs neither git nor the kit: what is not there is unknown.

use std::env;
use std::fs;
use std::path::{Path, PathBuf};
use std::process::Command;

/// What the library is made of.
const SOURCES: [&str; 2] = ["crates", "crates.txt"];

fn main() {
    // where the package is now, and not where this program was compiled
    let package = env::var_os("CARGO_MANIFEST_DIR").expect("cargo names it");
    let top = PathBuf::from(package).join("../..");
    watch(&top);
    let commit = commit(&top).unwrap_or_else(|| "unknown".to_string());
    let kit = said(&top, "rt", &["version"]).filter(|kit| !kit.is_empty());
    let kit = kit.unwrap_or_else(|| "kit unknown".to_string());
    println!("cargo:rustc-env=TIGMAVRESH_COMMIT={commit}");
    println!("cargo:rustc-env=TIGMAVRESH_KIT={kit}");
}

/// Has this run again when the commit changes, the sources, or the archive that was made of them. A file that is missing is not
/// watched, since that would be a change each time.
fn watch(top: &Path) {
    println!("cargo:rerun-if-changed=build.rs");
    let made = SOURCES.iter().chain(&["target/staticlib/libscp.a"]);
    let made = made.map(|name| top.join(name));
    for path in commit_files(&top.join(".git")).into_iter().chain(made) {
        if path.exists() {
            println!("cargo:rerun-if-changed={}", path.display());
        }
    }
}

/// What changes when the commit does, and not when another branch is made: HEAD and the file of the branch that it names. A
/// branch may have no file, and be in packed-refs; its next commit makes the file.
pub fn commit_files(git: &Path) -> Vec<PathBuf> {
    let head = git.join("HEAD");
    let named = fs::read_to_string(&head).unwrap_or_default();
    let Some(branch) = named.strip_prefix("ref: ") else {
        return vec![head];
    };
    let branch = git.join(branch.trim_end());
    match branch.exists() {
        true => vec![head, branch],
        false => vec![head, git.join("packed-refs"), git.join("refs/heads")],
    }
}

/// The commit, marked if the library's sources are not those of it.
fn commit(top: &Path) -> Option<String> {
    // this folder's own, and not that of one around it
    let git = |words: &[&str]| {
        let folder = ["--no-optional-locks", "--git-dir=.git", "--work-tree=."];
        said(top, "git", &[&folder, words].concat())
    };
    let commit = git(&["rev-parse", "--short", "HEAD"])?;
    let status = [&["status", "--porcelain", "--"][..], &SOURCES].concat();
    match git(&status)?.as_str() {
        "" => Some(commit),
        _ => Some(commit + "-changed"),
    }
}

/// The first line that a program says in a folder, if it is there and succeeds.
fn said(folder: &Path, program: &str, words: &[&str]) -> Option<String> {
    let mut command = Command::new(program);
    let output = command.args(words).current_dir(folder).output().ok()?;
    let said = String::from_utf8(output.stdout).ok()?;
    let line = said.lines().next().unwrap_or("").trim().to_string();
    output.status.success().then_some(line)
}
