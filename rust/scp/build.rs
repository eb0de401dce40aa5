//! Links the proved archive, `libscp.a`.
//!
//! It is in `target/staticlib` of the repository once `scripts/archive` has been run there. The environment
//! variable `SCP_ARCHIVE_DIR` names another folder to take it from.

use std::env;
use std::path::PathBuf;
use std::process::exit;

const ARCHIVE: &str = "libscp.a";

fn main() {
    println!("cargo:rerun-if-env-changed=SCP_ARCHIVE_DIR");
    let folder = archive_folder();
    let archive = folder.join(ARCHIVE);
    println!("cargo:rerun-if-changed={}", archive.display());
    if !archive.is_file() {
        eprintln!(
            "there is no {ARCHIVE} in {}: run `scripts/archive` in the repository, \
             or set SCP_ARCHIVE_DIR to the folder that has it",
            folder.display()
        );
        exit(1);
    }
    println!("cargo:rustc-link-search=native={}", folder.display());
    println!("cargo:rustc-link-lib=static=scp");
}

/// The folder that `SCP_ARCHIVE_DIR` names, else `target/staticlib` of the repository.
fn archive_folder() -> PathBuf {
    match env::var_os("SCP_ARCHIVE_DIR") {
        Some(folder) if !folder.is_empty() => PathBuf::from(folder),
        _ => package_folder().join("../../target/staticlib"),
    }
}

/// The folder of this package: where it is now, and not where this program was compiled.
fn package_folder() -> PathBuf {
    PathBuf::from(env::var_os("CARGO_MANIFEST_DIR").expect("cargo names it"))
}
