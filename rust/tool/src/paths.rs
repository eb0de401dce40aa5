//! The names of files, on the command line and as they are shown.

use std::path::Path;

use crate::escape::escaped;

/// The name of standard input on the command line.
const STANDARD_INPUT: &str = "-";

/// The names that standard input and standard output are shown by.
const INPUT: &str = "standard input";
pub const OUTPUT: &str = "standard output";

/// Whether a path is the name of standard input.
pub fn is_standard(path: &Path) -> bool {
    path.as_os_str() == STANDARD_INPUT
}

/// The name of a file as it is shown: one line, whatever characters it has, and no two names alike.
pub fn shown(file: &Path) -> String {
    if is_standard(file) {
        return INPUT.to_string();
    }
    let name = escaped(file.as_os_str().as_encoded_bytes());
    match [INPUT, OUTPUT].contains(&name.as_str()) {
        true => name.replace(' ', "\\x20"),
        false => name,
    }
}

/// The name of a file that is written, as it is shown.
pub fn shown_target(file: &Path) -> String {
    match is_standard(file) {
        true => OUTPUT.to_string(),
        false => shown(file),
    }
}

#[cfg(test)]
mod tests {
    use std::ffi::OsStr;
    use std::os::unix::ffi::OsStrExt;
    use std::path::Path;

    use super::shown;

    #[test]
    fn a_name_is_one_line() {
        assert_eq!(shown(Path::new("a b.scp")), "a b.scp");
        assert_eq!(shown(Path::new("a\n\u{1b}[1m.scp")), "a\\n\\u{1b}[1m.scp");
        assert_eq!(shown(Path::new("-")), "standard input");
        assert_eq!(shown(Path::new("./-")), "./-");
        assert_eq!(shown(Path::new("standard input")), "standard\\x20input");
        assert_eq!(shown(Path::new("a\\n.scp")), "a\\\\n.scp");
        assert_eq!(shown(Path::new("\u{202e}pcs.a")), "\\u{202e}pcs.a");
        let latin = OsStr::from_bytes(b"M\xFCller\xC3.scp");
        assert_eq!(shown(Path::new(latin)), "M\\xFCller\\xC3.scp");
    }
}
