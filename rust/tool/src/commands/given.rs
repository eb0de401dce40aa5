//! The one file that a command is given.

use std::path::Path;

use crate::input::{self, Input};
use crate::json;
use crate::output::Output;

/// Reads a file, or standard input; if it cannot be read, that is complained of, and is said in JSON where that is asked for.
pub fn read_or_complain(path: &Path, json: bool, output: &mut Output) -> Option<Input> {
    let complain = |error| {
        if json {
            output.line(json::text(&json::unread(path, &error)));
        }
        output.complain(path, &error);
    };
    input::read(path).map_err(complain).ok()
}
