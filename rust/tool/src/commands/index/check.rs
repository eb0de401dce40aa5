//! `tigmavresh index check INDEX`: whether a file is an index.

use std::path::Path;

use super::{judged, read_or_complain};
use crate::filed::Extent;
use crate::json;
use crate::output::Output;
use crate::paths::shown;
use crate::status::Status;

/// Shows whether a file is an index: how much it holds, or why it is refused.
pub fn run(index: &Path, json: bool, output: &mut Output) -> Status {
    let Some(input) = read_or_complain(index, json, output) else {
        return Status::NotDone;
    };
    let refused = judged(&input.bytes).err();
    let extent = refused.is_none().then(|| Extent::of(&input.bytes));
    match (&refused, &extent) {
        _ if json => {
            let about = json::About::judged(index, input.size, refused.as_ref());
            let content = extent.as_ref().map(json::Extended::from);
            output.line(json::line(&about.holding(content).noted()));
        }
        (None, Some(extent)) => {
            let (name, size, extent) = (shown(index), input.size, extent.told());
            output.line(format_args!("{name}: accepted ({size}; {extent})"));
        }
        (Some(refused), _) => output.lines(refused.text(index, &input)),
        (None, None) => {}
    }
    match refused {
        None => Status::Accepted,
        Some(_) => Status::Refused,
    }
}
