//! Showing how far the work on many files is.

use std::thread;

use indicatif::{ProgressBar, ProgressStyle};

use crate::files::Listed;

/// The line that a terminal shows until the files are counted, and the bar that it shows afterwards.
const COUNTING: &str = "{spinner} files so far: {pos}";
const BAR: &str = "{bar:40} {pos} of {len} files, {eta} left";

/// The bar that shows how far the work is, on a terminal and for more than one file; else one that is never drawn. A thread
/// counts the files meanwhile, and until it has there is no total.
pub fn bar<F>(files: impl Fn() -> F + Send + 'static) -> ProgressBar
where
    F: Iterator<Item = Listed>,
{
    let counted = move || files().filter(Listed::is_counted);
    let bar = ProgressBar::new_spinner();
    if bar.is_hidden() || counted().take(2).count() < 2 {
        return ProgressBar::hidden();
    }
    set_style(&bar, COUNTING);
    let total = bar.clone();
    thread::spawn(move || {
        total.set_length(counted().count() as u64);
        set_style(&total, BAR);
    });
    bar
}

/// Makes a bar look like this.
fn set_style(bar: &ProgressBar, template: &str) {
    if let Ok(style) = ProgressStyle::with_template(template) {
        bar.set_style(style);
    }
}
