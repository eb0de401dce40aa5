//! The same work on many files: side by side, with the answers in the order of the files, until all are done or the user
//! interrupts it.

use std::io;
use std::path::{Path, PathBuf};
use std::sync::atomic::{AtomicBool, Ordering};
use std::sync::Arc;

use crate::files::{self, Identity, Listed};
use crate::interrupt;
use crate::json;
use crate::ordered::{self, Ordered};
use crate::output::Output;
use crate::progress;
use crate::status::Status;
use crate::tally::Tally;
use crate::text::reason;

/// Said where no file was found, as in a folder that is not mounted.
const EMPTY: &str = "no files found; use --allow-empty if that is expected";

/// The most answers that wait for one that is not ready, so that others are worked on while one file is slow to read. An answer
/// holds no record, but a path and some words or bytes: so many of them take less memory than one long record.
const AHEAD: usize = 512;

/// The files, and how they are worked on.
pub struct Many {
    pub paths: Vec<PathBuf>,
    /// A file that is not one of them, if it is met.
    pub without: Option<Identity>,
    /// How many are worked on at once; else as many as there are cores.
    pub jobs: Option<u16>,
    /// Whether those that cannot be read are shown as JSON, too.
    pub json: bool,
}

/// The outcome of something that was listed.
enum Done<A> {
    /// The answer for a file, or why it could not be read.
    File(PathBuf, io::Result<A>),
    /// These were passed over.
    Link,
    Special,
}

impl<A> Done<A> {
    fn is_file(&self) -> bool {
        matches!(self, Done::File(..))
    }
}

impl Many {
    /// Does a piece of work on each file, with something of each worker's own, and hands its answers on in the order of the
    /// files. Those that could not be read are complained of here. All are counted, but for how those fared that were read.
    pub fn each<W: 'static, A: Send + 'static>(
        self,
        own: fn() -> W,
        work: fn(&mut W, &Path) -> io::Result<A>,
        mut take: impl FnMut(&Path, A, &mut Tally, &mut Output),
        output: &mut Output,
    ) -> Tally {
        let Many { jobs, json, .. } = self;
        let listed = move || self.listed();
        let workers = ordered::workers(jobs);
        let all = Ordered::start(workers, AHEAD, listed(), own, move |own, one| {
            done(one, |file| work(own, file))
        });
        let bar = progress::bar(listed);
        let is_interrupted = watch(&all, output);
        let mut tally = Tally::default();
        for some in all {
            let files = some.iter().filter(|one| one.is_file()).count();
            bar.suspend(|| {
                for one in some {
                    if let Some((file, answer)) = counted(one, json, &mut tally, output) {
                        take(&file, answer, &mut tally, output);
                    }
                }
                output.flush();
            });
            bar.inc(files as u64);
        }
        bar.finish_and_clear();
        tally.is_interrupted = is_interrupted.load(Ordering::Relaxed);
        tally
    }

    /// The files, looked up as they are asked for.
    fn listed(&self) -> impl Iterator<Item = Listed> + Send + 'static {
        let without = self.without;
        let is_one = move |listed: &Listed| match (listed, without) {
            (Listed::File(file), Some(other)) => !other.is_at(file),
            _ => true,
        };
        files::listed(self.paths.clone()).filter(is_one)
    }
}

/// Does a piece of work on what was listed, if it is a file.
fn done<A>(listed: Listed, work: impl FnOnce(&Path) -> io::Result<A>) -> Done<A> {
    match listed {
        Listed::File(file) => {
            let answer = work(&file);
            Done::File(file, answer)
        }
        Listed::Unread(file, error) => Done::File(file, Err(error)),
        Listed::Link => Done::Link,
        Listed::Special => Done::Special,
    }
}

/// Has the first interruption stop the work, and tells of it.
fn watch<A: Send + 'static>(all: &Ordered<A>, output: &mut Output) -> Arc<AtomicBool> {
    let is_interrupted = Arc::new(AtomicBool::new(false));
    let (interrupt, stop) = (Arc::clone(&is_interrupted), all.stop());
    let watched = interrupt::at_first(move || {
        interrupt.store(true, Ordering::Relaxed);
        stop();
    });
    if let Err(error) = watched {
        let words = format!("an interruption will show no summary: {}", reason(&error));
        output.remark(&[words]);
    }
    is_interrupted
}

/// A file and the answer for it. What was passed over is counted, and so is a file that could not be read, which is complained
/// of.
fn counted<A>(
    done: Done<A>,
    json: bool,
    tally: &mut Tally,
    output: &mut Output,
) -> Option<(PathBuf, A)> {
    match done {
        Done::Link => tally.links += 1,
        Done::Special => tally.special_files += 1,
        Done::File(file, Ok(answer)) => return Some((file, answer)),
        Done::File(file, Err(error)) => {
            tally.not_read += 1;
            if json {
                output.line(json::line(&json::unread(&file, &error)));
            }
            output.complain(&file, &error);
        }
    }
    None
}

/// The status of the worst file. That there was none is complained of, unless it is allowed.
pub fn status(tally: &Tally, allow_empty: bool, output: &mut Output) -> Status {
    let is_empty = tally.files() == 0 && !tally.is_interrupted;
    if is_empty && !allow_empty {
        output.remark(&[EMPTY.to_string()]);
        return Status::NotDone;
    }
    tally.status()
}
