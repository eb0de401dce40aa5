//! Whether standard output was closed when the tool was started.

use std::io;
use std::os::fd::AsFd;
use std::sync::atomic::{AtomicBool, Ordering};

/// The system's number for a descriptor that is not open.
const NOT_OPEN: i32 = 9;

/// Whether standard output was closed.
static CLOSED: AtomicBool = AtomicBool::new(false);

/// Before `main` Rust's runtime opens /dev/null in the place of a standard descriptor that is closed, and nothing shows that
/// it did. The system calls this one earlier.
#[used]
#[link_section = ".init_array"]
static LOOK: extern "C" fn() = look;

extern "C" fn look() {
    let copied = io::stdout().as_fd().try_clone_to_owned();
    let closed = copied.is_err_and(|error| error.raw_os_error() == Some(NOT_OPEN));
    CLOSED.store(closed, Ordering::Relaxed);
}

/// An error if there is no standard output to write to.
pub fn fail_if_closed() -> io::Result<()> {
    match CLOSED.load(Ordering::Relaxed) {
        true => Err(io::Error::other("it is closed")),
        false => Ok(()),
    }
}
