//! Being interrupted (SIGINT, Ctrl-C).

use std::io;
use std::sync::atomic::{AtomicBool, Ordering};
use std::sync::Arc;
use std::thread;

use signal_hook::consts::SIGINT;
use signal_hook::flag;
use signal_hook::iterator::Signals;

use crate::status::Status;

/// Calls a function at the first interruption, and ends the tool at the second.
pub fn at_first(act: impl FnOnce() + Send + 'static) -> io::Result<()> {
    let again = Arc::new(AtomicBool::new(false));
    flag::register_conditional_shutdown(SIGINT, Status::Interrupted as i32, Arc::clone(&again))?;
    let mut signals = Signals::new([SIGINT])?;
    thread::spawn(move || {
        if signals.forever().next().is_some() {
            again.store(true, Ordering::Relaxed);
            act();
        }
    });
    Ok(())
}
