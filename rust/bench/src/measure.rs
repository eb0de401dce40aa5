//! Measuring two ways to do the same work, side by side.
//!
//! The time is what the processor spent on this thread, so that other programs on the same machine take less away from the
//! figures; where other processes do the work, it is the time that passed.

use std::ffi::{c_int, c_long};

/// The work of a round lasts at least this many seconds, over and over if need be.
const ROUND: f64 = 0.002;
/// Where all of a line takes more seconds than this for the work once, there are few rounds.
const LONG: f64 = 0.2;
const FEW: usize = 5;

/// Lines of what was measured, shown as they come.
pub struct Table {
    rounds: usize,
}

/// The clock that is read before and after the work.
#[derive(Clone, Copy)]
pub enum Clock {
    /// The time that the processor has spent on this thread, `CLOCK_THREAD_CPUTIME_ID` of Linux.
    Thread = 3,
    /// The time that has passed, `CLOCK_MONOTONIC` of Linux.
    Wall = 1,
}

impl Table {
    /// Starts with the heading.
    pub fn new(rounds: usize) -> Table {
        println!(
            "{:<50} {:>11} {:>11} {:>7}  library's rate",
            "", "library", "plain", "ratio"
        );
        Table { rounds }
    }

    /// Measures the library and plain Rust by the processor's time; the seconds that the library takes.
    pub fn line(
        &mut self,
        name: &str,
        amount: (usize, &str),
        library: impl FnMut(),
        plain: impl FnMut(),
    ) -> f64 {
        let sides = [Side::new(library), Side::new(plain)];
        self.line_by(Clock::Thread, name, amount, sides)
    }

    /// Measures the library's side and the plain one in turns, and shows the time that each takes for the work once, their
    /// ratio (over 1: the library takes longer), and how much of some unit the library does in a second. The answer is the
    /// library's time.
    pub fn line_by(
        &mut self,
        clock: Clock,
        name: &str,
        (amount, unit): (usize, &str),
        mut sides: [Side; 2],
    ) -> f64 {
        let mut works: Vec<&mut Work> = sides.iter_mut().flat_map(Side::works).collect();
        let once: f64 = works.iter_mut().map(|work| work.warm_up(clock)).sum();
        let number = match once > LONG {
            true => self.rounds.min(FEW),
            false => self.rounds,
        };
        for _ in 0..number {
            works.iter_mut().for_each(|work| work.round(clock));
        }
        let [library, plain] = sides.map(Side::seconds);
        println!(
            "{name:<50} {:>11} {:>11} {:>7.2}  {:.1} {unit}/s",
            shown(library),
            shown(plain),
            library / plain,
            amount as f64 / library / 1e6
        );
        library
    }

    /// Says why a line is left out.
    pub fn left_out(&mut self, name: &str, why: &str) {
        println!("{name:<50} left out: {why}");
    }
}

/// A side of a line: work, and what is taken away from its time.
pub struct Side<'a> {
    work: Work<'a>,
    aside: Option<Work<'a>>,
}

impl<'a> Side<'a> {
    /// All of the work.
    pub fn new(work: impl FnMut() + 'a) -> Side<'a> {
        Side {
            work: Work::new(work),
            aside: None,
        }
    }

    /// The work without a part of it that cannot be left out, and is measured by itself.
    pub fn without(self, aside: impl FnMut() + 'a) -> Side<'a> {
        Side {
            aside: Some(Work::new(aside)),
            ..self
        }
    }

    fn works(&mut self) -> impl Iterator<Item = &mut Work<'a>> {
        std::iter::once(&mut self.work).chain(&mut self.aside)
    }

    /// The median of what the work takes once, less that of what is taken away.
    fn seconds(self) -> f64 {
        median(self.work.seconds) - self.aside.map_or(0.0, |aside| median(aside.seconds))
    }
}

/// Work that is measured in rounds.
struct Work<'a> {
    work: Box<dyn FnMut() + 'a>,
    /// How often it is done in a round.
    times: u32,
    /// The seconds that it took once, of each round.
    seconds: Vec<f64>,
}

impl<'a> Work<'a> {
    fn new(work: impl FnMut() + 'a) -> Work<'a> {
        Work {
            work: Box::new(work),
            times: 1,
            seconds: Vec::new(),
        }
    }

    /// Finds how often the work is to be done in a round; the seconds that it takes once.
    fn warm_up(&mut self, clock: Clock) -> f64 {
        loop {
            let once = self.time(clock);
            if once * f64::from(self.times) >= ROUND {
                return once;
            }
            self.times *= 2;
        }
    }

    /// Measures a round.
    fn round(&mut self, clock: Clock) {
        let once = self.time(clock);
        self.seconds.push(once);
    }

    /// The seconds that the work takes once, if it is done as often as in a round.
    fn time(&mut self, clock: Clock) -> f64 {
        let start = now(clock);
        (0..self.times).for_each(|_| (self.work)());
        (now(clock) - start) / f64::from(self.times)
    }
}

/// `struct timespec` of C, on a Linux of 64 bits.
#[repr(C)]
struct Timespec {
    seconds: c_long,
    nanoseconds: c_long,
}

extern "C" {
    fn clock_gettime(clock: c_int, time: *mut Timespec) -> c_int;
}

/// The seconds on a clock.
fn now(clock: Clock) -> f64 {
    let mut time = Timespec {
        seconds: 0,
        nanoseconds: 0,
    };
    // SAFETY: the call writes a time to the place that is lent for it, and nothing else.
    let failed = unsafe { clock_gettime(clock as c_int, &mut time) };
    assert_eq!(failed, 0, "there is no such clock");
    time.seconds as f64 + time.nanoseconds as f64 * 1e-9
}

fn median(mut times: Vec<f64>) -> f64 {
    times.sort_by(f64::total_cmp);
    let middle = times.len() / 2;
    match times.len() % 2 {
        1 => times[middle],
        _ => (times[middle - 1] + times[middle]) / 2.0,
    }
}

/// Seconds in the unit that suits them.
pub fn shown(seconds: f64) -> String {
    match seconds {
        s if s < 1e-6 => format!("{:.1} ns", s * 1e9),
        s if s < 1e-3 => format!("{:.1} us", s * 1e6),
        s if s < 1.0 => format!("{:.2} ms", s * 1e3),
        s => format!("{s:.2} s"),
    }
}
