//! Work on many things side by side, with the answers as soon as they are ready and in the order of the things.

use std::collections::BTreeMap;
use std::num::NonZero;
use std::sync::{Arc, Condvar, Mutex, MutexGuard, PoisonError};
use std::thread;

/// How many workers there are: those that were asked for, or as many as there are cores.
pub fn workers(asked: Option<u16>) -> usize {
    match asked {
        Some(workers) => workers.into(),
        None => thread::available_parallelism().map_or(1, NonZero::get),
    }
}

/// The answers, in the order of the things: an iterator of all those that are ready, again and again until there are no more.
pub struct Ordered<A>(Arc<Shared<A>>);

/// Shared by the workers, the iterator and whoever stops them.
struct Shared<A> {
    state: Mutex<State<A>>,
    changed: Condvar,
}

struct State<A> {
    /// Answers by their places that are ready and were not taken.
    ready: BTreeMap<usize, A>,
    taken: usize,
    /// The most answers that wait for one that is not ready, so that they do not pile up behind it.
    ahead: usize,
    working: usize,
    is_stopped: bool,
    /// Whether a worker ended by a panic: its answer is missing.
    is_broken: bool,
}

impl<A: Send + 'static> Ordered<A> {
    /// Starts this number of workers, each with something of its own to work with. At most `ahead` answers wait for one that
    /// is not ready.
    pub fn start<T, W>(
        workers: usize,
        ahead: usize,
        things: impl Iterator<Item = T> + Send + 'static,
        own: fn() -> W,
        work: impl Fn(&mut W, T) -> A + Clone + Send + 'static,
    ) -> Ordered<A>
    where
        T: 'static,
        W: 'static,
    {
        let shared = Arc::new(Shared {
            state: Mutex::new(State {
                ready: BTreeMap::new(),
                taken: 0,
                ahead,
                working: workers,
                is_stopped: false,
                is_broken: false,
            }),
            changed: Condvar::new(),
        });
        let things = Arc::new(Mutex::new(things.enumerate()));
        for _ in 0..workers {
            let worker = Worker(Arc::clone(&shared));
            let (things, work) = (Arc::clone(&things), work.clone());
            thread::spawn(move || {
                let mut own = own();
                while let Some((place, thing)) = worker.next(&things) {
                    worker.answer(place, work(&mut own, thing));
                }
            });
        }
        Ordered(shared)
    }

    /// A function that stops the workers; the answers end with those that are ready.
    pub fn stop(&self) -> impl Fn() + Send + 'static {
        let shared = Arc::clone(&self.0);
        move || shared.stop()
    }
}

impl<A> Iterator for Ordered<A> {
    type Item = Vec<A>;

    /// Waits for the next answer, and takes all that are ready from it on.
    fn next(&mut self) -> Option<Vec<A>> {
        let answers = self.0.take();
        assert!(!self.0.state().is_broken, "a worker panicked");
        (!answers.is_empty()).then_some(answers)
    }
}

impl<A> Shared<A> {
    fn state(&self) -> MutexGuard<'_, State<A>> {
        self.state.lock().unwrap_or_else(PoisonError::into_inner)
    }

    /// Waits as long as a condition holds.
    fn wait(&self, holds: impl FnMut(&mut State<A>) -> bool) -> MutexGuard<'_, State<A>> {
        let waited = self.changed.wait_while(self.state(), holds);
        waited.unwrap_or_else(PoisonError::into_inner)
    }

    fn stop(&self) {
        self.state().is_stopped = true;
        self.changed.notify_all();
    }

    /// The answers that are ready, in order; none if there are no more.
    fn take(&self) -> Vec<A> {
        let is_awaited = |state: &mut State<A>| {
            let is_ready = state.ready.contains_key(&state.taken);
            !is_ready && !state.is_stopped && state.working > 0
        };
        let mut state = self.wait(is_awaited);
        let mut answers = Vec::new();
        loop {
            let place = state.taken;
            let Some(answer) = state.ready.remove(&place) else {
                break;
            };
            answers.push(answer);
            state.taken += 1;
        }
        self.changed.notify_all();
        answers
    }
}

/// A worker. Its end is noted, also if it panics.
struct Worker<A>(Arc<Shared<A>>);

impl<A> Worker<A> {
    /// The next thing and its place, once its answer would not be too far ahead; none if there is none, or after a stop.
    fn next<T>(&self, things: &Mutex<impl Iterator<Item = (usize, T)>>) -> Option<(usize, T)> {
        let mut things = things.lock().unwrap_or_else(PoisonError::into_inner);
        let (place, thing) = things.next()?;
        let is_ahead =
            |state: &mut State<A>| place >= state.taken + state.ahead && !state.is_stopped;
        let state = self.0.wait(is_ahead);
        (!state.is_stopped).then_some((place, thing))
    }

    fn answer(&self, place: usize, answer: A) {
        self.0.state().ready.insert(place, answer);
        self.0.changed.notify_all();
    }
}

impl<A> Drop for Worker<A> {
    fn drop(&mut self) {
        let mut state = self.0.state();
        state.working -= 1;
        state.is_broken |= thread::panicking();
        state.is_stopped |= state.is_broken;
        drop(state);
        self.0.changed.notify_all();
    }
}

#[cfg(test)]
mod tests {
    use std::sync::mpsc::{self, Receiver};
    use std::thread;
    use std::time::Duration;

    use super::Ordered;

    const AHEAD: usize = 512;

    /// Later things are ready first, and more of them than may wait.
    #[test]
    fn answers_are_in_order() {
        for workers in [1, 2, 7] {
            let work = |_: &mut (), thing: u64| {
                thread::sleep(Duration::from_micros((thing * 7919) % 300));
                thing
            };
            let all = Ordered::start(workers, AHEAD, 0..3 * AHEAD as u64, || (), work);
            let answers: Vec<u64> = all.flatten().collect();
            assert_eq!(answers, (0..3 * AHEAD as u64).collect::<Vec<_>>());
        }
    }

    /// The second thing is never ready: the first comes nevertheless, and a stop ends it.
    #[test]
    fn an_answer_does_not_wait_for_later_ones() {
        let (_never, waiting) = mpsc::channel();
        let things = [None, Some(waiting), None].into_iter();
        let work = |_: &mut (), thing: Option<Receiver<()>>| {
            thing.map(|thing| thing.recv());
        };
        let mut answers = Ordered::start(2, AHEAD, things, || (), work);
        assert_eq!(answers.next().map(|some| some.len()), Some(1));
        let stop = answers.stop();
        thread::spawn(stop);
        assert_eq!(answers.next(), None);
    }

    #[test]
    #[should_panic(expected = "a worker panicked")]
    fn a_panic_is_passed_on() {
        let work = |_: &mut (), thing: usize| match thing {
            700 => panic!("a fault of the work"),
            thing => thing,
        };
        Ordered::start(3, AHEAD, 0..9000, || (), work).for_each(drop);
    }
}
