//! The memory that some work asks for.
//!
//! The allocator of this program is the system's, and counts on demand. While it does not count it only looks whether it is to.

use std::alloc::{GlobalAlloc, Layout, System};
use std::sync::atomic::{AtomicBool, AtomicIsize, Ordering::Relaxed};

struct Counting;

#[global_allocator]
static ALLOCATOR: Counting = Counting;

static IS_COUNTING: AtomicBool = AtomicBool::new(false);
/// The bytes that are allocated, less those that were when the counting began.
static HELD: AtomicIsize = AtomicIsize::new(0);
/// The most of them at once.
static PEAK: AtomicIsize = AtomicIsize::new(0);

/// The most bytes that the work has allocated at once, its answer with them. What the system's allocator needs for itself is
/// not counted.
pub fn peak_of<T>(work: impl FnOnce() -> T) -> usize {
    HELD.store(0, Relaxed);
    PEAK.store(0, Relaxed);
    IS_COUNTING.store(true, Relaxed);
    let answer = work();
    IS_COUNTING.store(false, Relaxed);
    drop(answer);
    PEAK.load(Relaxed) as usize
}

fn count(bytes: isize) {
    if IS_COUNTING.load(Relaxed) {
        let held = bytes + HELD.fetch_add(bytes, Relaxed);
        PEAK.fetch_max(held, Relaxed);
    }
}

// SAFETY: each call is handed on to the system's allocator as it came.
unsafe impl GlobalAlloc for Counting {
    unsafe fn alloc(&self, layout: Layout) -> *mut u8 {
        count(layout.size() as isize);
        System.alloc(layout)
    }

    unsafe fn alloc_zeroed(&self, layout: Layout) -> *mut u8 {
        count(layout.size() as isize);
        System.alloc_zeroed(layout)
    }

    unsafe fn dealloc(&self, place: *mut u8, layout: Layout) {
        count(-(layout.size() as isize));
        System.dealloc(place, layout);
    }

    // The bytes may move: then old and new ones are there at once.
    unsafe fn realloc(&self, place: *mut u8, layout: Layout, size: usize) -> *mut u8 {
        count(size as isize);
        let moved = System.realloc(place, layout, size);
        count(-(layout.size() as isize));
        moved
    }
}

#[cfg(test)]
mod tests {
    use std::hint::black_box;

    use super::peak_of;

    // The tests run at once, and all that they allocate is counted: so no peak is known to the byte.
    #[test]
    fn all_that_is_held_at_once() {
        const MANY: usize = 1 << 20;
        let made = |byte: u8| black_box(vec![byte; MANY]);
        let together = || [made(0), made(1)].concat();
        let in_turns = || (0..2).for_each(|byte| drop(made(byte)));
        let times_many = |peak: usize| (peak + MANY / 2) / MANY;
        assert_eq!(times_many(peak_of(|| made(0))), 1);
        assert_eq!(times_many(peak_of(together)), 4);
        assert_eq!(times_many(peak_of(in_turns)), 1);
    }
}
