//! Memory that is lent to a call, with guards on both sides of it.

use std::ops::Range;

use judge::make::Rng;

/// The elements of each guard.
const GUARD: usize = 16;

/// The elements that are lent: bytes, samples, or numbers.
pub trait Element: Copy + PartialEq + Default {
    /// The element for a number: never 0, so that clearing is always seen.
    fn of(number: u64) -> Self;
}

impl Element for u8 {
    fn of(number: u64) -> u8 {
        number as u8 | 1
    }
}

impl Element for i16 {
    fn of(number: u64) -> i16 {
        number as i16 | 1
    }
}

impl Element for u32 {
    fn of(number: u64) -> u32 {
        number as u32 | 1
    }
}

/// Elements to lend, at any alignment, between guards. They must come back as they were, but for those that a call is to
/// change.
pub struct Lent<T> {
    memory: Vec<T>,
    before: Vec<T>,
    start: usize,
    length: usize,
}

impl<T: Element> Lent<T> {
    /// Lends a copy of these elements.
    pub fn new(elements: &[T], rng: &mut Rng) -> Lent<T> {
        let start = GUARD + rng.below(8);
        let mut memory: Vec<T> = (0..start).map(|_| T::of(rng.number())).collect();
        memory.extend(elements);
        memory.extend((0..GUARD).map(|_| T::of(rng.number())));
        Lent {
            before: memory.clone(),
            memory,
            start,
            length: elements.len(),
        }
    }

    /// The part that is lent.
    pub fn lent(&self) -> &[T] {
        &self.memory[self.start..self.start + self.length]
    }

    /// The part that is lent, to be changed.
    pub fn lent_to_change(&mut self) -> &mut [T] {
        &mut self.memory[self.start..self.start + self.length]
    }

    /// Whether elements and guards are as they were.
    pub fn is_untouched(&self) -> bool {
        self.memory == self.before
    }

    /// Whether the first elements are now these, and all else is as it was.
    pub fn holds(&self, elements: &[T]) -> bool {
        let end = self.start + elements.len();
        self.memory[..self.start] == self.before[..self.start]
            && self.memory[self.start..end] == *elements
            && self.memory[end..] == self.before[end..]
    }
}

/// Room for the numbers of [`scp::raw::scp_open`], between guards.
pub struct Room {
    numbers: Vec<u32>,
    before: Vec<u32>,
}

impl Room {
    /// Room with any numbers in it.
    pub fn new(rng: &mut Rng) -> Room {
        let length = GUARD + scp::raw::POINTERS_ROOM + GUARD;
        let numbers: Vec<u32> = (0..length).map(|_| rng.four()).collect();
        Room {
            before: numbers.clone(),
            numbers,
        }
    }

    /// Where a call is to write.
    pub fn place(&mut self) -> *mut u32 {
        self.numbers[GUARD..].as_mut_ptr()
    }

    /// Whether the room now holds these numbers first, and is as it was in all else.
    pub fn holds(&self, numbers: &[u32]) -> bool {
        let mut expected = self.before.clone();
        expected[GUARD..GUARD + numbers.len()].copy_from_slice(numbers);
        self.numbers == expected
    }
}

/// Space to write in, of any length and at any alignment, between guards: an output or a work space.
///
/// Before a call it holds a pattern that can be computed again, so that no copy of it is kept.
pub struct Space<T> {
    memory: Vec<T>,
    start: usize,
    length: usize,
    seed: u64,
}

impl<T: Element> Space<T> {
    /// Space for `length` elements.
    pub fn new(length: usize, rng: &mut Rng) -> Space<T> {
        let start = GUARD + rng.below(8);
        let seed = rng.number() | 1;
        let whole = start + length + GUARD;
        Space {
            memory: (0..whole).map(|at| pattern(seed, at)).collect(),
            start,
            length,
            seed,
        }
    }

    /// The part that is lent.
    pub fn lent(&mut self) -> &mut [T] {
        &mut self.memory[self.start..self.start + self.length]
    }

    /// Whether the first elements are now these, and all else is as it was.
    pub fn holds(&self, elements: &[T]) -> bool {
        let end = self.start + elements.len();
        self.memory[self.start..end] == *elements
            && self.is_as_it_was(0..self.start)
            && self.is_as_it_was(end..self.memory.len())
    }

    /// Whether all of it is as it was.
    pub fn is_untouched(&self) -> bool {
        self.holds(&[])
    }

    /// Whether all that was lent is now zeros, and the guards are as they were.
    pub fn is_cleared(&self) -> bool {
        let end = self.start + self.length;
        let lent = &self.memory[self.start..end];
        lent.iter().all(|&one| one == T::default())
            && self.is_as_it_was(0..self.start)
            && self.is_as_it_was(end..self.memory.len())
    }

    fn is_as_it_was(&self, mut part: Range<usize>) -> bool {
        part.all(|at| self.memory[at] == pattern(self.seed, at))
    }
}

/// The element at a place of the pattern.
fn pattern<T: Element>(seed: u64, at: usize) -> T {
    T::of(seed.wrapping_mul(2 * at as u64 + 1) >> 40)
}

#[cfg(test)]
mod tests {
    use super::{Element, Lent, Space};
    use judge::make::Rng;

    fn every_change_is_seen_in<T: Element>(seven: T, nine: T) {
        let rng = &mut Rng::new(1);
        let zero = T::default();
        let mut space = Space::new(5, rng);
        assert!(space.is_untouched() && !space.is_cleared());
        space.lent()[..2].copy_from_slice(&[seven, nine]);
        assert!(space.holds(&[seven, nine]) && !space.holds(&[seven]) && !space.is_untouched());
        space.lent().fill(zero);
        assert!(space.is_cleared() && space.holds(&[zero; 5]));
        let guard = space.start - 1;
        space.memory[guard] = zero;
        assert!(!space.is_cleared() && !space.holds(&[zero; 5]));
        let none = Space::<T>::new(0, rng);
        assert!(none.is_untouched() && none.is_cleared());
    }

    #[test]
    fn every_change_is_seen() {
        every_change_is_seen_in(7u8, 9);
        every_change_is_seen_in(7i16, 9);
        let mut lent = Lent::new(&[7u8, 0, 9], &mut Rng::new(1));
        assert!(lent.is_untouched() && lent.lent() == [7, 0, 9]);
        assert!(lent.holds(&[]) && lent.holds(&[7]) && !lent.holds(&[8]));
        lent.lent_to_change()[0] = 8;
        assert!(!lent.is_untouched() && lent.holds(&[8]) && lent.holds(&[8, 0, 9]));
        assert!(!lent.holds(&[]) && !lent.holds(&[8, 1]));
        let end = lent.memory.len() - 1;
        lent.memory[end] = 0;
        assert!(!lent.is_untouched() && !lent.holds(&[8]));
    }
}
