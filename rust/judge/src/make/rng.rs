//! The generator's source of numbers: splitmix64, so that a seed fixes all that is made.

use std::ops::RangeInclusive;

/// A row of numbers fixed by its seed.
#[derive(Clone, Debug)]
pub struct Rng(u64);

impl Rng {
    pub fn new(seed: u64) -> Self {
        Rng(seed)
    }

    /// The next number, all 64 bits of it: the state goes on by a fixed odd step and is then mixed.
    pub fn number(&mut self) -> u64 {
        self.0 = self.0.wrapping_add(0x9E37_79B9_7F4A_7C15);
        let mixed = (self.0 ^ (self.0 >> 30)).wrapping_mul(0xBF58_476D_1CE4_E5B9);
        let mixed = (mixed ^ (mixed >> 27)).wrapping_mul(0x94D0_49BB_1331_11EB);
        mixed ^ (mixed >> 31)
    }

    /// A number under `bound`; 0 if that is 0.
    pub fn below(&mut self, bound: usize) -> usize {
        (self.number() % (bound.max(1) as u64)) as usize
    }

    /// A number of the range, which is not empty.
    pub fn within(&mut self, range: RangeInclusive<usize>) -> usize {
        range.start() + self.below(range.end() - range.start() + 1)
    }

    /// True once in `times`.
    pub fn one_in(&mut self, times: usize) -> bool {
        self.below(times) == 0
    }

    /// A number up to `most`, small on average and now and then large: each further bit has two
    /// chances in three.
    pub fn small(&mut self, most: usize) -> usize {
        let mut limit = 1;
        while limit < most && !self.one_in(3) {
            limit = (limit * 2).min(most);
        }
        self.within(0..=limit.min(most))
    }

    /// One of them; there is at least one.
    pub fn pick<T: Copy>(&mut self, from: &[T]) -> T {
        from[self.below(from.len())]
    }

    /// One bit out of `bits`.
    pub fn bit(&mut self, bits: usize) -> u32 {
        1 << self.below(bits)
    }

    pub fn byte(&mut self) -> u8 {
        self.number() as u8
    }

    pub fn two(&mut self) -> u16 {
        self.number() as u16
    }

    pub fn four(&mut self) -> u32 {
        self.number() as u32
    }

    pub fn bytes(&mut self, count: usize) -> Vec<u8> {
        (0..count).map(|_| self.byte()).collect()
    }

    /// Bytes in a number of the range.
    pub fn bytes_within(&mut self, range: RangeInclusive<usize>) -> Vec<u8> {
        let count = self.within(range);
        self.bytes(count)
    }

    /// Any other byte than this one.
    pub fn other_byte(&mut self, byte: u8) -> u8 {
        byte.wrapping_add(self.within(1..=255) as u8)
    }

    /// True once in two.
    pub fn coin(&mut self) -> bool {
        self.one_in(2)
    }

    pub fn shuffle<T>(&mut self, items: &mut [T]) {
        for last in (1..items.len()).rev() {
            items.swap(last, self.below(last + 1));
        }
    }
}
