//! Random sound states, for tests of what reads and writes them.
//!
//! `state` makes one directly, so that corners are met that calls seldom reach; `walk`
//! reaches one by calls on the tracker.

mod build;
#[cfg(feature = "source")]
mod walk;

use crate::calls::Hash;

pub use build::{Shape, state};
#[cfg(feature = "source")]
pub use walk::walk;

/// SplitMix64.
#[derive(Clone)]
pub struct Rng(u64);

impl Rng {
    pub fn new(seed: u64) -> Self {
        Self(seed)
    }

    pub fn next(&mut self) -> u64 {
        self.0 = self.0.wrapping_add(0x9e37_79b9_7f4a_7c15);
        let mut x = self.0;
        x = (x ^ (x >> 30)).wrapping_mul(0xbf58_476d_1ce4_e5b9);
        x = (x ^ (x >> 27)).wrapping_mul(0x94d0_49bb_1331_11eb);
        x ^ (x >> 31)
    }

    /// A number below `end`, which is not 0.
    pub fn below(&mut self, end: u64) -> u64 {
        self.next() % end
    }

    pub fn index(&mut self, length: usize) -> usize {
        self.below(length as u64) as usize
    }

    /// True once in `of` times.
    pub fn one_in(&mut self, of: u64) -> bool {
        self.below(of) == 0
    }

    pub fn pick<T: Copy>(&mut self, list: &[T]) -> T {
        list[self.index(list.len())]
    }

    /// 64 bits, often at an end of their range.
    pub fn word(&mut self) -> u64 {
        match self.below(6) {
            0 => 0,
            1 => u64::MAX,
            2 => self.below(4),
            3 => 1 << self.below(64),
            _ => self.next(),
        }
    }

    /// A hash, often one that differs from others in one place only.
    pub fn hash(&mut self) -> Hash {
        let mut bytes = match self.below(4) {
            0 => [0; 32],
            1 => [0xff; 32],
            _ => std::array::from_fn(|_| self.next() as u8),
        };
        if self.below(8) != 0 {
            bytes[self.index(32)] = self.next() as u8;
        }
        Hash(bytes)
    }

    pub fn shuffle<T>(&mut self, list: &mut [T]) {
        for i in (1..list.len()).rev() {
            list.swap(i, self.index(i + 1));
        }
    }
}
