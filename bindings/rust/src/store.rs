//! The bytes under a tracker.

use alloc::vec::Vec;

/// The bytes that a tracker stands on: its own (`Vec<u8>`), or lent to it for its life (`&mut [u8]`; `&[u8]` for the calls that
/// only read). Nobody else can implement it: the calls rely on bytes that nothing but calls writes.
pub trait Store: sealed::Cut {
    /// The store.
    fn bytes(&self) -> &[u8];
}

/// A store that calls may change.
pub trait StoreMut: Store {
    /// The store, to be changed.
    fn bytes_mut(&mut self) -> &mut [u8];
}

pub(crate) mod sealed {
    /// The store without the bytes past its need.
    pub trait Cut {
        fn cut(self, need: usize) -> Self;
    }
}

impl sealed::Cut for Vec<u8> {
    fn cut(mut self, need: usize) -> Self {
        self.truncate(need);
        self
    }
}

impl Store for Vec<u8> {
    fn bytes(&self) -> &[u8] {
        self
    }
}

impl StoreMut for Vec<u8> {
    fn bytes_mut(&mut self) -> &mut [u8] {
        self
    }
}

impl sealed::Cut for &mut [u8] {
    fn cut(self, need: usize) -> Self {
        &mut self[..need]
    }
}

impl Store for &mut [u8] {
    fn bytes(&self) -> &[u8] {
        self
    }
}

impl StoreMut for &mut [u8] {
    fn bytes_mut(&mut self) -> &mut [u8] {
        self
    }
}

impl sealed::Cut for &[u8] {
    fn cut(self, need: usize) -> Self {
        &self[..need]
    }
}

impl Store for &[u8] {
    fn bytes(&self) -> &[u8] {
        self
    }
}
