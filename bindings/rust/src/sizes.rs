//! What a tracker has room for, and the bytes that follow from it.

use crate::Error;
use crate::answers::{ENTRY_BYTES, KEY_BYTES, word};

/// How many announcements (L) and package places (Q) a tracker has room for: 1 to 100,000 and 1 to 4,096.
///
/// ```
/// use tracker::{Error, Sizes};
///
/// const SIZES: Sizes = match Sizes::new(100, 2) {
///     Ok(sizes) => sizes,
///     Err(_) => panic!("out of range"),
/// };
/// let store = [0_u8; SIZES.need()];
/// assert_eq!(store.len(), 22_976);
/// assert_eq!(Sizes::new(0, 2), Err(Error::SizesOutOfRange));
/// ```
#[derive(Clone, Copy, Debug, Eq, Hash, PartialEq)]
pub struct Sizes {
    announcements: u64,
    places: u64,
}

impl Sizes {
    /// The sizes, if they are in range.
    pub const fn new(announcements: u64, places: u64) -> Result<Self, Error> {
        if announcements < 1 || announcements > 100_000 || places < 1 || places > 4_096 {
            return Err(Error::SizesOutOfRange);
        }
        Ok(Self { announcements, places })
    }

    /// Those of a store, as its header has them; none if it is too short for one or they are out of range. Of bytes that are not
    /// sound they say nothing.
    pub fn of(store: &[u8]) -> Option<Self> {
        if store.len() < 24 { None } else { Self::new(word(store, 1), word(store, 2)).ok() }
    }

    /// Those that a listing begins with; none if it does not begin with two numbers, or they are out of range.
    pub fn listed(text: &[u8]) -> Option<Self> {
        let mut fields = text.split(|byte| *byte == b',');
        let mut number = || core::str::from_utf8(fields.next()?).ok()?.parse().ok();
        Self::new(number()?, number()?).ok()
    }

    /// L.
    pub const fn announcements(self) -> u64 {
        self.announcements
    }

    /// Q.
    pub const fn places(self) -> u64 {
        self.places
    }

    /// Bytes that a store of these sizes needs.
    pub const fn need(self) -> usize {
        8 * (24 + 12 * self.announcements as usize + 824 * self.places as usize)
    }

    /// Bytes of the answer that a sweep needs.
    pub fn sweep_need(self) -> usize {
        self.announcements.min(1_024) as usize * KEY_BYTES
    }

    /// Bytes of the answer that a plan needs.
    pub fn plan_need(self) -> usize {
        self.announcements.min(1_025) as usize * ENTRY_BYTES
    }

    /// Bytes of the answer that a connection's leaving needs.
    pub fn disconnected_need(self) -> usize {
        (self.announcements.min(5_000) + 100 * self.places) as usize * KEY_BYTES
    }

    /// Bytes of the answer that failed package claims need.
    pub const fn failed_package_claims_need(self) -> usize {
        101 * self.places as usize * KEY_BYTES
    }

    /// Bytes that a listing has at most.
    pub const fn listing_need(self) -> usize {
        165 + 250 * self.announcements as usize + 13_068 * self.places as usize
    }

    /// Bytes of the answer that so many items, not found, need.
    pub const fn not_found_need(self, items: usize) -> usize {
        (items + 100 * self.places as usize) * KEY_BYTES
    }
}
