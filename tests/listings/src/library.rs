//! The two calls on listings, and what stands in their place where the program itself is tested.

use oracle::{image, listing};
use tracker::abi;

/// Numbers of refusals, beside those of a text (oracle/src/listing.rs).
pub const SHORT_STORE: u64 = 1;
pub const NOT_SOUND: u64 = 3;
pub const SHORT_ANSWER: u64 = 7;

pub trait Library {
    fn save(&mut self, store: &[u8], answer: &mut [u8], written: &mut u64) -> u64;
    fn restore(&mut self, store: &mut [u8], text: &[u8]) -> u64;
}

/// The archive that is linked.
pub struct Linked;

impl Library for Linked {
    fn save(&mut self, store: &[u8], answer: &mut [u8], written: &mut u64) -> u64 {
        // SAFETY: the store is only read, answer and number are lent to this call alone.
        unsafe { abi::tracker_save(store.as_ptr(), store.len(), answer.as_mut_ptr(), answer.len(), written) }
    }

    fn restore(&mut self, store: &mut [u8], text: &[u8]) -> u64 {
        // SAFETY: the store is lent to this call alone, the text is only read.
        unsafe { abi::tracker_restore(store.as_mut_ptr(), store.len(), text.as_ptr(), text.len()) }
    }
}

/// The oracle in the library's place: right, and no test of anything but this program.
pub struct StandIn;

impl Library for StandIn {
    fn save(&mut self, store: &[u8], answer: &mut [u8], written: &mut u64) -> u64 {
        let Ok(state) = image::read(store) else { return NOT_SOUND };
        let text = listing::write(&state);
        let Some(room) = answer.get_mut(..text.len()) else { return SHORT_ANSWER };
        room.copy_from_slice(text.as_bytes());
        *written = text.len() as u64;
        0
    }

    fn restore(&mut self, store: &mut [u8], text: &[u8]) -> u64 {
        let state = match listing::read(text) {
            Ok(state) => state,
            Err(number) => return number,
        };
        let bytes = image::image(&state);
        let Some(room) = store.get_mut(..bytes.len()) else { return SHORT_STORE };
        room.copy_from_slice(&bytes);
        0
    }
}
