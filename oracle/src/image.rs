//! A state's bytes as docs/STORE.md lays them out, written and read without the library.
//!
//! `image` writes, `read` reads back and tests every rule on the way, `broken` lists the
//! rules that bytes break. None of them uses the tracker or its books.

mod reading;
mod why;

use std::collections::BTreeMap;

use crate::calls::{Hash, Item, Key, Kind};
use crate::state::{Request, State};

pub use reading::{broken, read};
pub use why::Why;

pub const WORD: usize = 8;
pub const FORMAT: u64 = 1;

/// Words of the header, of a row, of a connection's entry, of a place.
pub const HEADER: usize = 24;
pub const ROW: usize = 9;
pub const ENTRY: usize = 3;
pub const PLACE: usize = 824;

/// Words of a hash, and hashes in each list of a place.
pub const HASH: usize = 4;
pub const LIST: usize = 100;

/// Words of the header by their content.
pub mod header {
    pub const FORMAT: usize = 0;
    pub const L: usize = 1;
    pub const Q: usize = 2;
    pub const ROWS: usize = 3;
    pub const ENTRIES: usize = 4;
    pub const PLACES: usize = 5;
    pub const NEXT_POLL: usize = 6;
    pub const KNOWN_CURSOR: usize = 8;
    pub const READY_CURSOR: usize = 13;
    pub const SPARE: usize = 18;
}

/// Words of a row by their content; the hash stands first.
pub mod row {
    pub const CONNECTION: usize = 4;
    pub const READY: usize = 5;
    pub const PRIORITY: usize = 6;
    pub const DEADLINE: usize = 7;
    pub const BITS: usize = 8;

    pub const WTXID: u64 = 1;
    pub const WITNESS: u64 = 2;
    pub const PREFERRED: u64 = 4;
    pub const OWNS: u64 = 8;
    pub const MARK: u64 = 16;
    /// The first number that is no sum of these.
    pub const NO_BITS: u64 = 32;
}

/// Words of a place by their content; the hash of its key stands first.
pub mod place {
    pub const COMBINED: usize = 4;
    pub const STAGE: usize = 8;
    pub const WTXID_COUNT: usize = 9;
    pub const PARENT_COUNT: usize = 10;
    pub const WTXIDS: usize = 11;
    pub const PARENTS: usize = 411;
    pub const SCRATCH: usize = 811;

    pub const FLAG: u64 = 1;
    pub const AWAITING: u64 = 2;
    pub const ENQUEUED: u64 = 3;
}

/// Bytes of a store for L announcements and Q package places.
pub fn need(l: u64, q: u64) -> usize {
    WORD * (HEADER + (ROW + ENTRY) * l as usize + PLACE * q as usize)
}

/// Where the connections and the places begin, in words.
pub fn entries_at(l: u64) -> usize {
    HEADER + ROW * l as usize
}

pub fn places_at(l: u64) -> usize {
    HEADER + (ROW + ENTRY) * l as usize
}

/// The store's bytes. Of a state that is not sound, what exceeds a region or a list is
/// cut, and what the layout cannot say is lost.
pub fn image(state: &State) -> Vec<u8> {
    let rows: Vec<u64> = state.requests.iter().flat_map(rows_of).collect();
    let entries = entries_of(state);
    let places: Vec<u64> = state.requests.iter().filter(|r| r.holds_place()).flat_map(place_of).collect();
    let mut words = vec![FORMAT, state.l, state.q];
    words.extend([rows.len() / ROW, entries.len() / ENTRY, places.len() / PLACE].map(|count| count as u64));
    words.extend(state.next_poll.map_or([0, 0], |time| [1, time]));
    words.extend(cursor_of(state.known_cursor));
    words.extend(cursor_of(state.ready_cursor));
    words.resize(HEADER, 0);
    let mut region = |mut content: Vec<u64>, size: usize| {
        content.resize(size, 0);
        words.append(&mut content);
    };
    region(rows, ROW * state.l as usize);
    region(entries, ENTRY * state.l as usize);
    region(places, PLACE * state.q as usize);
    words.into_iter().flat_map(u64::to_le_bytes).collect()
}

fn hash_of(hash: Hash) -> impl Iterator<Item = u64> {
    (0..HASH).map(move |i| u64::from_le_bytes(hash.0[WORD * i..WORD * (i + 1)].try_into().expect("a word")))
}

fn cursor_of(cursor: Option<Key>) -> Vec<u64> {
    match cursor {
        None => vec![0; 1 + HASH],
        Some(key) => {
            std::iter::once(1 + u64::from(key.kind == Kind::Wtxid)).chain(hash_of(key.hash)).collect()
        }
    }
}

fn rows_of(request: &Request) -> Vec<u64> {
    let mut words = Vec::new();
    for candidate in &request.candidates {
        let owner = request.owner.filter(|owner| owner.connection == candidate.connection);
        let mut bits = 0;
        for (bit, holds) in [
            (row::WTXID, request.key.kind == Kind::Wtxid),
            (row::WITNESS, matches!(candidate.item, Item::WitnessTransaction(_))),
            (row::PREFERRED, candidate.preferred),
            (row::OWNS, owner.is_some()),
            (row::MARK, request.fallback),
        ] {
            bits |= if holds { bit } else { 0 };
        }
        words.extend(hash_of(request.key.hash));
        words.extend([candidate.connection, candidate.ready, candidate.priority]);
        words.extend([owner.map_or(0, |owner| owner.deadline), bits]);
    }
    words
}

fn entries_of(state: &State) -> Vec<u64> {
    let mut counts: BTreeMap<u64, [u64; 2]> = BTreeMap::new();
    for request in &state.requests {
        for candidate in &request.candidates {
            let [rows, owning] = counts.entry(candidate.connection).or_default();
            *rows += 1;
            *owning += u64::from(request.owned_by(candidate.connection));
        }
    }
    counts.into_iter().flat_map(|(connection, [rows, owning])| [connection, rows, owning]).collect()
}

fn place_of(request: &Request) -> Vec<u64> {
    let mut words: Vec<u64> = hash_of(request.key.hash).collect();
    let (combined, stage, wtxids) = match &request.package {
        None => (Hash([0; 32]), place::FLAG, &[][..]),
        Some(package) if package.enqueued => (package.combined, place::ENQUEUED, &package.wtxids[..]),
        Some(package) => (package.combined, place::AWAITING, &package.wtxids[..]),
    };
    words.extend(hash_of(combined));
    words.extend([stage, wtxids.len() as u64, request.parents.len() as u64]);
    for list in [wtxids, &request.parents] {
        let end = words.len() + HASH * LIST;
        words.extend(list.iter().copied().flat_map(hash_of));
        words.resize(end, 0);
    }
    words.resize(PLACE, 0);
    words
}
