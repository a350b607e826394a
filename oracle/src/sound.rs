//! Document 01's "Sound" of a whole state, written anew, and a test of the source's own
//! books against it. The oracle tests itself with these after every call.

use std::collections::{BTreeMap, BTreeSet};

#[cfg(feature = "source")]
use crate::Machine;
use crate::calls::{Hash, Key, Kind};
use crate::state::{Request, State};

pub const MAX_L: u64 = 100_000;
pub const MAX_Q: u64 = 4_096;
pub const MAX_AT_HASH: usize = 8;
pub const MAX_OF_CONNECTION: u64 = 5_000;
pub const MAX_OWNED: u64 = 100;
pub const MAX_WTXIDS: usize = 100;
pub const MAX_PARENTS: usize = 100;

/// L and Q such as opening takes.
pub fn opens(l: u64, q: u64) -> bool {
    (1..=MAX_L).contains(&l) && (1..=MAX_Q).contains(&q)
}

/// What is wrong with a state, if anything is.
pub fn breach(state: &State) -> Option<String> {
    if !opens(state.l, state.q) {
        return Some(format!("L {} or Q {}", state.l, state.q));
    }
    if let Some(pair) = state.requests.windows(2).find(|pair| pair[0].key >= pair[1].key) {
        return Some(format!("keys do not ascend at {:?}", pair[1].key));
    }
    for request in &state.requests {
        if let Some(text) = request_breach(request) {
            return Some(format!("{text} at {:?}", request.key));
        }
    }
    count_breach(state)
}

fn request_breach(request: &Request) -> Option<String> {
    let text = if request.candidates.is_empty() {
        "no candidate"
    } else if request.candidates.iter().any(|candidate| candidate.connection == 0) {
        "connection 0"
    } else if request.candidates.iter().any(|candidate| candidate.item.key() != Some(request.key)) {
        "an item of another key"
    } else if request.owner.is_some_and(|owner| {
        !request.candidates.iter().any(|candidate| candidate.connection == owner.connection)
    }) {
        "an owner that is no candidate"
    } else if request.holds_place() && request.owner.is_none() {
        "flag or package without owner"
    } else if request.package_info && request.package.is_some() {
        "flag and package"
    } else if request.holds_place() && request.key.kind != Kind::Wtxid {
        "flag or package on a Txid key"
    } else if request
        .package
        .as_ref()
        .is_some_and(|package| !(1..=MAX_WTXIDS).contains(&package.wtxids.len()))
    {
        "a package of no wtxid or too many"
    } else if !request.parents.is_empty() && !request.holds_place() {
        "parents without flag or package"
    } else if request.parents.len() > MAX_PARENTS {
        "too many parents"
    } else if request.parents.iter().collect::<BTreeSet<_>>().len() != request.parents.len() {
        "a parent twice"
    } else if request.fallback && request.key.kind != Kind::Txid {
        "a mark on a Wtxid key"
    } else {
        return None;
    };
    Some(text.to_owned())
}

/// The bounds that speak of several requests.
fn count_breach(state: &State) -> Option<String> {
    let mut of_connection: BTreeMap<u64, u64> = BTreeMap::new();
    let mut owned: BTreeMap<u64, u64> = BTreeMap::new();
    let mut at_hash: BTreeMap<Hash, BTreeSet<u64>> = BTreeMap::new();
    let mut owned_hashes = BTreeSet::new();
    for request in &state.requests {
        let hash = request.key.hash;
        for candidate in &request.candidates {
            *of_connection.entry(candidate.connection).or_default() += 1;
            if !at_hash.entry(hash).or_default().insert(candidate.connection) {
                return Some(format!("connection {} twice at {hash:?}", candidate.connection));
            }
        }
        if let Some(owner) = request.owner {
            *owned.entry(owner.connection).or_default() += 1;
            if !owned_hashes.insert(hash) {
                return Some(format!("both kinds owned at {hash:?}"));
            }
        }
    }
    if state.held() > state.l {
        Some(format!("{} held of {}", state.held(), state.l))
    } else if at_hash.values().any(|connections| connections.len() > MAX_AT_HASH) {
        Some("too many candidates at a hash".to_owned())
    } else if of_connection.values().any(|count| *count > MAX_OF_CONNECTION) {
        Some("too many announcements of a connection".to_owned())
    } else if owned.values().any(|count| *count > MAX_OWNED) {
        Some("too many requests owned by a connection".to_owned())
    } else if state.places_held() > state.q {
        Some(format!("{} places held of {}", state.places_held(), state.q))
    } else {
        None
    }
}

/// Unpreferred candidates that do not own their request: priority, key, connection,
/// ascending.
pub fn evictable(state: &State) -> Vec<(u64, Key, u64)> {
    let mut list = Vec::new();
    for request in &state.requests {
        for candidate in &request.candidates {
            if !candidate.preferred && !request.owned_by(candidate.connection) {
                list.push((candidate.priority, request.key, candidate.connection));
            }
        }
    }
    list.sort_unstable();
    list
}

#[cfg(feature = "source")]
fn book_breach(machine: &Machine, state: &State) -> Option<String> {
    let books = machine.books();
    let mut counts: BTreeMap<u64, u64> = BTreeMap::new();
    for candidate in state.requests.iter().flat_map(|request| &request.candidates) {
        *counts.entry(candidate.connection).or_default() += 1;
    }
    if books.announcements != state.held() {
        Some(format!("{} announcements, {} held", books.announcements, state.held()))
    } else if books.counts != counts.into_iter().collect::<Vec<_>>() {
        Some("announcements of connections".to_owned())
    } else if books.evictable != evictable(state) {
        Some("evictable candidates".to_owned())
    } else {
        None
    }
}

/// Stops the program if the state is not sound or the source's books disagree with it.
#[cfg(feature = "source")]
pub fn assert_sound(machine: &Machine) {
    let state = machine.state();
    if let Some(text) = breach(&state).or_else(|| book_breach(machine, &state)) {
        panic!("the tracker's state is not sound: {text}");
    }
}
