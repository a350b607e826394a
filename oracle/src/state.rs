//! A whole state as document 01 lists it.

use crate::calls::{Candidate, Hash, Key};

#[derive(Clone, Debug, Eq, PartialEq)]
pub struct Package {
    pub combined: Hash,
    pub wtxids: Vec<Hash>,
    pub enqueued: bool,
}

#[derive(Clone, Copy, Debug, Eq, PartialEq)]
pub struct Owner {
    pub connection: u64,
    pub deadline: u64,
}

#[derive(Clone, Debug, Eq, PartialEq)]
pub struct Request {
    pub key: Key,
    /// In order of arrival.
    pub candidates: Vec<Candidate>,
    pub owner: Option<Owner>,
    pub package_info: bool,
    pub package: Option<Package>,
    pub parents: Vec<Hash>,
    pub fallback: bool,
}

impl Request {
    /// A request with nothing but its key and its mark.
    pub fn new(key: Key, fallback: bool) -> Self {
        Self {
            key,
            candidates: Vec::new(),
            owner: None,
            package_info: false,
            package: None,
            parents: Vec::new(),
            fallback,
        }
    }

    /// "A place is held by a request with a package-info flag or a package."
    pub fn holds_place(&self) -> bool {
        self.package_info || self.package.is_some()
    }

    pub fn owned_by(&self, connection: u64) -> bool {
        self.owner.is_some_and(|owner| owner.connection == connection)
    }
}

#[derive(Clone, Debug, Eq, PartialEq)]
pub struct State {
    pub l: u64,
    pub q: u64,
    pub next_poll: Option<u64>,
    pub known_cursor: Option<Key>,
    pub ready_cursor: Option<Key>,
    /// In key order.
    pub requests: Vec<Request>,
}

impl State {
    pub fn held(&self) -> u64 {
        self.requests.iter().map(|request| request.candidates.len() as u64).sum()
    }

    pub fn places_held(&self) -> u64 {
        self.requests.iter().filter(|request| request.holds_place()).count() as u64
    }
}
