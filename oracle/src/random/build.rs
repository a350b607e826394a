//! A state put together candidate by candidate.

use std::collections::{BTreeMap, BTreeSet};

use super::Rng;
use crate::calls::{Candidate, Hash, Item, Key, Kind};
use crate::sound::{MAX_AT_HASH, MAX_OF_CONNECTION, MAX_OWNED, MAX_PARENTS, MAX_WTXIDS};
use crate::state::{Owner, Package, Request, State};

/// What a state is to have; `places` only as far as owned requests allow.
#[derive(Clone, Copy, Debug)]
pub struct Shape {
    pub l: u64,
    pub q: u64,
    pub held: u64,
    pub places: u64,
    pub connections: usize,
    /// One draw in so many takes a hash that is new.
    pub spread: u64,
    /// One request in so many has an owner.
    pub owned: u64,
    /// Parents and wtxids of each package; any number if none is given.
    pub list: Option<usize>,
}

impl Shape {
    /// Any shape at L and Q; full and empty ones are frequent.
    pub fn any(rng: &mut Rng, l: u64, q: u64) -> Self {
        let held = match rng.below(8) {
            0 => 0,
            1..=3 => l,
            _ => rng.below(l + 1),
        };
        let places = if rng.one_in(3) { rng.below(q + 1) } else { q };
        let connections = 1 + rng.index(20);
        let (spread, owned) = (2 + rng.below(20), 1 + rng.below(3));
        Self { l, q, held, places, connections, spread, owned, list: None }
    }
}

struct Build<'a> {
    rng: &'a mut Rng,
    requests: BTreeMap<Key, Request>,
    hashes: Vec<Hash>,
    connections: Vec<u64>,
    at_hash: BTreeMap<Hash, Vec<u64>>,
    of_connection: BTreeMap<u64, u64>,
}

/// A sound state of the shape.
pub fn state(rng: &mut Rng, shape: Shape) -> State {
    let mut build = Build {
        rng,
        requests: BTreeMap::new(),
        hashes: Vec::new(),
        connections: Vec::new(),
        at_hash: BTreeMap::new(),
        of_connection: BTreeMap::new(),
    };
    for _ in 0..shape.connections {
        build.connect();
    }
    let mut left = shape.held;
    while left > 0 {
        if build.announce(shape.spread) {
            left -= 1;
        }
    }
    build.own(shape.owned);
    build.hold(shape);
    let next_poll = build.rng.one_in(2).then(|| build.rng.word());
    let (known_cursor, ready_cursor) = (build.cursor(), build.cursor());
    let requests = build.requests.into_values().collect();
    State { l: shape.l, q: shape.q, next_poll, known_cursor, ready_cursor, requests }
}

impl Build<'_> {
    /// A connection more; one that comes up twice is only drawn more often.
    fn connect(&mut self) {
        let connection = if self.rng.one_in(4) { self.rng.word() } else { self.rng.next() };
        self.connections.push(connection.max(1));
    }

    /// One more candidate; false if the draw did not fit. A connection at its limit gets company.
    fn announce(&mut self, spread: u64) -> bool {
        if self.hashes.is_empty() || self.rng.one_in(spread) {
            let hash = self.rng.hash();
            self.hashes.push(hash);
        }
        let hash = self.rng.pick(&self.hashes);
        let connection = self.rng.pick(&self.connections);
        let at_hash = self.at_hash.entry(hash).or_default();
        let of_connection = self.of_connection.entry(connection).or_default();
        if *of_connection >= MAX_OF_CONNECTION {
            if self.rng.one_in(100) {
                self.connect();
            }
            return false;
        }
        if at_hash.len() >= MAX_AT_HASH || at_hash.contains(&connection) {
            return false;
        }
        at_hash.push(connection);
        *of_connection += 1;
        // Half of the hashes have one kind only, so that a key may have eight candidates.
        let item = match self.rng.below(4) * u64::from(1 - hash.0[7] % 2) {
            1 => Item::Transaction(hash),
            2 => Item::WitnessTransaction(hash),
            _ => Item::WTx(hash),
        };
        let (ready, priority) = (self.rng.word(), self.rng.word());
        let candidate = Candidate { connection, item, ready, preferred: self.rng.one_in(2), priority };
        let key = item.key().expect("one of the three kinds");
        let fallback = key.kind == Kind::Txid && self.rng.one_in(2);
        let request = self.requests.entry(key).or_insert(Request::new(key, fallback));
        request.candidates.push(candidate);
        true
    }

    fn own(&mut self, one_in: u64) {
        let mut owned: BTreeMap<u64, u64> = BTreeMap::new();
        let mut hashes = BTreeSet::new();
        // Wtxid keys first: they may hold places.
        for request in self.requests.values_mut().rev() {
            let connection = request.candidates[self.rng.index(request.candidates.len())].connection;
            let of_connection = owned.entry(connection).or_default();
            if self.rng.one_in(one_in) && *of_connection < MAX_OWNED && hashes.insert(request.key.hash) {
                *of_connection += 1;
                request.owner = Some(Owner { connection, deadline: self.rng.word() });
            }
        }
    }

    fn hold(&mut self, shape: Shape) {
        let mut fit: Vec<&mut Request> = self
            .requests
            .values_mut()
            .filter(|request| request.key.kind == Kind::Wtxid && request.owner.is_some())
            .collect();
        self.rng.shuffle(&mut fit);
        for request in fit.into_iter().take(shape.places as usize) {
            let parents = shape.list.unwrap_or_else(|| some_length(self.rng, MAX_PARENTS));
            let mut seen = BTreeSet::new();
            while request.parents.len() < parents {
                let parent = self.rng.hash();
                if seen.insert(parent) {
                    request.parents.push(parent);
                }
            }
            if self.rng.one_in(3) && shape.list.is_none() {
                request.package_info = true;
                continue;
            }
            let count = shape.list.unwrap_or_else(|| some_length(self.rng, MAX_WTXIDS)).max(1);
            let wtxids = (0..count).map(|_| self.rng.hash()).collect();
            let enqueued = self.rng.one_in(2);
            request.package = Some(Package { combined: self.rng.hash(), wtxids, enqueued });
        }
    }

    fn cursor(&mut self) -> Option<Key> {
        let hash = if self.hashes.is_empty() || self.rng.one_in(4) {
            self.rng.hash()
        } else {
            self.rng.pick(&self.hashes)
        };
        match self.rng.below(3) {
            0 => None,
            1 => Some(Key::txid(hash)),
            _ => Some(Key::wtxid(hash)),
        }
    }
}

fn some_length(rng: &mut Rng, most: usize) -> usize {
    match rng.below(4) {
        0 => most,
        1 => rng.index(3),
        _ => rng.index(most + 1),
    }
}
