//! What a drawn call and the count of its cases see of a state: owners and places, out of the reference.

use oracle::calls::{Candidate, Entry, Hash, Item, Key, Kind};
use oracle::image::{HASH, PLACE, header, place, places_at, row};
use oracle::sound::MAX_AT_HASH;
use oracle::state::Owner;

use crate::reference::{Reference, key_of, rank, rank_of};

pub const ASKED: &str = "package info";
pub const AWAITING: &str = "Awaiting";

/// A case of every call that can free a place.
pub const FREED: &str = "a place given back, all held before";

/// How a connection stands to a request.
pub const STANDINGS: &[&str] =
    &["no request", "no owner", "of another", "owned", ASKED, AWAITING, "Enqueued"];

pub fn standing(seen: &Reference, key: Key, connection: u64) -> &'static str {
    let stage = seen.place_of(key).map(|held| held.stage);
    match (seen.owner_of(key), stage) {
        _ if seen.at(key).is_empty() => "no request",
        (None, _) => "no owner",
        (Some(owner), _) if owner.connection != connection => "of another",
        (_, None) => "owned",
        (_, Some(place::FLAG)) => ASKED,
        (_, Some(place::AWAITING)) => AWAITING,
        (_, Some(_)) => "Enqueued",
    }
}

/// A package place.
pub struct Held {
    pub hash: Hash,
    pub stage: u64,
    pub combined: Hash,
    pub wtxids: Vec<Hash>,
    pub parents: Vec<Hash>,
}

impl Held {
    /// Whether the request can fail: no package of it is in the queue.
    pub fn releasable(&self) -> bool {
        self.stage != place::ENQUEUED
    }
}

fn hash_in(words: &[u64]) -> Hash {
    let words: [u64; HASH] = words.try_into().expect("four words");
    Hash(words.map(u64::to_le_bytes).as_flattened().try_into().expect("32 bytes"))
}

impl Reference {
    /// L and Q.
    pub fn sizes(&self) -> [u64; 2] {
        [header::L, header::Q].map(|at| self.words[at])
    }

    pub fn ready_cursor(&self) -> Option<Key> {
        let [kind, hash @ ..] = &self.words[header::READY_CURSOR..][..1 + HASH] else { unreachable!() };
        match kind {
            0 => None,
            1 => Some(Key::txid(hash_in(hash))),
            _ => Some(Key::wtxid(hash_in(hash))),
        }
    }

    pub fn key_at(&self, i: usize) -> Key {
        key_of(rank_of(&self.rows()[i]))
    }

    /// A candidate and its request's key.
    pub fn entry_at(&self, i: usize) -> Entry {
        let (key, row) = (self.key_at(i), &self.rows()[i]);
        let item = match key.kind {
            Kind::Wtxid => Item::WTx(key.hash),
            Kind::Txid if row[row::BITS] & row::WITNESS != 0 => Item::WitnessTransaction(key.hash),
            Kind::Txid => Item::Transaction(key.hash),
        };
        let [connection, ready, priority] = [row::CONNECTION, row::READY, row::PRIORITY].map(|at| row[at]);
        let preferred = row[row::BITS] & row::PREFERRED != 0;
        Entry { key, candidate: Candidate { connection, item, ready, preferred, priority } }
    }

    pub fn owner_of(&self, key: Key) -> Option<Owner> {
        let rows = &self.rows()[self.at(key)];
        let row = rows.iter().find(|row| row[row::BITS] & row::OWNS != 0)?;
        Some(Owner { connection: row[row::CONNECTION], deadline: row[row::DEADLINE] })
    }

    /// The first row from the i-th on, and round, that owns its request; only so many are looked at.
    pub fn owning(&self, i: usize, most: usize) -> Option<usize> {
        let count = self.rows().len();
        (0..count.min(most)).map(|n| (i + n) % count).find(|i| self.rows()[*i][row::BITS] & row::OWNS != 0)
    }

    fn places(&self) -> &[[u64; PLACE]] {
        let region = places_at(self.words[header::L]);
        self.words[region..][..PLACE * self.places_held()].as_chunks().0
    }

    pub fn places_held(&self) -> usize {
        self.words[header::PLACES] as usize
    }

    pub fn all_held(&self) -> bool {
        self.places_held() as u64 == self.words[header::Q]
    }

    pub fn place(&self, i: usize) -> Held {
        let words = &self.places()[i];
        let list = |at: usize, count: usize| {
            words[at..][..HASH * words[count] as usize].chunks(HASH).map(hash_in).collect()
        };
        Held {
            hash: hash_in(&words[..HASH]),
            stage: words[place::STAGE],
            combined: hash_in(&words[place::COMBINED..][..HASH]),
            wtxids: list(place::WTXIDS, place::WTXID_COUNT),
            parents: list(place::PARENTS, place::PARENT_COUNT),
        }
    }

    /// Places with a package, Awaiting or Enqueued.
    pub fn packages(&self) -> impl Iterator<Item = Held> {
        (0..self.places_held()).map(|i| self.place(i)).filter(|held| held.stage != place::FLAG)
    }

    pub fn place_of(&self, key: Key) -> Option<Held> {
        let (_, hash) = rank(key);
        let at = |words: &[u64; PLACE]| [words[3], words[2], words[1], words[0]];
        let found = self.places().binary_search_by_key(&hash, at).ok()?;
        (key.kind == Kind::Wtxid).then(|| self.place(found))
    }

    /// Whether one more candidate at the hash evicts nobody.
    pub fn room(&self, hash: Hash) -> bool {
        self.words[header::ROWS] < self.words[header::L] && self.at_hash(hash).count() < MAX_AT_HASH
    }
}
