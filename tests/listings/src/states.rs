//! Damage to a state that is then listed: each rule of "Sound" broken by itself, and states at the very edge of a rule.

use oracle::calls::{Candidate, Hash, Item, Key, Kind};
use oracle::random::Rng;
use oracle::sound::{MAX_AT_HASH, MAX_OF_CONNECTION, MAX_OWNED, MAX_PARENTS, MAX_WTXIDS};
use oracle::state::{Owner, Package, Request, State};

fn fresh_hash(rng: &mut Rng, state: &State) -> Hash {
    loop {
        let hash = rng.hash();
        if state.requests.iter().all(|request| request.key.hash != hash) {
            return hash;
        }
    }
}

fn fresh_key(rng: &mut Rng, state: &State, kind: Kind) -> Key {
    Key { kind, hash: fresh_hash(rng, state) }
}

/// Connections that the state does not have: it has 20, of 64 bits.
fn fresh(rng: &mut Rng, count: usize) -> Vec<u64> {
    (0..count).map(|_| rng.next() | 1 << 20).collect()
}

fn any_kind(rng: &mut Rng) -> Kind {
    rng.pick(&[Kind::Txid, Kind::Wtxid])
}

/// A request with a candidate of each connection.
fn made(rng: &mut Rng, key: Key, connections: &[u64]) -> Request {
    let mut request = Request::new(key, key.kind == Kind::Txid && rng.one_in(2));
    for connection in connections {
        let item = match (key.kind, rng.one_in(2)) {
            (Kind::Wtxid, _) => Item::WTx(key.hash),
            (Kind::Txid, true) => Item::Transaction(key.hash),
            (Kind::Txid, false) => Item::WitnessTransaction(key.hash),
        };
        let (ready, preferred, priority) = (rng.word(), rng.one_in(2), rng.word());
        request.candidates.push(Candidate { connection: *connection, item, ready, preferred, priority });
    }
    request
}

/// A request more, at its place in key order, and room for it. Where it stands.
fn add(rng: &mut Rng, state: &mut State, key: Key, connections: &[u64]) -> usize {
    let at = state.requests.partition_point(|other| other.key < key);
    state.requests.insert(at, made(rng, key, connections));
    state.l = state.l.max(state.held());
    at
}

/// A request more of one to eight candidates.
fn request(rng: &mut Rng, state: &mut State, kind: Kind) -> usize {
    let key = fresh_key(rng, state, kind);
    let count = 1 + rng.index(MAX_AT_HASH);
    let connections = fresh(rng, count);
    add(rng, state, key, &connections)
}

fn own(rng: &mut Rng, request: &mut Request) {
    let connection = request.candidates[rng.index(request.candidates.len())].connection;
    request.owner = Some(Owner { connection, deadline: rng.word() });
}

fn owned(rng: &mut Rng, state: &mut State, kind: Kind) -> usize {
    let at = request(rng, state, kind);
    own(rng, &mut state.requests[at]);
    at
}

fn package(rng: &mut Rng, count: usize) -> Option<Package> {
    let wtxids = (0..count).map(|_| rng.hash()).collect();
    Some(Package { combined: rng.hash(), wtxids, enqueued: rng.one_in(2) })
}

fn hold(rng: &mut Rng, request: &mut Request) {
    if rng.one_in(2) {
        request.package_info = true;
    } else {
        request.package = package(rng, 2);
    }
}

/// A request more that holds a place, and room for it.
fn place(rng: &mut Rng, state: &mut State) -> usize {
    let at = owned(rng, state, Kind::Wtxid);
    hold(rng, &mut state.requests[at]);
    state.q = state.q.max(state.places_held());
    at
}

fn distinct(rng: &mut Rng, count: usize) -> Vec<Hash> {
    let mut list: Vec<Hash> = Vec::new();
    while list.len() < count {
        let hash = rng.hash();
        if !list.contains(&hash) {
            list.push(hash);
        }
    }
    list
}

pub fn list_too_long(rng: &mut Rng, state: &mut State) {
    let at = place(rng, state);
    if rng.one_in(2) {
        state.requests[at].parents = distinct(rng, MAX_PARENTS + 1);
    } else {
        state.requests[at].package_info = false;
        state.requests[at].package = package(rng, MAX_WTXIDS + 1);
    }
}

pub fn no_wtxid(rng: &mut Rng, state: &mut State) {
    let at = place(rng, state);
    state.requests[at].package_info = false;
    state.requests[at].package = package(rng, 0);
}

pub fn falling_keys(rng: &mut Rng, state: &mut State) {
    for _ in 0..2 {
        let kind = any_kind(rng);
        request(rng, state, kind);
    }
    let at = rng.index(state.requests.len() - 1);
    state.requests.swap(at, at + 1);
}

pub fn a_key_twice(rng: &mut Rng, state: &mut State) {
    let kind = any_kind(rng);
    let at = request(rng, state, kind);
    let key = state.requests[at].key;
    let connections = fresh(rng, 1);
    add(rng, state, key, &connections);
}

pub fn sizes_out_of_range(rng: &mut Rng, state: &mut State) {
    if rng.one_in(2) {
        state.l = rng.pick(&[0, 100_001, u64::MAX]);
    } else {
        state.q = rng.pick(&[0, 4_097, u64::MAX]);
    }
}

pub fn above_l(rng: &mut Rng, state: &mut State) {
    request(rng, state, Kind::Txid);
    request(rng, state, Kind::Wtxid);
    state.l = state.held() - 1 - rng.index(2) as u64 * rng.below(state.held() - 1);
}

pub fn above_q(rng: &mut Rng, state: &mut State) {
    place(rng, state);
    place(rng, state);
    state.q = state.places_held() - 1;
}

pub fn just_l_and_q(rng: &mut Rng, state: &mut State) {
    place(rng, state);
    (state.l, state.q) = (state.held(), state.places_held());
}

pub fn connection_0(rng: &mut Rng, state: &mut State) {
    let kind = any_kind(rng);
    let at = request(rng, state, kind);
    let last = state.requests[at].candidates.last_mut().expect("a candidate");
    last.connection = 0;
}

pub fn no_candidate(rng: &mut Rng, state: &mut State) {
    let kind = any_kind(rng);
    let at = request(rng, state, kind);
    state.requests[at].candidates.clear();
}

pub fn item_of_another_key(rng: &mut Rng, state: &mut State) {
    let kind = any_kind(rng);
    let at = request(rng, state, kind);
    let hash = state.requests[at].key.hash;
    let other = fresh_hash(rng, state);
    let items = match kind {
        Kind::Txid => [Item::WTx(hash), Item::Transaction(other), Item::Other(7, hash)],
        Kind::Wtxid => [Item::Transaction(hash), Item::WTx(other), Item::Other(6, hash)],
    };
    let candidates = &mut state.requests[at].candidates;
    let last = rng.index(candidates.len());
    candidates[last].item = rng.pick(&items);
}

pub fn owner_no_candidate(rng: &mut Rng, state: &mut State) {
    let kind = any_kind(rng);
    let at = request(rng, state, kind);
    let connection = if rng.one_in(4) { 0 } else { fresh(rng, 1)[0] };
    state.requests[at].owner = Some(Owner { connection, deadline: rng.word() });
}

pub fn place_without_owner(rng: &mut Rng, state: &mut State) {
    let at = place(rng, state);
    state.requests[at].owner = None;
}

pub fn place_on_txid(rng: &mut Rng, state: &mut State) {
    let at = owned(rng, state, Kind::Txid);
    hold(rng, &mut state.requests[at]);
    state.q = state.q.max(state.places_held());
}

pub fn flag_and_package(rng: &mut Rng, state: &mut State) {
    let at = place(rng, state);
    state.requests[at].package_info = true;
    state.requests[at].package = package(rng, 1);
}

pub fn parents_alone(rng: &mut Rng, state: &mut State) {
    let kind = any_kind(rng);
    let at = owned(rng, state, kind);
    state.requests[at].parents = distinct(rng, 1);
}

pub fn a_parent_twice(rng: &mut Rng, state: &mut State) {
    let at = place(rng, state);
    let count = 1 + rng.index(MAX_PARENTS - 1);
    let mut list = distinct(rng, count);
    list.insert(rng.index(count + 1), list[rng.index(count)]);
    state.requests[at].parents = list;
}

pub fn mark_on_wtxid(rng: &mut Rng, state: &mut State) {
    let at = request(rng, state, Kind::Wtxid);
    state.requests[at].fallback = true;
}

pub fn connection_twice(rng: &mut Rng, state: &mut State) {
    let key = Key { kind: any_kind(rng), hash: fresh_hash(rng, state) };
    let count = 1 + rng.index(MAX_AT_HASH - 1);
    let mut connections = fresh(rng, count);
    connections.insert(rng.index(count + 1), connections[rng.index(count)]);
    add(rng, state, key, &connections);
}

/// Two requests of one hash, with so many candidates together. Where the second stands.
fn both_kinds(rng: &mut Rng, state: &mut State, connections: &[u64]) -> [usize; 2] {
    let hash = fresh_hash(rng, state);
    let part = 1 + rng.index(connections.len() - 1);
    let first = add(rng, state, Key::txid(hash), &connections[..part]);
    [first, add(rng, state, Key::wtxid(hash), &connections[part..])]
}

pub fn connection_at_both_kinds(rng: &mut Rng, state: &mut State) {
    let count = 1 + rng.index(MAX_AT_HASH - 2);
    let mut connections = fresh(rng, count);
    connections.push(connections[0]);
    let hash = fresh_hash(rng, state);
    add(rng, state, Key::txid(hash), &connections[..count]);
    add(rng, state, Key::wtxid(hash), &connections[count..]);
}

pub fn both_kinds_owned(rng: &mut Rng, state: &mut State) {
    let connections = fresh(rng, 4);
    for at in both_kinds(rng, state, &connections) {
        own(rng, &mut state.requests[at]);
    }
}

pub fn nine_at_a_key(rng: &mut Rng, state: &mut State) {
    let kind = any_kind(rng);
    let (key, connections) = (fresh_key(rng, state, kind), fresh(rng, MAX_AT_HASH + 1));
    add(rng, state, key, &connections);
}

pub fn nine_over_both_kinds(rng: &mut Rng, state: &mut State) {
    let connections = fresh(rng, MAX_AT_HASH + 1);
    both_kinds(rng, state, &connections);
}

pub fn eight_over_both_kinds(rng: &mut Rng, state: &mut State) {
    let connections = fresh(rng, MAX_AT_HASH);
    let [first, _] = both_kinds(rng, state, &connections);
    own(rng, &mut state.requests[first]);
}

/// So many requests of one connection, among those of the state, owned or not.
fn of_one(rng: &mut Rng, state: &mut State, count: u64, owned: bool) {
    let connection = fresh(rng, 1)[0];
    for number in 0..count {
        // high hashes and low ones, between those of the state
        let mut bytes = [0; 32];
        bytes[rng.index(2) * 24..][..8].copy_from_slice(&(number << 16 | 1 << 40).to_le_bytes());
        bytes[16..20].copy_from_slice(&[0x5a; 4]);
        let key = Key { kind: any_kind(rng), hash: Hash(bytes) };
        let company = rng.index(2);
        let mut connections = fresh(rng, company);
        connections.insert(rng.index(connections.len() + 1), connection);
        let mut request = made(rng, key, &connections);
        request.owner = owned.then_some(Owner { connection, deadline: number });
        state.requests.push(request);
    }
    state.requests.sort_by_key(|request| request.key);
    state.l = state.l.max(state.held());
}

pub fn owns_100(rng: &mut Rng, state: &mut State) {
    of_one(rng, state, MAX_OWNED, true);
}

pub fn owns_101(rng: &mut Rng, state: &mut State) {
    of_one(rng, state, MAX_OWNED + 1, true);
}

pub fn has_5000(rng: &mut Rng, state: &mut State) {
    of_one(rng, state, MAX_OF_CONNECTION, false);
}

pub fn has_5001(rng: &mut Rng, state: &mut State) {
    of_one(rng, state, MAX_OF_CONNECTION + 1, false);
}
