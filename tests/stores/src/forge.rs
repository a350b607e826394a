//! States that are not sound, for images whose only fault is the state: the rows are in
//! order and the connections' counts follow from them.

use oracle::calls::{Candidate, Item, Key};
use oracle::random::Rng;
use oracle::sound::{MAX_AT_HASH, MAX_L, MAX_OF_CONNECTION, MAX_OWNED, MAX_PARENTS, MAX_Q, MAX_WTXIDS};
use oracle::state::{Owner, Request, State};

/// Changes a sound state; does nothing and says so if it has nothing of the kind.
pub type Forge = fn(&mut State, &mut Rng) -> bool;

pub const KINDS: &[(&str, Forge)] = &[
    ("candidates added at a hash", crowd),
    ("a connection twice at a key", twice),
    ("a connection under both kinds", both_kinds),
    ("both kinds owned", both_owned),
    ("connection 0", connection_0),
    ("v under a Wtxid key", witness),
    ("a mark under a Wtxid key", mark),
    ("a place without owner", idle),
    ("a place without rows", stray),
    ("a place on a Txid key", txid_place),
    ("more held than L", full),
    ("more places than Q", no_places),
    ("no wtxid", no_wtxid),
    ("101 wtxids", many_wtxids),
    ("a parent twice", parent_twice),
    ("101 parents", many_parents),
];

/// Large images, so a few of each: the limits of opening and of a connection, met and passed.
pub const LARGE: &[(&str, Forge)] = &[
    ("L at its limits", |state, rng| {
        state.l = rng.pick(&[0, MAX_L, MAX_L + 1]);
        true
    }),
    ("Q at its limits", |state, rng| {
        state.q = rng.pick(&[0, MAX_Q, MAX_Q + 1]);
        true
    }),
    ("5,000 rows of a connection or more", |state, rng| {
        let count = MAX_OF_CONNECTION + rng.below(2);
        of_one(state, rng, count, 0)
    }),
    ("100 owning rows of a connection or more", |state, rng| {
        let count = MAX_OWNED + rng.below(2);
        of_one(state, rng, count, count)
    }),
];

/// As many requests of one connection, the first ones owned.
fn of_one(state: &mut State, rng: &mut Rng, count: u64, owned: u64) -> bool {
    let connection = rng.word().max(1);
    let mut hashes: Vec<_> = std::iter::repeat_with(|| rng.hash()).take(4 * count as usize).collect();
    hashes.sort_unstable();
    hashes.dedup();
    hashes.truncate(count as usize);
    state.l = count;
    state.requests = hashes
        .into_iter()
        .zip(0..)
        .map(|(hash, i)| {
            let mut request = request(Key::wtxid(hash), connection);
            request.owner = (i < owned).then_some(Owner { connection, deadline: i });
            request
        })
        .collect();
    state.held() == count
}

fn request(key: Key, connection: u64) -> Request {
    let item = if key == Key::wtxid(key.hash) { Item::WTx(key.hash) } else { Item::Transaction(key.hash) };
    let candidates = vec![Candidate { connection, item, ready: 0, preferred: false, priority: 0 }];
    Request { candidates, ..Request::new(key, false) }
}

fn one<'a>(state: &'a mut State, rng: &mut Rng, of: impl Fn(&Request) -> bool) -> Option<&'a mut Request> {
    let fit: Vec<usize> = (0..state.requests.len()).filter(|i| of(&state.requests[*i])).collect();
    (!fit.is_empty()).then(|| rng.pick(&fit)).map(|i| &mut state.requests[i])
}

fn is_wtxid(request: &Request) -> bool {
    request.key == Key::wtxid(request.key.hash)
}

/// A request of the other kind, with an owner or without.
fn beside(state: &mut State, rng: &mut Rng, of: impl Fn(&Request) -> bool, same: bool, owned: bool) -> bool {
    let Some(found) = one(state, rng, of) else {
        return false;
    };
    let (hash, wtxid) = (found.key.hash, is_wtxid(found));
    let connection = if same { found.candidates[0].connection } else { rng.word().max(1) };
    let key = if wtxid { Key::txid(hash) } else { Key::wtxid(hash) };
    let mut other = request(key, connection);
    other.owner = owned.then_some(Owner { connection, deadline: 5 });
    match state.requests.binary_search_by_key(&key, |request| request.key) {
        Ok(_) => false,
        Err(at) => {
            state.requests.insert(at, other);
            state.l = state.l.max(state.held());
            true
        }
    }
}

/// Up to one more than the limit, so that some are sound.
fn crowd(state: &mut State, rng: &mut Rng) -> bool {
    let most = MAX_AT_HASH - 1 + rng.index(3);
    let Some(found) = one(state, rng, |_| true) else {
        return false;
    };
    let mut next = found.candidates[0];
    while found.candidates.len() < most {
        next.connection = rng.next().max(1);
        found.candidates.push(next);
    }
    state.l = state.l.max(state.held());
    true
}

fn twice(state: &mut State, rng: &mut Rng) -> bool {
    let Some(found) = one(state, rng, |_| true) else {
        return false;
    };
    let again = found.candidates[0];
    found.candidates.push(again);
    if found.owned_by(again.connection) {
        found.owner = None;
    }
    state.l = state.l.max(state.held());
    true
}

fn both_kinds(state: &mut State, rng: &mut Rng) -> bool {
    beside(state, rng, |_| true, true, false)
}

fn both_owned(state: &mut State, rng: &mut Rng) -> bool {
    beside(state, rng, |request| request.owner.is_some(), false, true)
}

fn connection_0(state: &mut State, rng: &mut Rng) -> bool {
    let Some(found) = one(state, rng, |_| true) else {
        return false;
    };
    let old = std::mem::take(&mut found.candidates[0].connection);
    if let Some(owner) = found.owner.as_mut().filter(|owner| owner.connection == old) {
        owner.connection = 0;
    }
    true
}

fn witness(state: &mut State, rng: &mut Rng) -> bool {
    let found = one(state, rng, is_wtxid);
    found.map(|request| request.candidates[0].item = Item::WitnessTransaction(request.key.hash)).is_some()
}

fn mark(state: &mut State, rng: &mut Rng) -> bool {
    one(state, rng, is_wtxid).map(|request| request.fallback = true).is_some()
}

fn idle(state: &mut State, rng: &mut Rng) -> bool {
    one(state, rng, Request::holds_place).map(|request| request.owner = None).is_some()
}

fn stray(state: &mut State, rng: &mut Rng) -> bool {
    one(state, rng, Request::holds_place).map(|request| request.candidates.clear()).is_some()
}

/// Its rows turn to the Txid kind; a Txid request of the same hash goes.
fn txid_place(state: &mut State, rng: &mut Rng) -> bool {
    let Some(found) = one(state, rng, Request::holds_place) else {
        return false;
    };
    let old = found.key;
    let key = Key::txid(old.hash);
    found.key = key;
    state.requests.retain(|request| request.key != key || request.holds_place());
    state.requests.sort_by_key(|request| request.key);
    old != key
}

fn full(state: &mut State, _: &mut Rng) -> bool {
    let held = state.held();
    state.l = held.max(2) - 1;
    held > 1
}

fn no_places(state: &mut State, _: &mut Rng) -> bool {
    let held = state.places_held();
    state.q = held.max(2) - 1;
    held > 1
}

fn has_package(request: &Request) -> bool {
    request.package.is_some()
}

fn no_wtxid(state: &mut State, rng: &mut Rng) -> bool {
    let found = one(state, rng, has_package);
    found.and_then(|request| request.package.as_mut()).map(|package| package.wtxids.clear()).is_some()
}

fn many_wtxids(state: &mut State, rng: &mut Rng) -> bool {
    let more = rng.hash();
    let found = one(state, rng, has_package);
    found
        .and_then(|request| request.package.as_mut())
        .map(|package| package.wtxids.resize(MAX_WTXIDS + 1, more))
        .is_some()
}

fn parent_twice(state: &mut State, rng: &mut Rng) -> bool {
    let found = one(state, rng, |request| (1..MAX_PARENTS).contains(&request.parents.len()));
    found.map(|request| request.parents.push(request.parents[0])).is_some()
}

fn many_parents(state: &mut State, rng: &mut Rng) -> bool {
    let Some(found) = one(state, rng, Request::holds_place) else {
        return false;
    };
    while found.parents.len() <= MAX_PARENTS {
        let parent = rng.hash();
        if !found.parents.contains(&parent) {
            found.parents.push(parent);
        }
    }
    true
}
