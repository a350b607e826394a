//! A second reading, to test `image::read` by: bytes are sound if they are, as far as
//! the need, the image of the state that they seem to write, and that state is sound.

use std::collections::BTreeMap;

use oracle::calls::{Candidate, Hash, Item, Key};
use oracle::image::{self, HASH, HEADER, LIST, PLACE, ROW, WORD, header, place, row};
use oracle::sound;
use oracle::state::{Owner, Package, Request, State};

pub fn sound(bytes: &[u8]) -> bool {
    seeming(bytes).is_some_and(|state| {
        sound::breach(&state).is_none() && image::image(&state) == bytes[..image::need(state.l, state.q)]
    })
}

fn word(bytes: &[u8], at: usize) -> u64 {
    u64::from_le_bytes(bytes[WORD * at..WORD * (at + 1)].try_into().expect("a word"))
}

fn hash(bytes: &[u8], at: usize) -> Hash {
    Hash(bytes[WORD * at..WORD * (at + HASH)].try_into().expect("a hash"))
}

fn hashes(bytes: &[u8], count: u64, at: usize) -> Vec<Hash> {
    (0..LIST.min(count as usize)).map(|i| hash(bytes, at + HASH * i)).collect()
}

fn cursor(bytes: &[u8], at: usize) -> Option<Key> {
    match word(bytes, at) {
        0 => None,
        1 => Some(Key::txid(hash(bytes, at + 1))),
        _ => Some(Key::wtxid(hash(bytes, at + 1))),
    }
}

/// None only where no image can be meant.
fn seeming(bytes: &[u8]) -> Option<State> {
    if bytes.len() < WORD * HEADER {
        return None;
    }
    let [l, q] = [header::L, header::Q].map(|at| word(bytes, at));
    if !sound::opens(l, q) || bytes.len() < image::need(l, q) {
        return None;
    }
    let mut requests = BTreeMap::new();
    for i in 0..word(bytes, header::ROWS).min(l) as usize {
        put_row(bytes, HEADER + ROW * i, &mut requests);
    }
    for i in 0..word(bytes, header::PLACES).min(q) as usize {
        put_place(bytes, image::places_at(l) + PLACE * i, &mut requests)?;
    }
    Some(State {
        l,
        q,
        next_poll: (word(bytes, header::NEXT_POLL) != 0).then(|| word(bytes, header::NEXT_POLL + 1)),
        known_cursor: cursor(bytes, header::KNOWN_CURSOR),
        ready_cursor: cursor(bytes, header::READY_CURSOR),
        requests: requests.into_values().collect(),
    })
}

fn put_row(bytes: &[u8], at: usize, requests: &mut BTreeMap<Key, Request>) {
    let has = |bit| word(bytes, at + row::BITS) & bit != 0;
    let hash = hash(bytes, at);
    let item = match (has(row::WTXID), has(row::WITNESS)) {
        (true, _) => Item::WTx(hash),
        (_, true) => Item::WitnessTransaction(hash),
        _ => Item::Transaction(hash),
    };
    let key = item.key().expect("one of the three kinds");
    let request = requests.entry(key).or_insert(Request::new(key, has(row::MARK)));
    let [connection, ready, priority, deadline] =
        [row::CONNECTION, row::READY, row::PRIORITY, row::DEADLINE].map(|field| word(bytes, at + field));
    request.candidates.push(Candidate { connection, item, ready, preferred: has(row::PREFERRED), priority });
    if has(row::OWNS) {
        request.owner = Some(Owner { connection, deadline });
    }
}

fn put_place(bytes: &[u8], at: usize, requests: &mut BTreeMap<Key, Request>) -> Option<()> {
    let request = requests.get_mut(&Key::wtxid(hash(bytes, at)))?;
    request.parents = hashes(bytes, word(bytes, at + place::PARENT_COUNT), at + place::PARENTS);
    let stage = word(bytes, at + place::STAGE);
    request.package_info = stage == place::FLAG;
    request.package = (stage != place::FLAG).then(|| Package {
        combined: hash(bytes, at + place::COMBINED),
        wtxids: hashes(bytes, word(bytes, at + place::WTXID_COUNT), at + place::WTXIDS),
        enqueued: stage == place::ENQUEUED,
    });
    Some(())
}
