//! announce_parents.

use std::collections::BTreeSet;

use oracle::calls::{Call, Candidate, Item, Key, Reply};
use oracle::image::row;
use tracker::abi;

use super::request_parent::request_parent;
use super::{COMMON, Hands, Spec, keys_need};
use crate::ask::{Given, Lent};
use crate::reference::Reference;
use crate::tally::Tally;

pub static SPEC: Spec = Spec {
    name: "announce_parents",
    weights: [15, 8],
    refusals: &[3, 4, 5, 6, 7],
    hands: Hands::Keys,
    need: keys_need,
    draw: |draw, _| {
        let (connection, now, parents) = (draw.connection(), draw.clock(), draw.hashes());
        Given::On(Call::AnnounceParents { connection, now, parents })
    },
    link,
    follow: Some(follow),
    mistakes: &[("parents from the last to the first", |call| match call.clone() {
        Call::AnnounceParents { connection, now, mut parents } => {
            parents.reverse();
            Some(Call::AnnounceParents { connection, now, parents })
        }
        _ => None,
    })],
    ..COMMON
};

fn link(given: &Given, lent: Lent) -> u64 {
    let Given::On(Call::AnnounceParents { connection, now, parents }) = given else { unreachable!() };
    let parents = lent.list(parents);
    // SAFETY: store, buffer and count are lent to this call alone; the parents are only read.
    unsafe {
        abi::tracker_announce_parents(
            lent.store.as_mut_ptr(),
            lent.store.len(),
            *connection,
            parents.as_ptr(),
            parents.len(),
            *now,
            lent.buffer.as_mut_ptr(),
            lent.buffer.len(),
            &mut lent.out[0],
        )
    }
}

fn follow(reference: &mut Reference, call: &Call, tally: &mut Tally) -> Reply {
    let Call::AnnounceParents { connection, now, parents } = call else { unreachable!() };
    let mut seen = BTreeSet::new();
    let mut keys = Vec::new();
    for (hash, priority) in parents.iter().filter(|hash| seen.insert(**hash)).zip(0..) {
        let item = Item::Transaction(*hash);
        let parent = Candidate { connection: *connection, item, ready: *now, preferred: true, priority };
        let event = request_parent(reference, &parent, tally);
        tally.event(event);
        if event.kept() {
            let key = Key::txid(*hash);
            for i in reference.at(key) {
                reference.row_mut(i)[row::BITS] |= row::MARK;
            }
            keys.push(key);
        }
    }
    Reply::Keys(keys)
}
