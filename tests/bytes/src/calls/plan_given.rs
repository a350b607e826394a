//! plan over given keys.

use std::collections::BTreeSet;

use oracle::calls::{Call, Key, Reply};
use tracker::abi;

use super::plan::{CHECKS, EARLIER, case, clock, common, need, parents_selected};
use super::{COMMON, Hands, Spec, named};
use crate::ask::{Given, Lent};
use crate::draw::Draw;
use crate::reference::Reference;

pub static SPEC: Spec = Spec {
    name: "plan_given",
    weights: [2, 10],
    refusals: &[3, 5, 7],
    hands: Hands::Plan,
    need,
    draw,
    link,
    cases: &[
        "no key",
        "nothing ready",
        "some selected",
        "1,024 selected",
        "1,025 selected",
        "no key given",
        "a key given twice",
        "a key given that is unknown",
        "a key given whose other kind alone is known",
        "a key given that is owned",
        "stopped before the last key given",
        "parents considered and not selected",
        "200 parents considered",
        "an owner expired",
        "an owner at its deadline",
        "an owner a millisecond before its deadline",
        "an expired owner without other candidates",
        "100 owners expired",
        "parents of an expired owner",
        "an Enqueued owner stays, its parents announced",
        "a parent selected",
        "200 parents selected",
        "the clock went back: an owner with more than its time",
        "a ready one of a connection that owns 100",
        "100 of a connection with what is selected",
        "both kinds of a hash ready, the Txid selected",
        "both kinds of a hash ready, the Wtxid selected",
        "selected with equal priorities",
    ],
    case,
    also,
    mistakes: &[
        EARLIER,
        ("a plan over all keys", |call| match *call {
            Call::Plan { now, .. } => Some(Call::Plan { now, keys: None }),
            _ => None,
        }),
        ("a repeat not counted", |call| match call.clone() {
            Call::Plan { now, keys: Some(keys) } => {
                let mut seen = BTreeSet::new();
                let keys = keys.into_iter().filter(|key| seen.insert(*key)).collect();
                Some(Call::Plan { now, keys: Some(keys) })
            }
            _ => None,
        }),
        ("the keys from the last to the first", |call| match call.clone() {
            Call::Plan { now, keys: Some(mut keys) } => {
                keys.reverse();
                Some(Call::Plan { now, keys: Some(keys) })
            }
            _ => None,
        }),
    ],
    ..COMMON
};

/// Keys of the state as a rule, in any order; repeats and unknown ones among them.
fn draw(draw: &mut Draw, seen: &Reference) -> Given {
    let now = clock(draw, seen);
    let count = match draw.rng.below(12) {
        _ if draw.profile.large && draw.rng.one_in(2) => 1_025 + draw.rng.index(5_000),
        0 => 0,
        1 => draw.rng.index(2_000),
        2 => 1_025 + draw.rng.index(400),
        3..=5 => draw.rng.index(300),
        _ => draw.rng.index(8),
    };
    let mut keys: Vec<Key> = Vec::with_capacity(count);
    for _ in 0..count {
        let key = match draw.rng.below(12) {
            0 => draw.any().key,
            1 if !keys.is_empty() => draw.rng.pick(&keys),
            2 => other_kind(draw.any().key),
            _ => draw.row(seen).unwrap_or_else(|| draw.any()).key,
        };
        keys.push(if draw.rng.one_in(20) { other_kind(key) } else { key });
    }
    if draw.rng.one_in(4) {
        keys.sort_unstable();
    }
    Given::On(Call::Plan { now, keys: Some(keys) })
}

fn other_kind(key: Key) -> Key {
    let txid = Key::txid(key.hash);
    if key == txid { Key::wtxid(key.hash) } else { txid }
}

fn also(call: &Call, seen: &Reference, reply: &Reply) -> Vec<&'static str> {
    let (Call::Plan { now, keys: Some(keys) }, Reply::Planned(considered, entries, _)) = (call, reply) else {
        unreachable!()
    };
    let mut cases = common(call, seen, reply);
    cases.extend(keys.is_empty().then_some("no key given"));
    let different: BTreeSet<&Key> = keys.iter().collect();
    cases.extend((different.len() < keys.len()).then_some("a key given twice"));
    let known = |key: Key| !seen.at(key).is_empty();
    let unknown = different.iter().any(|key| !known(**key) && !known(other_kind(**key)));
    cases.extend(unknown.then_some("a key given that is unknown"));
    let other = different.iter().any(|key| !known(**key) && known(other_kind(**key)));
    cases.extend(other.then_some("a key given whose other kind alone is known"));
    let owned = different.iter().any(|key| seen.owner_of(**key).is_some());
    cases.extend(owned.then_some("a key given that is owned"));
    if (entries.len() as u64) < CHECKS {
        // Every given key was considered, and the parents before them.
        let parents = *considered as usize - keys.len();
        cases.extend((parents > parents_selected(seen, *now, entries)).then_some("parents considered and not selected"));
        cases.extend((parents >= 200).then_some("200 parents considered"));
    } else {
        cases.extend((*considered < keys.len() as u64).then_some("stopped before the last key given"));
    }
    cases
}

/// 40 bytes: a word for the kind, of which any but 0 is a Wtxid's, and the hash.
fn key_bytes(key: &Key) -> Vec<u8> {
    let (kind, hash) = named(key);
    [&kind.to_le_bytes()[..], hash].concat()
}

fn link(given: &Given, lent: Lent) -> u64 {
    let Given::On(Call::Plan { now, keys: Some(keys) }) = given else { unreachable!() };
    let mut list: Vec<u8> = keys.iter().flat_map(key_bytes).collect();
    list.extend(lent.rest);
    let (store, length) = (lent.store.as_mut_ptr(), lent.store.len());
    let (answer, room) = (lent.buffer.as_mut_ptr(), lent.buffer.len());
    let [considered, count, next, ..] = lent.out;
    // SAFETY: store, buffer and counts are lent to this call alone; the list is only read.
    unsafe {
        abi::tracker_plan_given(
            store,
            length,
            *now,
            list.as_ptr(),
            list.len(),
            answer,
            room,
            considered,
            count,
            next,
        )
    }
}
