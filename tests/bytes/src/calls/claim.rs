//! claim.

use std::collections::{BTreeMap, BTreeSet};

use oracle::calls::{Call, Entry, Hash, Item, Key, Kind, LAST_CLOCK, Reply};
use oracle::image::row;
use oracle::sound::MAX_OWNED;
use tracker::abi;

use super::{COMMON, Hands, Spec};
use crate::ask::{ENTRY, Given, Lent, entry_bytes};
use crate::draw::Draw;
use crate::reference::Reference;

const TAKEN: &str = "taken";

pub static SPEC: Spec = Spec {
    name: "claim",
    weights: [4, 20],
    refusals: &[3, 5, 7],
    hands: Hands::Entries,
    need: |given, _| match given {
        Given::On(Call::Claim { checked, .. }) => ENTRY * checked.len(),
        _ => unreachable!(),
    },
    draw,
    link,
    cases: &[
        "no entry",
        "none taken",
        "some taken",
        "all taken",
        TAKEN,
        "connection 0",
        "an item without a key",
        "an item of another key",
        "the hash is owned",
        "the hash was taken before",
        "no candidate",
        "another item",
        "another ready time",
        "another preference",
        "another priority",
        "not ready",
        "its connection owns 100",
        "its connection owns 100 with what was taken",
        "not what plan would choose",
    ],
    case,
    also,
    mistakes: &[
        ("the list from the last to the first", |call| match call.clone() {
            Call::Claim { now, mut checked } => {
                checked.reverse();
                Some(Call::Claim { now, checked })
            }
            _ => None,
        }),
        ("a claim a millisecond earlier", |call| match call.clone() {
            Call::Claim { now, checked } => Some(Call::Claim { now: now.saturating_sub(1), checked }),
            _ => None,
        }),
        ("an entry's item set right", |call| match call.clone() {
            Call::Claim { now, mut checked } => {
                for entry in &mut checked {
                    if entry.key.kind == Kind::Wtxid {
                        entry.candidate.item = Item::WTx(entry.key.hash);
                    }
                }
                Some(Call::Claim { now, checked })
            }
            _ => None,
        }),
    ],
    ..COMMON
};

/// The last plan, or entries of the state, whole or with something changed.
fn draw(draw: &mut Draw, seen: &Reference) -> Given {
    let mut checked = draw.planned.entries.clone();
    let mut now = draw.planned.now;
    let count = seen.rows().len();
    if checked.is_empty() || draw.rng.one_in(3) {
        let most = if draw.rng.one_in(6) { 300 } else { 6 };
        checked = (0..draw.rng.index(most)).filter(|_| count > 0).map(|_| entry_at(draw, seen)).collect();
    }
    match draw.rng.below(8) {
        0 => now = draw.clock(),
        1 => now = draw.rng.below(5),
        2 => now = LAST_CLOCK - draw.rng.below(2),
        3 => now = draw.rng.word().min(LAST_CLOCK),
        _ => {}
    }
    match draw.rng.below(10) {
        0 => checked.reverse(),
        1 => draw.rng.shuffle(&mut checked),
        2 if !checked.is_empty() => {
            let (from, to) = (draw.rng.index(checked.len()), draw.rng.index(checked.len() + 1));
            checked.insert(to, checked[from]);
        }
        3..=5 if !checked.is_empty() => {
            for _ in 0..1 + draw.rng.index(3) {
                let i = draw.rng.index(checked.len());
                change(draw, &mut checked[i]);
            }
        }
        _ => {}
    }
    Given::On(Call::Claim { now, checked })
}

/// A candidate of the state as an entry.
pub fn entry_at(draw: &mut Draw, seen: &Reference) -> Entry {
    let i = draw.rng.index(seen.rows().len());
    seen.entry_at(i)
}

pub fn change(draw: &mut Draw, entry: &mut Entry) {
    let (hash, candidate) = (entry.key.hash, &mut entry.candidate);
    match draw.rng.below(14) {
        0 | 1 => candidate.connection = 0,
        2 => candidate.connection = draw.connection(),
        3 => candidate.ready = candidate.ready.wrapping_add(1),
        4 => candidate.preferred ^= true,
        5 => candidate.priority ^= 1 << draw.rng.below(64),
        6 => candidate.item = Item::Other(draw.other_type(), hash),
        7 => candidate.item = Item::Transaction(hash),
        8 => candidate.item = Item::WitnessTransaction(hash),
        9 => candidate.item = Item::WTx(hash),
        10 => candidate.item = draw.item(),
        11 => entry.key = Key::txid(hash),
        12 => entry.key = Key::wtxid(hash),
        _ => entry.key.hash = draw.hash(),
    }
}

fn case(call: &Call, _: &Reference, reply: &Reply) -> &'static str {
    let (Call::Claim { checked, .. }, Reply::Entries(taken)) = (call, reply) else { unreachable!() };
    match taken.len() {
        _ if checked.is_empty() => "no entry",
        0 => "none taken",
        n if n == checked.len() => "all taken",
        _ => "some taken",
    }
}

/// Why each entry is taken or passed over.
fn also(call: &Call, seen: &Reference, reply: &Reply) -> Vec<&'static str> {
    let (Call::Claim { now, checked }, Reply::Entries(taken)) = (call, reply) else { unreachable!() };
    let mut left = taken.iter().peekable();
    let (mut hashes, mut counts): (BTreeSet<Hash>, BTreeMap<u64, u64>) = Default::default();
    let mut cases = BTreeSet::new();
    for entry in checked {
        let why = if left.peek() == Some(&entry) && !hashes.contains(&entry.key.hash) {
            TAKEN
        } else {
            passed_over(seen, *now, entry, &hashes, &counts)
        };
        if why == TAKEN {
            left.next();
            hashes.insert(entry.key.hash);
            *counts.entry(entry.candidate.connection).or_default() += 1;
        }
        cases.insert(why);
    }
    cases.into_iter().collect()
}

fn passed_over(
    seen: &Reference,
    now: u64,
    entry: &Entry,
    hashes: &BTreeSet<Hash>,
    counts: &BTreeMap<u64, u64>,
) -> &'static str {
    let (Key { hash, .. }, candidate) = (entry.key, &entry.candidate);
    let at = seen.at(entry.key).find(|i| seen.rows()[*i][row::CONNECTION] == candidate.connection);
    let standing = at.map(|i| seen.entry_at(i).candidate);
    let owning = seen.find(candidate.connection).map_or(0, |i| seen.entries()[i][2]);
    let more = counts.get(&candidate.connection).copied().unwrap_or(0);
    match (candidate.item.key(), standing) {
        _ if candidate.connection == 0 => "connection 0",
        (None, _) => "an item without a key",
        (Some(key), _) if key != entry.key => "an item of another key",
        _ if hashes.contains(&hash) => "the hash was taken before",
        _ if [Key::txid(hash), Key::wtxid(hash)].iter().any(|key| seen.owner_of(*key).is_some()) => {
            "the hash is owned"
        }
        (_, None) => "no candidate",
        (_, Some(held)) if held.item != candidate.item => "another item",
        (_, Some(held)) if held.ready != candidate.ready => "another ready time",
        (_, Some(held)) if held.preferred != candidate.preferred => "another preference",
        (_, Some(held)) if held.priority != candidate.priority => "another priority",
        _ if candidate.ready > now => "not ready",
        _ if owning >= MAX_OWNED => "its connection owns 100",
        _ if owning + more >= MAX_OWNED => "its connection owns 100 with what was taken",
        _ => "not what plan would choose",
    }
}

/// An entry as C may write it: any number but 0 is a Wtxid's kind and a preference, and a type has 32 bits.
pub fn odd(entry: &Entry) -> [u8; ENTRY] {
    let mut bytes = entry_bytes(entry);
    let Hash(hash) = entry.key.hash;
    if hash[6] % 4 == 0 {
        let (kind, kind_high, preferred) = (0, 7, 96);
        bytes[kind_high] = if bytes[kind] == 1 { hash[7] } else { 0 };
        bytes[preferred + 1] = if bytes[preferred] == 1 { hash[8] } else { 0 };
        bytes[52..56].copy_from_slice(&hash[9..13]);
    }
    bytes
}

fn link(given: &Given, lent: Lent) -> u64 {
    let Given::On(Call::Claim { now, checked }) = given else { unreachable!() };
    let mut list: Vec<u8> = checked.iter().flat_map(odd).collect();
    list.extend(lent.rest);
    // SAFETY: store, buffer and count are lent to this call alone; the list is only read.
    unsafe {
        abi::tracker_claim(
            lent.store.as_mut_ptr(),
            lent.store.len(),
            *now,
            list.as_ptr(),
            list.len(),
            lent.buffer.as_mut_ptr(),
            lent.buffer.len(),
            &mut lent.out[0],
        )
    }
}
