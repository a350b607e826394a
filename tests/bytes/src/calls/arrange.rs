//! arrange.

use std::collections::BTreeSet;

use oracle::calls::{Call, Entry, Item, Reply};
use oracle::image::row;
use tracker::abi;

use super::claim::{change, entry_at, odd};
use super::{COMMON, Hands, Spec};
use crate::ask::{ENTRY, Given, Lent};
use crate::draw::Draw;
use crate::reference::Reference;

pub static SPEC: Spec = Spec {
    name: "arrange",
    weights: [3, 10],
    refusals: &[3, 4, 7],
    hands: Hands::Entries,
    need: |given, _| match given {
        Given::On(Call::Arrange { taken, .. }) => ENTRY * taken.len(),
        _ => unreachable!(),
    },
    draw,
    link,
    cases: &[
        "no entry",
        "in order already",
        "put in order",
        "two of a connection, another between them",
        "t of a marked request turns v",
        "t of a marked request, no witness connection",
        "t of an unmarked request stays",
        "v and w stay",
        "no request at the key",
        "connection 0",
        "an item without a key",
        "an item of another key",
    ],
    case,
    also,
    mistakes: &[
        ("no witness connection", |call| match call.clone() {
            Call::Arrange { taken, .. } => Some(Call::Arrange { taken, witness: Vec::new() }),
            _ => None,
        }),
        ("the list from the last to the first", |call| match call.clone() {
            Call::Arrange { mut taken, witness } => {
                taken.reverse();
                Some(Call::Arrange { taken, witness })
            }
            _ => None,
        }),
    ],
    ..COMMON
};

/// What was taken last, or entries of the state, at times with something changed; witnesses among their connections.
fn draw(draw: &mut Draw, seen: &Reference) -> Given {
    let mut taken = draw.taken.clone();
    if taken.is_empty() || draw.rng.one_in(3) {
        let most = if draw.rng.one_in(6) { 200 } else { 9 };
        let count = if seen.rows().is_empty() { 0 } else { draw.rng.index(most) };
        taken = (0..count).map(|_| entry_at(draw, seen)).collect();
    }
    if !taken.is_empty() && draw.rng.one_in(4) {
        let i = draw.rng.index(taken.len());
        change(draw, &mut taken[i]);
    }
    let mut witness = Vec::new();
    for entry in &taken {
        if draw.rng.one_in(2) && entry.candidate.connection != 0 {
            witness.push(entry.candidate.connection);
        }
    }
    if draw.rng.one_in(3) {
        witness.push(draw.connection());
    }
    draw.rng.shuffle(&mut witness);
    Given::On(Call::Arrange { taken, witness })
}

fn connections(list: &[Entry]) -> Vec<u64> {
    list.iter().map(|entry| entry.candidate.connection).collect()
}

fn case(call: &Call, _: &Reference, _: &Reply) -> &'static str {
    let Call::Arrange { taken, .. } = call else { unreachable!() };
    match connections(taken) {
        list if list.is_empty() => "no entry",
        list if list.is_sorted() => "in order already",
        _ => "put in order",
    }
}

fn also(call: &Call, seen: &Reference, _: &Reply) -> Vec<&'static str> {
    let Call::Arrange { taken, witness } = call else { unreachable!() };
    let mut cases: BTreeSet<&'static str> =
        taken.iter().map(|entry| about(seen, entry, witness.contains(&entry.candidate.connection))).collect();
    let mut runs = connections(taken);
    runs.dedup();
    let different: BTreeSet<u64> = runs.iter().copied().collect();
    cases.extend((runs.len() > different.len()).then_some("two of a connection, another between them"));
    cases.into_iter().collect()
}

fn about(seen: &Reference, entry: &Entry, witness: bool) -> &'static str {
    let rows = &seen.rows()[seen.at(entry.key)];
    let marked = rows.first().is_some_and(|row| row[row::BITS] & row::MARK != 0);
    match entry.candidate.item {
        _ if entry.candidate.connection == 0 => "connection 0",
        Item::Other(..) => "an item without a key",
        item if item.key() != Some(entry.key) => "an item of another key",
        _ if rows.is_empty() => "no request at the key",
        Item::Transaction(_) if marked && witness => "t of a marked request turns v",
        Item::Transaction(_) if marked => "t of a marked request, no witness connection",
        Item::Transaction(_) => "t of an unmarked request stays",
        _ => "v and w stay",
    }
}

fn link(given: &Given, lent: Lent) -> u64 {
    let Given::On(Call::Arrange { taken, witness }) = given else { unreachable!() };
    let mut list: Vec<u8> = taken.iter().flat_map(odd).collect();
    list.extend(lent.rest);
    let mut witnesses: Vec<u8> = witness.iter().flat_map(|number| number.to_le_bytes()).collect();
    witnesses.extend(&lent.rest[..lent.rest.len() % 8]);
    // SAFETY: buffer and count are lent to this call alone; store, list and witnesses are only read.
    unsafe {
        abi::tracker_arrange(
            lent.store.as_ptr(),
            lent.store.len(),
            witnesses.as_ptr(),
            witnesses.len(),
            list.as_ptr(),
            list.len(),
            lent.buffer.as_mut_ptr(),
            lent.buffer.len(),
            &mut lent.out[0],
        )
    }
}
