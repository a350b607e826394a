//! announce_transactions.

use std::collections::BTreeSet;

use oracle::calls::{Call, Candidate, Hash, Item, Reply};
use oracle::image::header;
use oracle::sound::{MAX_OF_CONNECTION, MAX_OWNED};
use tracker::abi;

use super::announce::announce;
use super::{COMMON, Hands, Spec};
use crate::ask::{Given, Lent};
use crate::draw::Draw;
use crate::reference::Reference;
use crate::tally::Tally;

/// Milliseconds for each reason to wait.
const SOURCE_DELAY: u64 = 2_000;

pub static SPEC: Spec = Spec {
    name: "announce_transactions",
    weights: [14, 12],
    refusals: &[3, 4, 5],
    hands: Hands::Nothing,
    draw,
    link,
    follow: Some(follow),
    cases: &[
        "no item",
        "nothing kept",
        "some kept",
        "all kept",
        "a delay of 0",
        "a delay of 2,000",
        "a delay of 4,000",
        "a delay of 6,000",
        "100 owned before the batch",
        "a hash twice",
        "an item without a key",
        "100 items and more",
        "L reached in the batch",
        "5,000 reached in the batch",
    ],
    case,
    also,
    mistakes: &[
        ("unpreferred taken for preferred", |call| match call.clone() {
            Call::AnnounceTransactions { connection, now, wtxid_source, items, .. } => {
                Some(Call::AnnounceTransactions { connection, now, preferred: true, wtxid_source, items })
            }
            _ => None,
        }),
        ("no wtxid source", |call| match call.clone() {
            Call::AnnounceTransactions { connection, now, preferred, items, .. } => {
                Some(Call::AnnounceTransactions { connection, now, preferred, wtxid_source: false, items })
            }
            _ => None,
        }),
        ("items from the last to the first", |call| match call.clone() {
            Call::AnnounceTransactions { connection, now, preferred, wtxid_source, mut items } => {
                items.reverse();
                Some(Call::AnnounceTransactions { connection, now, preferred, wtxid_source, items })
            }
            _ => None,
        }),
        ("the first priority for each", |call| match call.clone() {
            Call::AnnounceTransactions { connection, now, preferred, wtxid_source, mut items } => {
                let first = items.first().map_or(0, |(_, priority)| *priority);
                items.iter_mut().for_each(|(_, priority)| *priority = first);
                Some(Call::AnnounceTransactions { connection, now, preferred, wtxid_source, items })
            }
            _ => None,
        }),
    ],
    ..COMMON
};

fn draw(draw: &mut Draw, seen: &Reference) -> Given {
    let count = match draw.rng.below(if draw.profile.large { 8 } else { 30 }) {
        0 => 0,
        1 => 100 + draw.rng.index(if draw.profile.large { 1_000 } else { 60 }),
        2 => draw.rng.index(40),
        _ => 1 + draw.rng.index(5),
    };
    let owner = draw.request(seen).connection;
    let connection = if draw.rng.one_in(3) { owner } else { draw.connection() };
    let last = near_last(seen).filter(|_| draw.rng.one_in(2));
    let (connection, count) = last.unwrap_or((connection, count));
    let new = last.is_some() || draw.rng.one_in(3);
    let items = (0..count)
        .map(|_| (if new { Item::WTx(draw.rng.hash()) } else { draw.item() }, draw.rng.word()))
        .collect();
    let (now, preferred, wtxid_source) = (draw.clock(), draw.rng.one_in(2), draw.rng.one_in(2));
    Given::On(Call::AnnounceTransactions { connection, now, preferred, wtxid_source, items })
}

/// A connection that can announce a hundred more at most, and more items than that.
fn near_last(seen: &Reference) -> Option<(u64, usize)> {
    let entry = seen.entries().iter().max_by_key(|entry| entry[1])?;
    let more = MAX_OF_CONNECTION - entry[1];
    (1..=100).contains(&more).then_some((entry[0], 2 * more as usize + 1))
}

fn overloaded(seen: &Reference, connection: u64) -> bool {
    seen.find(connection).is_ok_and(|i| seen.entries()[i][2] >= MAX_OWNED)
}

/// How many reasons there are to wait.
fn reasons(item: Item, preferred: bool, wtxid_source: bool, overloaded: bool) -> u64 {
    let as_txid = wtxid_source && !matches!(item, Item::WTx(_));
    [!preferred, as_txid, overloaded].map(u64::from).iter().sum()
}

fn follow(reference: &mut Reference, call: &Call, tally: &mut Tally) -> Reply {
    let Call::AnnounceTransactions { connection, now, preferred, wtxid_source, items } = call else {
        unreachable!()
    };
    let overloaded = overloaded(reference, *connection);
    for (item, priority) in items {
        let ready = now + SOURCE_DELAY * reasons(*item, *preferred, *wtxid_source, overloaded);
        let (connection, preferred, priority) = (*connection, *preferred, *priority);
        let candidate = Candidate { connection, item: *item, ready, preferred, priority };
        let event = announce(reference, &candidate, tally);
        tally.event(event);
    }
    Reply::Number(1)
}

/// What becomes of the items, on a copy of the reference.
fn kept(call: &Call, seen: &Reference) -> (usize, Reference) {
    let Call::AnnounceTransactions { connection, now, preferred, items, .. } = call else { unreachable!() };
    let mut copy = Reference { words: seen.words.clone() };
    let candidate = |(item, priority): &(Item, u64)| Candidate {
        connection: *connection,
        item: *item,
        ready: *now,
        preferred: *preferred,
        priority: *priority,
    };
    let mut none = Tally::default();
    let kept = items.iter().filter(|item| announce(&mut copy, &candidate(item), &mut none).kept()).count();
    (kept, copy)
}

fn case(call: &Call, seen: &Reference, _: &Reply) -> &'static str {
    let Call::AnnounceTransactions { items, .. } = call else { unreachable!() };
    match kept(call, seen).0 {
        _ if items.is_empty() => "no item",
        0 => "nothing kept",
        n if n == items.len() => "all kept",
        _ => "some kept",
    }
}

fn also(call: &Call, seen: &Reference, _: &Reply) -> Vec<&'static str> {
    let Call::AnnounceTransactions { connection, preferred, wtxid_source, items, .. } = call else {
        unreachable!()
    };
    let (overloaded, (_, after)) = (overloaded(seen, *connection), kept(call, seen));
    let delays = ["a delay of 0", "a delay of 2,000", "a delay of 4,000", "a delay of 6,000"];
    let mut cases: BTreeSet<&'static str> = items
        .iter()
        .map(|(item, _)| delays[reasons(*item, *preferred, *wtxid_source, overloaded) as usize])
        .collect();
    let hashes: BTreeSet<Hash> = items.iter().map(|(item, _)| item.parts().1).collect();
    let rows = |reference: &Reference| reference.words[header::ROWS];
    let own = |reference: &Reference| reference.find(*connection).map_or(0, |i| reference.entries()[i][1]);
    let reached = |count: &dyn Fn(&Reference) -> u64, most: u64| count(seen) < most && count(&after) == most;
    for (case, holds) in [
        ("100 owned before the batch", overloaded && !items.is_empty()),
        ("a hash twice", hashes.len() < items.len()),
        ("an item without a key", items.iter().any(|(item, _)| item.key().is_none())),
        ("100 items and more", items.len() >= 100),
        ("L reached in the batch", reached(&rows, seen.sizes()[0])),
        ("5,000 reached in the batch", reached(&own, MAX_OF_CONNECTION)),
    ] {
        cases.extend(holds.then_some(case));
    }
    cases.into_iter().collect()
}

/// The word of an item's type. Of an other item the low 32 bits count, which from 2^32 on may be those of a listed type.
fn type_word(item: Item) -> u64 {
    let (number, Hash(hash)) = item.parts();
    let high = u64::from(hash[3]) << 32;
    match item {
        Item::Other(6 | 7, _) => high | u64::from(number),
        Item::Other(..) if high != 0 && hash[4] % 2 == 0 => high | [1, 5, 0x4000_0001][hash[5] as usize % 3],
        Item::Other(..) => high | u64::from(number),
        _ => number.into(),
    }
}

pub fn item_bytes(item: Item) -> Vec<u8> {
    [&type_word(item).to_le_bytes()[..], &item.parts().1.0].concat()
}

/// Items and priorities in bytes. The shorter list decides: the other one has more than it by what stands behind.
fn lists(items: &[(Item, u64)], rest: &[u8]) -> [Vec<u8>; 2] {
    let mut list: Vec<u8> = items.iter().flat_map(|(item, _)| item_bytes(*item)).collect();
    let mut priorities: Vec<u8> = items.iter().flat_map(|(_, priority)| priority.to_le_bytes()).collect();
    list.extend(rest);
    if rest.len() % 2 == 0 {
        priorities.extend(rest);
    } else {
        list.extend(rest.repeat(4));
        priorities.extend(&rest[..rest.len().min(7)]);
    }
    [list, priorities]
}

fn link(given: &Given, lent: Lent) -> u64 {
    let Given::On(Call::AnnounceTransactions { connection, now, preferred, wtxid_source, items }) = given
    else {
        unreachable!()
    };
    let [items, priorities] = lists(items, lent.rest);
    // SAFETY: the bytes are lent to this call alone; items and priorities are only read.
    unsafe {
        abi::tracker_announce_transactions(
            lent.store.as_mut_ptr(),
            lent.store.len(),
            *connection,
            *now,
            *preferred,
            *wtxid_source,
            items.as_ptr(),
            items.len(),
            priorities.as_ptr(),
            priorities.len(),
        )
    }
}
