//! transaction_not_found.

use std::collections::BTreeSet;

use oracle::calls::{Call, Hash, Item, Key, MAX_PARENTS, Reply};
use oracle::image::{place, row};
use tracker::abi;

use super::announce_transactions::item_bytes;
use super::{COMMON, Hands, Spec};
use crate::ask::{Given, KEY, Lent};
use crate::draw::Draw;
use crate::look::{ASKED, FREED, Held, standing};
use crate::reference::Reference;

/// Item types of BIP 331: package info, and a package's transactions.
const MSG_PKGTXNS: u32 = 6;
const MSG_ANCPKGINFO: u32 = 7;

pub static SPEC: Spec = Spec {
    name: "transaction_not_found",
    weights: [2, 8],
    refusals: &[3, 4, 5, 7],
    hands: Hands::Keys,
    need: |given, [_, q]| match given {
        Given::On(Call::TransactionNotFound { items, .. }) => KEY * (items.len() + MAX_PARENTS * q as usize),
        _ => unreachable!(),
    },
    draw,
    link,
    cases: &[
        "no item",
        "nothing fails",
        "one fails",
        "several fail",
        "package info, with parents",
        "package info, without parents",
        "package info by its wtxid: no parents",
        "package info asked of another",
        "a package, with parents",
        "a package in the queue stays",
        "a package before other items: its keys come last",
        "two claims of a hash: the greater key",
        "an item twice",
        "an item of no listed type",
        "the other kind of the key",
        FREED,
    ],
    case,
    also,
    mistakes: &[("from the last item to the first", |call| match call.clone() {
        Call::TransactionNotFound { connection, now, mut items } => {
            items.reverse();
            Some(Call::TransactionNotFound { connection, now, items })
        }
        _ => None,
    })],
    ..COMMON
};

/// What a connection was asked for, at times what it was not, repeats among it.
fn draw(draw: &mut Draw, seen: &Reference) -> Given {
    let connection = draw.request(seen).connection;
    let own = asked_of(draw, seen, connection);
    let count = if draw.rng.one_in(25) { 150 } else { draw.rng.index(7) };
    let items = (0..count)
        .map(|_| match draw.rng.below(9) {
            0 => draw.item(),
            1 => Item::Other(draw.rng.pick(&[MSG_PKGTXNS, MSG_ANCPKGINFO]), draw.hash()),
            2 => other_kind(draw.item()),
            _ if own.is_empty() => draw.item(),
            _ => draw.rng.pick(&own),
        })
        .collect();
    Given::On(Call::TransactionNotFound { connection, now: draw.clock(), items })
}

fn other_kind(item: Item) -> Item {
    match item {
        Item::Transaction(hash) | Item::WitnessTransaction(hash) => Item::WTx(hash),
        Item::WTx(hash) => Item::Transaction(hash),
        other => other,
    }
}

/// Items by which the connection can say that it lacks what it owns.
fn asked_of(draw: &mut Draw, seen: &Reference, connection: u64) -> Vec<Item> {
    let mut items = Vec::new();
    for held in draw.packages_of(seen, connection) {
        items.push(Item::WTx(held.hash));
        items.push(match held.stage {
            place::FLAG => Item::Other(MSG_ANCPKGINFO, held.hash),
            _ => Item::Other(MSG_PKGTXNS, held.combined),
        });
    }
    let count = seen.rows().len();
    let from = draw.rng.index(count.max(1));
    let rows = (0..count.min(200)).map(|n| (from + n) % count);
    let owning = rows.filter(|i| {
        let row = &seen.rows()[*i];
        row[row::CONNECTION] == connection && row[row::BITS] & row::OWNS != 0
    });
    items.extend(owning.take(12).map(|i| seen.entry_at(i).candidate.item));
    items
}

fn case(call: &Call, _: &Reference, reply: &Reply) -> &'static str {
    let (Call::TransactionNotFound { items, .. }, Reply::Keys(keys)) = (call, reply) else { unreachable!() };
    match keys.len() {
        _ if items.is_empty() => "no item",
        0 => "nothing fails",
        1 => "one fails",
        _ => "several fail",
    }
}

fn also(call: &Call, seen: &Reference, reply: &Reply) -> Vec<&'static str> {
    let (Call::TransactionNotFound { connection, items, .. }, Reply::Keys(keys)) = (call, reply) else {
        unreachable!()
    };
    let mut cases = BTreeSet::new();
    for (i, item) in items.iter().enumerate() {
        cases.extend(about(seen, *connection, *item, keys));
        cases.extend(items[..i].contains(item).then_some("an item twice"));
        let package = matches!(item, Item::Other(MSG_PKGTXNS, hash) if !claims(seen, *connection, *hash).is_empty());
        let later = items[i + 1..].iter().filter_map(|one| one.key()).any(|key| keys.contains(&key));
        cases.extend((package && later).then_some("a package before other items: its keys come last"));
    }
    let freed = keys.iter().any(|key| seen.place_of(*key).is_some_and(|held| held.releasable()));
    cases.extend((freed && seen.all_held()).then_some(FREED));
    cases.into_iter().collect()
}

/// Awaiting packages of the connection with this combined hash.
fn claims(seen: &Reference, connection: u64, combined: Hash) -> Vec<Held> {
    let own = |held: &Held| seen.owner_of(Key::wtxid(held.hash)).map(|o| o.connection) == Some(connection);
    seen.packages().filter(|held| held.releasable() && held.combined == combined && own(held)).collect()
}

/// What one item is about.
fn about(seen: &Reference, connection: u64, item: Item, keys: &[Key]) -> Vec<&'static str> {
    let place = |hash| seen.place_of(Key::wtxid(hash));
    let is = |hash| standing(seen, Key::wtxid(hash), connection);
    match item {
        Item::Other(MSG_ANCPKGINFO, hash) if is(hash) == ASKED => match place(hash) {
            Some(held) if held.parents.is_empty() => vec!["package info, without parents"],
            _ => vec!["package info, with parents"],
        },
        Item::Other(MSG_ANCPKGINFO, hash) if place(hash).is_some() => vec!["package info asked of another"],
        Item::Other(MSG_ANCPKGINFO, _) => Vec::new(),
        Item::Other(MSG_PKGTXNS, hash) => {
            let claims = claims(seen, connection, hash);
            let mut cases = Vec::new();
            cases.extend((claims.len() > 1).then_some("two claims of a hash: the greater key"));
            let parents = claims.last().is_some_and(|held| !held.parents.is_empty());
            cases.extend(parents.then_some("a package, with parents"));
            let queued = seen.packages().any(|held| held.combined == hash && is(held.hash) == "Enqueued");
            cases.extend(queued.then_some("a package in the queue stays"));
            cases
        }
        Item::Other(..) => vec!["an item of no listed type"],
        Item::WTx(hash) if is(hash) == ASKED => vec!["package info by its wtxid: no parents"],
        item => {
            let other = other_kind(item).key().expect("it has one");
            let owned = seen.owner_of(other).is_some_and(|owner| owner.connection == connection);
            let stays = item.key().is_some_and(|key| !keys.contains(&key));
            if owned && stays { vec!["the other kind of the key"] } else { Vec::new() }
        }
    }
}

fn link(given: &Given, lent: Lent) -> u64 {
    let Given::On(Call::TransactionNotFound { connection, now, items }) = given else { unreachable!() };
    let mut list: Vec<u8> = items.iter().flat_map(|item| item_bytes(*item)).collect();
    list.extend(lent.rest);
    // SAFETY: store, buffer and count are lent to this call alone; the items are only read.
    unsafe {
        abi::tracker_transaction_not_found(
            lent.store.as_mut_ptr(),
            lent.store.len(),
            *connection,
            list.as_ptr(),
            list.len(),
            *now,
            lent.buffer.as_mut_ptr(),
            lent.buffer.len(),
            &mut lent.out[0],
        )
    }
}
