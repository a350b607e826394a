//! disconnected.

use std::collections::BTreeSet;

use oracle::calls::{Call, Key, MAX_PARENTS, Reply};
use oracle::image::place;
use oracle::sound::MAX_OF_CONNECTION;
use tracker::abi;

use super::{COMMON, Hands, Spec};
use crate::ask::{Given, KEY, Lent};
use crate::draw::Draw;
use crate::look::FREED;
use crate::reference::Reference;

pub static SPEC: Spec = Spec {
    name: "disconnected",
    weights: [5, 5],
    refusals: &[3, 4, 5, 7],
    hands: Hands::Departure,
    need: |_, [l, q]| KEY * (l.min(MAX_OF_CONNECTION) as usize + MAX_PARENTS * q as usize),
    draw,
    link,
    cases: &[
        "no request of its own",
        "none owned",
        "some owned",
        "5,000 requests",
        "an owned request without other candidates",
        "parents, no other candidate: none announced",
        "parents announced for another candidate",
        "parents announced for several, repeats dropped",
        "of a package in the queue, for itself too",
        "of a package in the queue, itself the only one",
        "parents not in order",
        "a parent that it leaves itself",
        FREED,
        "two places and more given back",
        "ten places and more given back",
    ],
    case,
    also,
    mistakes: &[("disconnected a millisecond earlier", |call| match *call {
        Call::Disconnected { connection, now } => {
            Some(Call::Disconnected { connection, now: now.saturating_sub(1) })
        }
        _ => None,
    })],
    ..COMMON
};

/// The owner of a package place as a rule.
fn draw(draw: &mut Draw, seen: &Reference) -> Given {
    let stage = draw.rng.pick(&[place::FLAG, place::AWAITING, place::ENQUEUED]);
    let large = draw.profile.large && draw.rng.one_in(2);
    let row = draw.row(seen).filter(|_| large);
    let request = row.unwrap_or_else(|| draw.at_place(seen, stage));
    Given::On(Call::Disconnected { connection: request.connection, now: draw.clock() })
}

fn case(call: &Call, seen: &Reference, reply: &Reply) -> &'static str {
    let (Call::Disconnected { connection, .. }, Reply::Gone(own, _)) = (call, reply) else { unreachable!() };
    let owning = seen.find(*connection).map_or(0, |i| seen.entries()[i][2]);
    match (own.len() as u64, owning) {
        (0, _) => "no request of its own",
        (MAX_OF_CONNECTION, _) => "5,000 requests",
        (_, 0) => "none owned",
        _ => "some owned",
    }
}

fn also(call: &Call, seen: &Reference, reply: &Reply) -> Vec<&'static str> {
    let (Call::Disconnected { connection, .. }, Reply::Gone(own, parents)) = (call, reply) else {
        unreachable!()
    };
    let mut cases = BTreeSet::new();
    let mut given_back = 0;
    let owned = own
        .iter()
        .filter(|key| seen.owner_of(**key).is_some_and(|owner| owner.connection == *connection));
    for key in owned {
        let others = seen.at(*key).len() - 1;
        if others == 0 {
            cases.insert("an owned request without other candidates");
        }
        let Some(held) = seen.place_of(*key) else { continue };
        given_back += usize::from(held.releasable());
        let sorted = held.parents.is_sorted();
        let announced = !parents.is_empty();
        cases.extend(match (held.parents.len(), held.releasable(), others) {
            (0, _, _) => None,
            (_, true, 0) => Some("parents, no other candidate: none announced"),
            (_, false, 0) => Some("of a package in the queue, itself the only one"),
            (_, false, _) => Some("of a package in the queue, for itself too"),
            (_, true, 1) => Some("parents announced for another candidate").filter(|_| announced),
            (_, true, _) => Some("parents announced for several, repeats dropped").filter(|_| announced),
        });
        if !sorted && others > 0 {
            cases.insert("parents not in order");
        }
        if others > 0 && held.parents.iter().any(|hash| own.contains(&Key::txid(*hash))) {
            cases.insert("a parent that it leaves itself");
        }
    }
    if given_back > 0 && seen.all_held() {
        cases.insert(FREED);
    }
    if given_back > 1 {
        cases.insert("two places and more given back");
    }
    if given_back >= 10 {
        cases.insert("ten places and more given back");
    }
    cases.into_iter().collect()
}

fn link(given: &Given, lent: Lent) -> u64 {
    let Given::On(Call::Disconnected { connection, now }) = given else { unreachable!() };
    let (store, length) = (lent.store.as_mut_ptr(), lent.store.len());
    let (answer, room) = (lent.buffer.as_mut_ptr(), lent.buffer.len());
    let [own, parents, ..] = lent.out;
    // SAFETY: store, buffer and counts are lent to this call alone.
    unsafe { abi::tracker_disconnected(store, length, *connection, *now, answer, room, own, parents) }
}
