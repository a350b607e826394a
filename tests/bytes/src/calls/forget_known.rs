//! forget_known.

use oracle::calls::{Call, Reply};
use oracle::image::place;
use tracker::abi;

use super::{COMMON, Hands, Spec, named};
use crate::ask::{Given, Lent};
use crate::look::{ASKED, AWAITING, FREED, standing};
use crate::reference::Reference;

pub static SPEC: Spec = Spec {
    name: "forget_known",
    weights: [1, 4],
    refusals: &[3, 5],
    hands: Hands::Nothing,
    draw: |draw, seen| {
        let stage = draw.rng.pick(&[place::FLAG, place::AWAITING, place::AWAITING, place::ENQUEUED]);
        let request = if draw.rng.one_in(2) { draw.at_place(seen, stage) } else { draw.request(seen) };
        let now = if draw.rng.one_in(3) { draw.clock() } else { draw.near(request.deadline) };
        Given::On(Call::ForgetKnown { key: request.key, now })
    },
    link,
    cases: &[
        "no request",
        "no owner",
        "owned",
        "package info, before the deadline",
        "package info, from it on",
        "Awaiting, before the deadline",
        "Awaiting, from it on",
        "Enqueued, before the deadline",
        "Enqueued, from it on",
        "parents announced",
        "no parents to announce",
        FREED,
    ],
    case,
    also: |call, seen, _| match call {
        Call::ForgetKnown { key, now } => {
            let late = seen.owner_of(*key).is_some_and(|owner| owner.deadline <= *now);
            let Some(held) = seen.place_of(*key).filter(|held| held.releasable() && late) else {
                return Vec::new();
            };
            let parents =
                if held.parents.is_empty() { "no parents to announce" } else { "parents announced" };
            if seen.all_held() { vec![parents, FREED] } else { vec![parents] }
        }
        _ => unreachable!(),
    },
    mistakes: &[
        ("forget_known taken for forget", |call| match *call {
            Call::ForgetKnown { key, .. } => Some(Call::Forget { key }),
            _ => None,
        }),
        ("the deadline counted in", |call| match *call {
            Call::ForgetKnown { key, now } => Some(Call::ForgetKnown { key, now: now.saturating_sub(1) }),
            _ => None,
        }),
    ],
    ..COMMON
};

fn case(call: &Call, seen: &Reference, _: &Reply) -> &'static str {
    let Call::ForgetKnown { key, now } = call else { unreachable!() };
    let (connection, deadline) =
        seen.owner_of(*key).map_or((0, 0), |owner| (owner.connection, owner.deadline));
    match (standing(seen, *key, connection), *now < deadline) {
        (ASKED, true) => "package info, before the deadline",
        (ASKED, false) => "package info, from it on",
        (AWAITING, true) => "Awaiting, before the deadline",
        (AWAITING, false) => "Awaiting, from it on",
        ("Enqueued", true) => "Enqueued, before the deadline",
        ("Enqueued", false) => "Enqueued, from it on",
        (other, _) => other,
    }
}

fn link(given: &Given, lent: Lent) -> u64 {
    let Given::On(Call::ForgetKnown { key, now }) = given else { unreachable!() };
    let (kind, hash) = named(key);
    // SAFETY: the bytes are lent to this call alone.
    unsafe { abi::tracker_forget_known(lent.store.as_mut_ptr(), lent.store.len(), kind, hash, *now) }
}
