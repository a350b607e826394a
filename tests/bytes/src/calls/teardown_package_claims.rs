//! teardown_package_claims.

use std::collections::BTreeSet;

use oracle::calls::{Call, Key, Reply};
use oracle::image::place;
use tracker::abi;

use super::{COMMON, Spec};
use crate::ask::{Given, Lent};
use crate::look::FREED;
use crate::reference::Reference;

pub static SPEC: Spec = Spec {
    name: "teardown_package_claims",
    weights: [1, 2],
    refusals: &[3, 5],
    draw: |draw, _| Given::On(Call::TeardownPackageClaims { now: draw.clock() }),
    link,
    cases: &[
        "no package",
        "one package",
        "several packages",
        "a package in the queue goes",
        "parents, none announced",
        "no other candidate: the request goes",
        "other candidates are ready now",
        "candidates at the Txid key stay as they are",
        "package info stays",
        FREED,
    ],
    case: |_, _, reply| match reply {
        Reply::Number(0) => "no package",
        Reply::Number(1) => "one package",
        _ => "several packages",
    },
    also,
    mistakes: &[("a teardown a millisecond earlier", |call| match *call {
        Call::TeardownPackageClaims { now } => {
            Some(Call::TeardownPackageClaims { now: now.saturating_sub(1) })
        }
        _ => None,
    })],
    ..COMMON
};

fn also(_: &Call, seen: &Reference, reply: &Reply) -> Vec<&'static str> {
    let mut cases = BTreeSet::new();
    for held in (0..seen.places_held()).map(|i| seen.place(i)) {
        if held.stage == place::FLAG {
            cases.insert("package info stays");
            continue;
        }
        let others = seen.at(Key::wtxid(held.hash)).len() - 1;
        for (case, holds) in [
            ("a package in the queue goes", !held.releasable()),
            ("parents, none announced", !held.parents.is_empty()),
            ("no other candidate: the request goes", others == 0),
            ("other candidates are ready now", others > 0),
            ("candidates at the Txid key stay as they are", !seen.at(Key::txid(held.hash)).is_empty()),
        ] {
            cases.extend(holds.then_some(case));
        }
    }
    cases.extend((*reply != Reply::Number(0) && seen.all_held()).then_some(FREED));
    cases.into_iter().collect()
}

fn link(given: &Given, lent: Lent) -> u64 {
    let Given::On(Call::TeardownPackageClaims { now }) = given else { unreachable!() };
    let (store, length, count) = (lent.store.as_mut_ptr(), lent.store.len(), &mut lent.out[0]);
    // SAFETY: the bytes and the count are lent to this call alone.
    unsafe { abi::tracker_teardown_package_claims(store, length, *now, count) }
}
