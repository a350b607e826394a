//! failed_package_claims.

use std::collections::BTreeSet;

use oracle::calls::{Call, Hash, Key, Reply};
use oracle::image::place;
use tracker::abi;

use super::{COMMON, Hands, Spec, claims_need};
use crate::ask::{Given, Lent};
use crate::draw::Draw;
use crate::look::{FREED, Held};
use crate::reference::Reference;

pub static SPEC: Spec = Spec {
    name: "failed_package_claims",
    weights: [1, 12],
    refusals: &[3, 4, 5, 7],
    hands: Hands::Keys,
    need: claims_need,
    draw,
    link,
    cases: &[
        "no hash",
        "none fails",
        "one fails",
        "several fail",
        "a hash given twice, once",
        "two claims of a hash: the greater key",
        "the same given twice: the lesser key stays",
        "of a package in the queue: stays",
        "of another connection: stays",
        "parents announced",
        FREED,
    ],
    case,
    also,
    mistakes: &[
        ("from the last hash to the first", |call| match call.clone() {
            Call::FailedPackageClaims { connection, now, mut combined } => {
                combined.reverse();
                Some(Call::FailedPackageClaims { connection, now, combined })
            }
            _ => None,
        }),
        ("the first hash alone", |call| match call.clone() {
            Call::FailedPackageClaims { connection, now, mut combined } => {
                combined.truncate(1);
                Some(Call::FailedPackageClaims { connection, now, combined })
            }
            _ => None,
        }),
    ],
    ..COMMON
};

/// The owner of a package and hashes of packages, its own as a rule, repeats among them.
fn draw(draw: &mut Draw, seen: &Reference) -> Given {
    let stage = if draw.rng.one_in(4) { place::ENQUEUED } else { place::AWAITING };
    let request = draw.at_place(seen, stage);
    let connection = request.connection;
    let own: Vec<Hash> = draw.packages_of(seen, connection).iter().map(|held| held.combined).collect();
    let count = if draw.rng.one_in(20) { draw.rng.index(200) } else { draw.rng.index(7) };
    let combined = (0..count)
        .map(|_| match draw.rng.below(8) {
            0 => draw.hash(),
            1 | 2 => draw.package(seen).map_or(Hash([0; 32]), |held| held.combined),
            _ if own.is_empty() => draw.hash(),
            _ => draw.rng.pick(&own),
        })
        .collect();
    Given::On(Call::FailedPackageClaims { connection, now: draw.clock(), combined })
}

fn case(call: &Call, seen: &Reference, reply: &Reply) -> &'static str {
    let (Call::FailedPackageClaims { combined, .. }, Reply::Keys(keys)) = (call, reply) else {
        unreachable!()
    };
    let failed = keys.iter().filter(|key| seen.place_of(**key).is_some()).count();
    match failed {
        _ if combined.is_empty() => "no hash",
        0 => "none fails",
        1 => "one fails",
        _ => "several fail",
    }
}

fn also(call: &Call, seen: &Reference, reply: &Reply) -> Vec<&'static str> {
    let (Call::FailedPackageClaims { connection, combined, .. }, Reply::Keys(keys)) = (call, reply) else {
        unreachable!()
    };
    let claimed = |held: &Held, hash: &Hash| held.stage == place::AWAITING && held.combined == *hash;
    let own = |held: &Held| seen.owner_of(Key::wtxid(held.hash)).map(|o| o.connection) == Some(*connection);
    let mut cases = BTreeSet::new();
    let hashes: BTreeSet<Hash> = combined.iter().copied().collect();
    for hash in &hashes {
        let all: Vec<Held> = seen.packages().filter(|held| held.combined == *hash).collect();
        let claims = all.iter().filter(|held| claimed(held, hash) && own(held)).count();
        let given = combined.iter().filter(|one| *one == hash).count();
        for (case, holds) in [
            ("a hash given twice, once", claims == 1 && given > 1),
            ("two claims of a hash: the greater key", claims > 1),
            ("the same given twice: the lesser key stays", claims > 1 && given > 1),
            ("of a package in the queue: stays", all.iter().any(|held| !held.releasable() && own(held))),
            ("of another connection: stays", all.iter().any(|held| claimed(held, hash) && !own(held))),
        ] {
            cases.extend(holds.then_some(case));
        }
    }
    let failed = keys.iter().filter(|key| seen.place_of(**key).is_some()).count();
    cases.extend((keys.len() > failed).then_some("parents announced"));
    cases.extend((failed > 0 && seen.all_held()).then_some(FREED));
    cases.into_iter().collect()
}

fn link(given: &Given, lent: Lent) -> u64 {
    let Given::On(Call::FailedPackageClaims { connection, now, combined }) = given else { unreachable!() };
    let combined = lent.list(combined);
    // SAFETY: store, buffer and count are lent to this call alone; the hashes are only read.
    unsafe {
        abi::tracker_failed_package_claims(
            lent.store.as_mut_ptr(),
            lent.store.len(),
            *connection,
            combined.as_ptr(),
            combined.len(),
            *now,
            lent.buffer.as_mut_ptr(),
            lent.buffer.len(),
            &mut lent.out[0],
        )
    }
}
