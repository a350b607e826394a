//! begin_package_resolution.

use oracle::calls::{Call, Hash, Key, Reply};
use oracle::image::place;
use tracker::abi;

use super::{COMMON, Spec, some};
use crate::ask::{Given, Lent};
use crate::draw::Draw;
use crate::look::{AWAITING, standing};
use crate::reference::Reference;

pub static SPEC: Spec = Spec {
    name: "begin_package_resolution",
    weights: [1, 20],
    refusals: &[3, 4, 5],
    draw,
    link,
    cases: &[
        "no request",
        "no owner",
        "of another",
        "owned",
        "package info",
        "Enqueued",
        "0: another combined hash",
        "0: the wtxids in another order",
        "0: other wtxids",
        "0: at the deadline",
        "1",
    ],
    case,
    mistakes: &[("the deadline counted in", |call| match call.clone() {
        Call::BeginPackageResolution { connection, hash, combined, now, wtxids } => {
            let now = now.saturating_sub(1);
            Some(Call::BeginPackageResolution { connection, hash, combined, now, wtxids })
        }
        _ => None,
    })],
    ..COMMON
};

/// What was claimed as a rule, at times with one thing changed.
fn draw(draw: &mut Draw, seen: &Reference) -> Given {
    let request = draw.at_place(seen, place::AWAITING);
    let (connection, hash, now) = (request.connection, request.key.hash, draw.near(request.deadline));
    let (mut combined, mut wtxids) = match seen.place_of(Key::wtxid(hash)) {
        Some(held) => (held.combined, held.wtxids),
        None => (draw.hash(), draw.hashes()),
    };
    match draw.rng.below(10) {
        0 => combined = changed(draw, combined),
        1 => wtxids.reverse(),
        2 => _ = wtxids.pop(),
        3 => wtxids.push(draw.hash()),
        4 if !wtxids.is_empty() => {
            let i = draw.rng.index(wtxids.len());
            wtxids[i] = changed(draw, wtxids[i]);
        }
        _ => {}
    }
    Given::On(Call::BeginPackageResolution { connection, hash, combined, now, wtxids })
}

/// Another hash, by one bit.
fn changed(draw: &mut Draw, mut hash: Hash) -> Hash {
    hash.0[draw.rng.index(32)] ^= 1 << draw.rng.below(8);
    hash
}

fn case(call: &Call, seen: &Reference, reply: &Reply) -> &'static str {
    let Call::BeginPackageResolution { connection, hash, combined, wtxids, .. } = call else {
        unreachable!()
    };
    let key = Key::wtxid(*hash);
    let (standing, Some(held)) = (standing(seen, key, *connection), seen.place_of(key)) else {
        return standing(seen, key, *connection);
    };
    let sorted = |list: &[Hash]| {
        let mut list = list.to_vec();
        list.sort();
        list
    };
    if standing != AWAITING {
        standing
    } else if some(reply) {
        "1"
    } else if *combined != held.combined {
        "0: another combined hash"
    } else if *wtxids == held.wtxids {
        "0: at the deadline"
    } else if sorted(wtxids) == sorted(&held.wtxids) {
        "0: the wtxids in another order"
    } else {
        "0: other wtxids"
    }
}

fn link(given: &Given, lent: Lent) -> u64 {
    let Given::On(Call::BeginPackageResolution { connection, hash, combined, now, wtxids }) = given else {
        unreachable!()
    };
    let wtxids = lent.list(wtxids);
    // SAFETY: the bytes and the reply are lent to this call alone; hashes and wtxids are only read.
    unsafe {
        abi::tracker_begin_package_resolution(
            lent.store.as_mut_ptr(),
            lent.store.len(),
            *connection,
            &hash.0,
            &combined.0,
            wtxids.as_ptr(),
            wtxids.len(),
            *now,
            &mut lent.out[0],
        )
    }
}
