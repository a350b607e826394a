//! claim_package.

use oracle::calls::{Call, Key, Reply};
use oracle::image::place;
use oracle::sound::MAX_WTXIDS;
use tracker::abi;

use super::{COMMON, Spec, some};
use crate::ask::{Given, Lent};
use crate::look::{ASKED, standing};
use crate::reference::Reference;

pub static SPEC: Spec = Spec {
    name: "claim_package",
    weights: [1, 20],
    refusals: &[3, 4, 5],
    draw: |draw, seen| {
        let request = draw.at_place(seen, place::FLAG);
        let (connection, hash, now) = (request.connection, request.key.hash, draw.near(request.deadline));
        let (combined, wtxids) = (draw.hash(), draw.hashes());
        Given::On(Call::ClaimPackage { connection, hash, combined, now, wtxids })
    },
    link,
    cases: &[
        "no request",
        "no owner",
        "of another",
        "owned",
        "Awaiting",
        "Enqueued",
        "0: no wtxid",
        "0: more than 100 wtxids",
        "0: at the deadline",
        "1: one wtxid",
        "1: 100 wtxids",
        "1: some wtxids",
    ],
    case,
    mistakes: &[
        ("wtxids from the last to the first", |call| match call.clone() {
            Call::ClaimPackage { connection, hash, combined, now, mut wtxids } => {
                wtxids.reverse();
                Some(Call::ClaimPackage { connection, hash, combined, now, wtxids })
            }
            _ => None,
        }),
        ("the deadline counted in", |call| match call.clone() {
            Call::ClaimPackage { connection, hash, combined, now, wtxids } => {
                let now = now.saturating_sub(1);
                Some(Call::ClaimPackage { connection, hash, combined, now, wtxids })
            }
            _ => None,
        }),
    ],
    ..COMMON
};

fn case(call: &Call, seen: &Reference, reply: &Reply) -> &'static str {
    let Call::ClaimPackage { connection, hash, wtxids, .. } = call else { unreachable!() };
    match (standing(seen, Key::wtxid(*hash), *connection), some(reply), wtxids.len()) {
        (ASKED, true, 1) => "1: one wtxid",
        (ASKED, true, MAX_WTXIDS) => "1: 100 wtxids",
        (ASKED, true, _) => "1: some wtxids",
        (ASKED, false, 0) => "0: no wtxid",
        (ASKED, false, 1..=MAX_WTXIDS) => "0: at the deadline",
        (ASKED, false, _) => "0: more than 100 wtxids",
        (other, _, _) => other,
    }
}

fn link(given: &Given, lent: Lent) -> u64 {
    let Given::On(Call::ClaimPackage { connection, hash, combined, now, wtxids }) = given else {
        unreachable!()
    };
    let wtxids = lent.list(wtxids);
    // SAFETY: the bytes and the reply are lent to this call alone; hashes and wtxids are only read.
    unsafe {
        abi::tracker_claim_package(
            lent.store.as_mut_ptr(),
            lent.store.len(),
            *connection,
            &hash.0,
            &combined.0,
            wtxids.as_ptr(),
            wtxids.len(),
            *now,
            &mut lent.out[0],
        )
    }
}
