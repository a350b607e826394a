//! release_package.

use oracle::calls::{Call, Key};
use oracle::image::place;
use tracker::abi;

use super::{COMMON, Hands, Spec, keys_need};
use crate::ask::{Given, Lent};
use crate::look::{STANDINGS, standing};

pub static SPEC: Spec = Spec {
    name: "release_package",
    refusals: &[3, 4, 5, 7],
    hands: Hands::Keys,
    need: keys_need,
    draw: |draw, seen| {
        let request = draw.at_place(seen, place::ENQUEUED);
        let (connection, hash, now) = (request.connection, request.key.hash, draw.clock());
        Given::On(Call::ReleasePackage { connection, hash, now })
    },
    link,
    cases: STANDINGS,
    case: |call, seen, _| match call {
        Call::ReleasePackage { connection, hash, .. } => standing(seen, Key::wtxid(*hash), *connection),
        _ => unreachable!(),
    },
    mistakes: &[("release_package taken for failed_with_parents", |call| match *call {
        Call::ReleasePackage { connection, hash, now } => {
            Some(Call::FailedWithParents { key: Key::wtxid(hash), connection, now })
        }
        _ => None,
    })],
    ..COMMON
};

fn link(given: &Given, lent: Lent) -> u64 {
    let Given::On(Call::ReleasePackage { connection, hash, now }) = given else { unreachable!() };
    let (store, length) = (lent.store.as_mut_ptr(), lent.store.len());
    let (answer, room, count) = (lent.buffer.as_mut_ptr(), lent.buffer.len(), &mut lent.out[0]);
    // SAFETY: store, buffer and count are lent to this call alone.
    unsafe { abi::tracker_release_package(store, length, *connection, &hash.0, *now, answer, room, count) }
}
