//! failed_with_parents.

use oracle::calls::Call;
use tracker::abi;

use super::{COMMON, Hands, Spec, keys_need, named};
use crate::ask::{Given, Lent};
use crate::look::{STANDINGS, standing};

pub static SPEC: Spec = Spec {
    name: "failed_with_parents",
    refusals: &[3, 4, 5, 7],
    hands: Hands::Keys,
    need: keys_need,
    draw: |draw, seen| {
        let request = draw.request(seen);
        let (key, connection, now) = (request.key, request.connection, draw.clock());
        Given::On(Call::FailedWithParents { key, connection, now })
    },
    link,
    cases: STANDINGS,
    case: |call, seen, _| match call {
        Call::FailedWithParents { key, connection, .. } => standing(seen, *key, *connection),
        _ => unreachable!(),
    },
    mistakes: &[("failed_with_parents taken for failed", |call| match *call {
        Call::FailedWithParents { key, connection, now } => Some(Call::Failed { key, connection, now }),
        _ => None,
    })],
    ..COMMON
};

fn link(given: &Given, lent: Lent) -> u64 {
    let Given::On(Call::FailedWithParents { key, connection, now }) = given else { unreachable!() };
    let (kind, hash) = named(key);
    let (store, length) = (lent.store.as_mut_ptr(), lent.store.len());
    let (answer, room, count) = (lent.buffer.as_mut_ptr(), lent.buffer.len(), &mut lent.out[0]);
    // SAFETY: store, buffer and count are lent to this call alone.
    unsafe {
        abi::tracker_failed_with_parents(store, length, kind, hash, *connection, *now, answer, room, count)
    }
}
