//! failed.

use oracle::calls::Call;
use tracker::abi;

use super::{COMMON, Spec, named};
use crate::ask::{Given, Lent};
use crate::look::{STANDINGS, standing};

pub static SPEC: Spec = Spec {
    name: "failed",
    refusals: &[3, 4, 5],
    draw: |draw, seen| {
        let request = draw.request(seen);
        let (key, connection, now) = (request.key, request.connection, draw.clock());
        Given::On(Call::Failed { key, connection, now })
    },
    link,
    cases: STANDINGS,
    case: |call, seen, _| match call {
        Call::Failed { key, connection, .. } => standing(seen, *key, *connection),
        _ => unreachable!(),
    },
    mistakes: &[
        ("failed taken for unclaim", |call| match *call {
            Call::Failed { key, connection, .. } => Some(Call::Unclaim { key, connection }),
            _ => None,
        }),
        ("failed a millisecond earlier", |call| match *call {
            Call::Failed { key, connection, now } => {
                Some(Call::Failed { key, connection, now: now.saturating_sub(1) })
            }
            _ => None,
        }),
    ],
    ..COMMON
};

fn link(given: &Given, lent: Lent) -> u64 {
    let Given::On(Call::Failed { key, connection, now }) = given else { unreachable!() };
    let (kind, hash) = named(key);
    let (store, length, reply) = (lent.store.as_mut_ptr(), lent.store.len(), &mut lent.out[0]);
    // SAFETY: the bytes and the reply are lent to this call alone.
    unsafe { abi::tracker_failed(store, length, kind, hash, *connection, *now, reply) }
}
