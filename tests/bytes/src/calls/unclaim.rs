//! unclaim.

use oracle::calls::Call;
use tracker::abi;

use super::{COMMON, Hands, Spec, named};
use crate::ask::{Given, Lent};
use crate::look::{STANDINGS, standing};

pub static SPEC: Spec = Spec {
    name: "unclaim",
    refusals: &[3, 4],
    hands: Hands::Nothing,
    draw: |draw, seen| {
        let request = draw.request(seen);
        Given::On(Call::Unclaim { key: request.key, connection: request.connection })
    },
    link,
    cases: STANDINGS,
    case: |call, seen, _| match call {
        Call::Unclaim { key, connection } => standing(seen, *key, *connection),
        _ => unreachable!(),
    },
    mistakes: &[("unclaim taken for failed", |call| match *call {
        Call::Unclaim { key, connection } => Some(Call::Failed { key, connection, now: 0 }),
        _ => None,
    })],
    ..COMMON
};

fn link(given: &Given, lent: Lent) -> u64 {
    let Given::On(Call::Unclaim { key, connection }) = given else { unreachable!() };
    let (kind, hash) = named(key);
    // SAFETY: the bytes are lent to this call alone.
    unsafe { abi::tracker_unclaim(lent.store.as_mut_ptr(), lent.store.len(), kind, hash, *connection) }
}
