//! failed_package_info.

use oracle::calls::Call;
use tracker::abi;

use super::{COMMON, Spec, named};
use crate::ask::{Given, Lent};
use crate::look::{STANDINGS, standing};

pub static SPEC: Spec = Spec {
    name: "failed_package_info",
    refusals: &[3, 4, 5],
    draw: |draw, seen| {
        let request = draw.request(seen);
        let (key, connection, now) = (request.key, request.connection, draw.clock());
        Given::On(Call::FailedPackageInfo { key, connection, now })
    },
    link,
    cases: STANDINGS,
    case: |call, seen, _| match call {
        Call::FailedPackageInfo { key, connection, .. } => standing(seen, *key, *connection),
        _ => unreachable!(),
    },
    mistakes: &[("failed_package_info taken for failed", |call| match *call {
        Call::FailedPackageInfo { key, connection, now } => Some(Call::Failed { key, connection, now }),
        _ => None,
    })],
    ..COMMON
};

fn link(given: &Given, lent: Lent) -> u64 {
    let Given::On(Call::FailedPackageInfo { key, connection, now }) = given else { unreachable!() };
    let (kind, hash) = named(key);
    let (store, length, reply) = (lent.store.as_mut_ptr(), lent.store.len(), &mut lent.out[0]);
    // SAFETY: the bytes and the reply are lent to this call alone.
    unsafe { abi::tracker_failed_package_info(store, length, kind, hash, *connection, *now, reply) }
}
