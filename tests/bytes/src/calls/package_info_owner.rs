//! package_info_owner.

use oracle::calls::Call;
use oracle::image::place;
use tracker::abi;

use super::{COMMON, Spec, named, some};
use crate::ask::{Given, Lent};

pub static SPEC: Spec = Spec {
    name: "package_info_owner",
    refusals: &[3, 5],
    draw: |draw, seen| {
        let request = draw.at_place(seen, place::FLAG);
        Given::On(Call::PackageInfoOwner { key: request.key, now: draw.near(request.deadline) })
    },
    link,
    cases: &[
        "no owner",
        "package info, at the deadline",
        "package info, before it",
        "another place",
        "no place",
    ],
    case: |call, seen, reply| {
        let Call::PackageInfoOwner { key, .. } = call else { unreachable!() };
        match (seen.owner_of(*key), seen.place_of(*key).map(|held| held.stage)) {
            (None, _) => "no owner",
            (_, None) => "no place",
            (_, Some(place::FLAG)) if some(reply) => "package info, before it",
            (_, Some(place::FLAG)) => "package info, at the deadline",
            _ => "another place",
        }
    },
    mistakes: &[("the deadline counted in", |call| match *call {
        Call::PackageInfoOwner { key, now } => {
            Some(Call::PackageInfoOwner { key, now: now.saturating_sub(1) })
        }
        _ => None,
    })],
    ..COMMON
};

fn link(given: &Given, lent: Lent) -> u64 {
    let Given::On(Call::PackageInfoOwner { key, now }) = given else { unreachable!() };
    let (kind, hash) = named(key);
    let (store, length, owner) = (lent.store.as_ptr(), lent.store.len(), &mut lent.out[0]);
    // SAFETY: the bytes are only read, the number is lent to this call alone.
    unsafe { abi::tracker_package_info_owner(store, length, kind, hash, *now, owner) }
}
