//! forget.

use oracle::calls::{Call, Key, Kind};
use tracker::abi;

use super::{COMMON, Hands, Spec, named};
use crate::ask::{Given, Lent};
use crate::look::{ASKED, AWAITING, FREED, standing};

pub static SPEC: Spec = Spec {
    name: "forget",
    weights: [1, 4],
    refusals: &[3],
    hands: Hands::Nothing,
    draw: |draw, seen| Given::On(Call::Forget { key: draw.request(seen).key }),
    link,
    cases: &["no request", "no owner", "owned", ASKED, AWAITING, "Enqueued", FREED],
    case: |call, seen, _| match call {
        // Of the owner, or of no connection at all.
        Call::Forget { key } => standing(seen, *key, seen.owner_of(*key).map_or(0, |owner| owner.connection)),
        _ => unreachable!(),
    },
    also: |call, seen, _| match call {
        Call::Forget { key } if seen.all_held() && seen.place_of(*key).is_some() => vec![FREED],
        _ => Vec::new(),
    },
    mistakes: &[("a Txid taken for a Wtxid", |call| match call {
        Call::Forget { key: Key { kind: Kind::Txid, hash } } => Some(Call::Forget { key: Key::wtxid(*hash) }),
        _ => None,
    })],
    ..COMMON
};

fn link(given: &Given, lent: Lent) -> u64 {
    let Given::On(Call::Forget { key }) = given else { unreachable!() };
    let (kind, hash) = named(key);
    // SAFETY: the bytes are lent to this call alone.
    unsafe { abi::tracker_forget(lent.store.as_mut_ptr(), lent.store.len(), kind, hash) }
}
