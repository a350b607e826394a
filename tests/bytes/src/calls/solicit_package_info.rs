//! solicit_package_info.

use oracle::calls::{Call, Key, Kind, Reply};
use oracle::sound::MAX_OWNED;
use tracker::abi;

use super::{COMMON, Spec, some};
use crate::ask::{Given, Lent};
use crate::draw::Draw;
use crate::reference::Reference;

pub static SPEC: Spec = Spec {
    name: "solicit_package_info",
    weights: [2, 24],
    refusals: &[3, 4, 5, 6, 8],
    draw,
    link,
    cases: &[
        "0: the hash is owned",
        "0: the connection owns 100",
        "0: a candidate under the Txid key",
        "0: not kept",
        "1: a candidate already",
        "1: kept, with room",
        "1: kept, evicting another",
        "1: the last free place",
    ],
    case,
    also: |_, seen, reply| {
        let last = seen.places_held() as u64 + 1 == seen.sizes()[1];
        if some(reply) && last { vec!["1: the last free place"] } else { Vec::new() }
    },
    mistakes: &[
        ("parents from the last to the first", |call| match call.clone() {
            Call::SolicitPackageInfo { connection, hash, now, mut parents } => {
                parents.reverse();
                Some(Call::SolicitPackageInfo { connection, hash, now, parents })
            }
            _ => None,
        }),
        ("a solicitation a millisecond earlier", |call| match call.clone() {
            Call::SolicitPackageInfo { connection, hash, now, parents } => {
                let now = now.saturating_sub(1);
                Some(Call::SolicitPackageInfo { connection, hash, now, parents })
            }
            _ => None,
        }),
    ],
    ..COMMON
};

/// A hash that nobody owns as a rule, of a connection that is a candidate or not.
fn draw(draw: &mut Draw, seen: &Reference) -> Given {
    let row = draw.row(seen).filter(|_| draw.rng.one_in(2));
    let (mut hash, mut connection) = (draw.hash(), draw.connection());
    if let Some(request) = row {
        hash = request.key.hash;
        connection = if draw.rng.one_in(3) { connection } else { request.connection };
    }
    let (now, parents) = (draw.clock(), draw.hashes());
    Given::On(Call::SolicitPackageInfo { connection, hash, now, parents })
}

fn case(call: &Call, seen: &Reference, reply: &Reply) -> &'static str {
    let Call::SolicitPackageInfo { connection, hash, .. } = call else { unreachable!() };
    let owned = [Key::txid(*hash), Key::wtxid(*hash)].iter().any(|key| seen.owner_of(*key).is_some());
    let owning = seen.find(*connection).map_or(0, |i| seen.entries()[i][2]);
    let before = seen.candidate_at(*hash, *connection).map(|i| seen.key_at(i).kind);
    match (before, some(reply)) {
        _ if owned => "0: the hash is owned",
        _ if owning >= MAX_OWNED => "0: the connection owns 100",
        (Some(Kind::Txid), false) => "0: a candidate under the Txid key",
        (_, false) => "0: not kept",
        (Some(_), true) => "1: a candidate already",
        (None, true) if seen.room(*hash) => "1: kept, with room",
        (None, true) => "1: kept, evicting another",
    }
}

fn link(given: &Given, lent: Lent) -> u64 {
    let Given::On(Call::SolicitPackageInfo { connection, hash, now, parents }) = given else {
        unreachable!()
    };
    let parents = lent.list(parents);
    let (store, length, reply) = (lent.store.as_mut_ptr(), lent.store.len(), &mut lent.out[0]);
    let (list, list_length) = (parents.as_ptr(), parents.len());
    // SAFETY: the bytes and the reply are lent to this call alone; hash and parents are only read.
    unsafe {
        abi::tracker_solicit_package_info(store, length, *connection, &hash.0, list, list_length, *now, reply)
    }
}
