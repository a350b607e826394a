//! transaction_response_completed.

use oracle::calls::{Call, Key, Kind, Reply};
use tracker::abi;

use super::{COMMON, Hands, Spec};
use crate::ask::{Given, Lent};
use crate::draw::Draw;
use crate::look::{FREED, standing};
use crate::reference::Reference;

pub static SPEC: Spec = Spec {
    name: "transaction_response_completed",
    weights: [1, 5],
    refusals: &[3, 4, 5],
    hands: Hands::Nothing,
    draw,
    link,
    cases: &[
        "neither is its own",
        "the Txid key fails",
        "the Wtxid key fails",
        "both fail",
        "a package in the queue stays",
        "one hash for both",
        "a package with parents goes",
        FREED,
    ],
    case,
    also,
    mistakes: &[
        ("the Wtxid key alone", |call| match *call {
            Call::TransactionResponseCompleted { connection, wtxid, now, .. } => {
                Some(Call::Failed { key: Key::wtxid(wtxid), connection, now })
            }
            _ => None,
        }),
        ("parents announced", |call| match *call {
            Call::TransactionResponseCompleted { connection, wtxid, now, .. } => {
                Some(Call::FailedWithParents { key: Key::wtxid(wtxid), connection, now })
            }
            _ => None,
        }),
    ],
    ..COMMON
};

/// A request and its owner as a rule, with another of the same owner under the other identity if there is one.
fn draw(draw: &mut Draw, seen: &Reference) -> Given {
    let request = draw.request(seen);
    let Key { kind, hash } = request.key;
    let other_kind = if kind == Kind::Txid { Kind::Wtxid } else { Kind::Txid };
    let other = match draw.rng.below(6) {
        0 => Some(hash),
        1 => None,
        _ => draw.owned_by(seen, request.connection, other_kind),
    };
    let other = other.unwrap_or_else(|| draw.hash());
    let (txid, wtxid) = if kind == Kind::Txid { (hash, other) } else { (other, hash) };
    let (connection, now) = (request.connection, draw.clock());
    Given::On(Call::TransactionResponseCompleted { connection, txid, wtxid, now })
}

/// Whether the connection owns the key and no package in the queue keeps it.
fn fails(seen: &Reference, key: Key, connection: u64) -> bool {
    !matches!(standing(seen, key, connection), "no request" | "no owner" | "of another" | "Enqueued")
}

fn case(call: &Call, seen: &Reference, _: &Reply) -> &'static str {
    let Call::TransactionResponseCompleted { connection, txid, wtxid, .. } = call else { unreachable!() };
    let [one, other] = [Key::txid(*txid), Key::wtxid(*wtxid)].map(|key| fails(seen, key, *connection));
    match (one, other) {
        (false, false) => "neither is its own",
        (true, false) => "the Txid key fails",
        (false, true) => "the Wtxid key fails",
        (true, true) => "both fail",
    }
}

fn also(call: &Call, seen: &Reference, _: &Reply) -> Vec<&'static str> {
    let Call::TransactionResponseCompleted { connection, txid, wtxid, .. } = call else { unreachable!() };
    let key = Key::wtxid(*wtxid);
    let goes = fails(seen, key, *connection);
    let held = seen.place_of(key).filter(|_| goes);
    let mut cases = Vec::new();
    if standing(seen, key, *connection) == "Enqueued" {
        cases.push("a package in the queue stays");
    }
    if txid == wtxid && (goes || fails(seen, Key::txid(*txid), *connection)) {
        cases.push("one hash for both");
    }
    if held.as_ref().is_some_and(|held| !held.parents.is_empty()) {
        cases.push("a package with parents goes");
    }
    if held.is_some() && seen.all_held() {
        cases.push(FREED);
    }
    cases
}

fn link(given: &Given, lent: Lent) -> u64 {
    let Given::On(Call::TransactionResponseCompleted { connection, txid, wtxid, now }) = given else {
        unreachable!()
    };
    let (store, length) = (lent.store.as_mut_ptr(), lent.store.len());
    // SAFETY: the bytes are lent to this call alone; the hashes are only read.
    unsafe {
        abi::tracker_transaction_response_completed(store, length, *connection, &txid.0, &wtxid.0, *now)
    }
}
