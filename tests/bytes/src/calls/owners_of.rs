//! owners_of (document 02, request e): no call of the Rust. What is right is looked up in the Rust's own map (oracle), and
//! a second time in the reference's rows.

use oracle::calls::{Call, Hash, Holding, MAX_ASKED_HASHES, Reply};
use oracle::image::row;
use tracker::abi;

use super::{COMMON, Hands, Spec};
use crate::ask::{Given, Lent, OWNER};
use crate::draw::Draw;
use crate::reference::{Reference, key_of, rank_of};
use crate::tally::Tally;

pub static SPEC: Spec = Spec {
    name: "owners_of",
    weights: [6, 10],
    refusals: &[3, 7, 13],
    hands: Hands::Owners,
    need: |given, _| OWNER * asked(given).len(),
    draw,
    link,
    follow: Some(follow),
    cases: &["no hash", "one hash", "some hashes", "all 1,024 hashes", "every key passed", "some keys passed", "no key passed", "as Txid", "as Wtxid", "nobody"],
    case: |call, _, _| match hashes_of(call).len() {
        0 => "no hash",
        1 => "one hash",
        MAX_ASKED_HASHES => "all 1,024 hashes",
        _ => "some hashes",
    },
    also,
    mistakes: &[
        ("without the greatest hash", |call| {
            let hashes = hashes_of(call);
            hashes.split_last().map(|(_, rest)| Call::OwnersOf { hashes: rest.to_vec() })
        }),
    ],
    ..COMMON
};

fn hashes_of(call: &Call) -> &[Hash] {
    match call {
        Call::OwnersOf { hashes } => hashes,
        _ => unreachable!(),
    }
}

fn asked(given: &Given) -> &[Hash] {
    match given {
        Given::On(call) => hashes_of(call),
        _ => unreachable!(),
    }
}

/// Hashes of the run, owned ones among them, in ascending order; at times as many as are taken, one more, or two of them equal or exchanged.
fn draw(draw: &mut Draw, seen: &Reference) -> Given {
    let count = match draw.rng.below(60) {
        0 => MAX_ASKED_HASHES,
        1 => MAX_ASKED_HASHES + 1 + draw.rng.index(3),
        2..=9 => 20 + draw.rng.index(80),
        _ => draw.rng.index(9),
    };
    let mut hashes: Vec<Hash> = Vec::new();
    while hashes.len() < count {
        hashes.push(match draw.rng.below(3) {
            _ if hashes.len() > 100 => draw.rng.hash(),
            0 => draw.owning(seen).map_or_else(|| draw.hash(), |row| row.key.hash),
            1 => draw.row(seen).map_or_else(|| draw.hash(), |row| row.key.hash),
            _ => draw.hash(),
        });
        if hashes.len() == count {
            hashes.sort_unstable();
            hashes.dedup();
            if count <= 100 {
                break;
            }
        }
    }
    if hashes.len() > 1 && draw.rng.one_in(12) {
        let i = draw.rng.index(hashes.len() - 1);
        if draw.rng.one_in(2) { hashes.swap(i, i + 1) } else { hashes[i] = hashes[i + 1] }
    }
    Given::On(Call::OwnersOf { hashes })
}

/// From the rows: the owning row of each hash, and the keys up to the last hash.
fn follow(reference: &mut Reference, call: &Call, _: &mut Tally) -> Reply {
    let hashes = hashes_of(call);
    let rows = reference.rows();
    let owner = |hash: &Hash| {
        let owning = |i: &usize| rows[*i][row::BITS] & row::OWNS != 0;
        reference.at_hash(*hash).find(owning).map(|i| Holding {
            key: key_of(rank_of(&rows[i])),
            connection: rows[i][row::CONNECTION],
            deadline: rows[i][row::DEADLINE],
        })
    };
    let mut passed: Vec<_> = rows.iter().map(rank_of).collect();
    passed.dedup();
    passed.retain(|rank| hashes.last().is_some_and(|last| key_of(*rank).hash <= *last));
    Reply::Owners(passed.len() as u64, hashes.iter().map(owner).collect())
}

fn also(call: &Call, seen: &Reference, reply: &Reply) -> Vec<&'static str> {
    let Reply::Owners(passed, owners) = reply else { unreachable!() };
    let mut keys: Vec<_> = seen.rows().iter().map(rank_of).collect();
    keys.dedup();
    let mut cases = vec![match *passed as usize {
        0 => "no key passed",
        n if n == keys.len() => "every key passed",
        _ => "some keys passed",
    }];
    let kinds = |owner: &Option<Holding>| match owner.map(|owner| owner.key.kind) {
        None => "nobody",
        Some(oracle::calls::Kind::Txid) => "as Txid",
        Some(oracle::calls::Kind::Wtxid) => "as Wtxid",
    };
    cases.extend(["nobody", "as Txid", "as Wtxid"].into_iter().filter(|case| owners.iter().any(|owner| kinds(owner) == *case)));
    let _ = call;
    cases
}

fn link(given: &Given, lent: Lent) -> u64 {
    let list = lent.list(asked(given));
    let (answer, room) = (lent.buffer.as_mut_ptr(), lent.buffer.len());
    // SAFETY: buffer and count are lent to this call alone; store and list are only read.
    unsafe {
        abi::tracker_owners_of(
            lent.store.as_ptr(),
            lent.store.len(),
            list.as_ptr(),
            list.len(),
            answer,
            room,
            &mut lent.out[0],
        )
    }
}
