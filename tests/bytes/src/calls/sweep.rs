//! sweep.

use oracle::calls::{Call, Reply};
use oracle::image::{HASH, header};
use tracker::abi;

use super::{COMMON, Hands, Spec};
use crate::ask::{Given, KEY, Lent};
use crate::reference::{Rank, Reference, key_of, rank_of};
use crate::tally::{Event, Tally};

/// Keys that one sweep hands out at most.
const MAX_SWEPT: usize = 1_024;

pub static SPEC: Spec = Spec {
    name: "sweep",
    weights: [5, 4],
    refusals: &[3, 7],
    hands: Hands::Keys,
    need: |_, [l, _]| KEY * MAX_SWEPT.min(l as usize),
    draw: |_, _| Given::On(Call::Sweep),
    link,
    follow: Some(follow),
    ..COMMON
};

fn link(_: &Given, lent: Lent) -> u64 {
    let (answer, room) = (lent.buffer.as_mut_ptr(), lent.buffer.len());
    // SAFETY: store, buffer and count are lent to this call alone.
    unsafe { abi::tracker_sweep(lent.store.as_mut_ptr(), lent.store.len(), answer, room, &mut lent.out[0]) }
}

/// The next keys after the known cursor and round to it, which becomes the last of them.
fn follow(reference: &mut Reference, _: &Call, tally: &mut Tally) -> Reply {
    let cursor = &reference.words[header::KNOWN_CURSOR..][..1 + HASH];
    let at = (cursor[0].wrapping_sub(1), [cursor[4], cursor[3], cursor[2], cursor[1]]);
    let rows = reference.rows();
    let from = if cursor[0] == 0 { 0 } else { rows.partition_point(|row| rank_of(row) <= at) };
    let mut ranks: Vec<Rank> = rows[from..].iter().chain(&rows[..from]).map(rank_of).collect();
    ranks.dedup();
    tally.event(match ranks.len() {
        0 => Event::SweptNone,
        n if n > MAX_SWEPT => Event::SweptPart,
        _ if cursor[0] == 0 => Event::SweptStart,
        _ => Event::SweptRound,
    });
    ranks.truncate(MAX_SWEPT);
    let last = match ranks.last() {
        None => [0; 1 + HASH],
        Some((kind, [w3, w2, w1, w0])) => [kind + 1, *w0, *w1, *w2, *w3],
    };
    reference.words[header::KNOWN_CURSOR..][..1 + HASH].copy_from_slice(&last);
    Reply::Keys(ranks.into_iter().map(key_of).collect())
}
