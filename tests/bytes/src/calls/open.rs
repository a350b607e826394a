//! Opening.

use oracle::sound::{MAX_L, MAX_Q};
use tracker::abi;

use super::{COMMON, Hands, Spec};
use crate::ask::{Given, Lent};
use crate::draw::Draw;
use crate::reference::Reference;

pub static SPEC: Spec = Spec {
    name: "open",
    weights: [10, 2],
    refusals: &[2, 1],
    hands: Hands::Nothing,
    draw,
    link,
    ..COMMON
};

/// Sizes that are not taken or do not fit into the store; where the store is small, also ones that do.
fn draw(draw: &mut Draw, seen: &Reference) -> Given {
    let ([l, q], word) = (seen.sizes(), draw.rng.word());
    let (l, q) = match draw.rng.below(if draw.profile.large { 8 } else { 12 }) {
        0 => (0, q),
        1 => (l, 0),
        2 => (MAX_L + 1, q),
        3 => (l, MAX_Q + 1),
        4 => (word, q),
        5 => (l, word),
        6 => (MAX_L, MAX_Q),
        7 => (l, q + 1 + draw.rng.below(4)),
        8..=10 => (l, q),
        _ => (1 + draw.rng.below(l), 1 + draw.rng.below(q)),
    };
    Given::Open { l, q }
}

fn link(given: &Given, lent: Lent) -> u64 {
    let Given::Open { l, q } = given else { unreachable!() };
    // SAFETY: the bytes are lent to this call alone.
    unsafe { abi::tracker_open(lent.store.as_mut_ptr(), lent.store.len(), *l, *q) }
}
