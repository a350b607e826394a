//! sum.

use oracle::calls::{Call, Reply};
use oracle::image::{header, row};
use tracker::abi;

use super::{COMMON, Hands, Spec};
use crate::ask::{Given, Lent};
use crate::reference::Reference;
use crate::tally::Tally;

pub static SPEC: Spec = Spec {
    name: "sum",
    weights: [8, 4],
    refusals: &[3],
    hands: Hands::Figures,
    draw: |_, _| Given::On(Call::Sum),
    link,
    follow: Some(follow),
    ..COMMON
};

fn link(_: &Given, lent: Lent) -> u64 {
    let [held, free, preferred, permille] = lent.out;
    // SAFETY: the bytes are only read, the numbers are lent to this call alone.
    unsafe { abi::tracker_sum(lent.store.as_ptr(), lent.store.len(), held, free, preferred, permille) }
}

fn follow(reference: &mut Reference, _: &Call, _: &mut Tally) -> Reply {
    let [l, held] = [header::L, header::ROWS].map(|at| reference.words[at]);
    let evictable = reference.rows().iter().filter(|row| row[row::BITS] & (row::PREFERRED | row::OWNS) == 0);
    Reply::Sum(held, l - held, l - held + evictable.count() as u64, held * 1_000 / l)
}
