//! The poll gate.

use oracle::calls::{Call, Reply};
use oracle::image::header;
use tracker::abi;

use super::{COMMON, Spec};
use crate::ask::{Given, Lent};
use crate::draw::Draw;
use crate::reference::Reference;
use crate::tally::{Event, Tally};

/// Milliseconds between polls.
const POLL_INTERVAL: u64 = 100;

pub static SPEC: Spec = Spec {
    name: "poll_gate",
    weights: [5, 4],
    refusals: &[3, 5],
    draw,
    link,
    follow: Some(follow),
    ..COMMON
};

/// Times near each other as a rule, so that a poll is met that is not due.
fn draw(draw: &mut Draw, _: &Reference) -> Given {
    let now = if draw.rng.one_in(4) { draw.clock() } else { draw.rng.below(300) };
    Given::On(Call::PollGate { now })
}

fn link(given: &Given, lent: Lent) -> u64 {
    let Given::On(Call::PollGate { now }) = given else { unreachable!() };
    // SAFETY: the bytes and the reply are lent to this call alone.
    unsafe { abi::tracker_poll_gate(lent.store.as_mut_ptr(), lent.store.len(), *now, &mut lent.out[0]) }
}

fn follow(reference: &mut Reference, call: &Call, tally: &mut Tally) -> Reply {
    let Call::PollGate { now } = call else { unreachable!() };
    let [set, next] = [0, 1].map(|i| reference.words[header::NEXT_POLL + i]);
    let due = set == 0 || next <= *now;
    tally.event(if due { Event::Due } else { Event::NotDue });
    if due {
        reference.words[header::NEXT_POLL..][..2].copy_from_slice(&[1, now + POLL_INTERVAL]);
    }
    Reply::Number(u64::from(due))
}
