//! request_parent.

use oracle::calls::{Call, Candidate, Item, Reply};
use oracle::image::row;
use tracker::abi;

use super::announce::{announce, bring};
use super::{COMMON, Spec};
use crate::ask::{Given, Lent};
use crate::reference::Reference;
use crate::tally::{Event, Tally};

pub static SPEC: Spec = Spec {
    name: "request_parent",
    weights: [24, 8],
    refusals: &[3, 4],
    draw: |draw, _| Given::On(Call::RequestParent { candidate: draw.candidate() }),
    link,
    follow: Some(follow),
    mistakes: &[("request_parent taken for announce", |call| match call {
        Call::RequestParent { candidate } => Some(Call::Announce { candidate: *candidate }),
        _ => None,
    })],
    ..COMMON
};

fn link(given: &Given, lent: Lent) -> u64 {
    let Given::On(Call::RequestParent { candidate }) = given else { unreachable!() };
    bring(abi::tracker_request_parent, candidate, lent)
}

fn follow(reference: &mut Reference, call: &Call, tally: &mut Tally) -> Reply {
    let Call::RequestParent { candidate } = call else { unreachable!() };
    let event = request_parent(reference, candidate, tally);
    tally.event(event);
    Reply::Number(u64::from(event.kept()))
}

pub fn request_parent(reference: &mut Reference, c: &Candidate, tally: &mut Tally) -> Event {
    let Some(key) = c.item.key() else {
        return Event::NoKey;
    };
    let Some(i) = reference.candidate_at(key.hash, c.connection) else {
        return announce(reference, c, tally);
    };
    let same_kind = reference.at(key).contains(&i);
    let row = reference.row_mut(i);
    row[row::READY] = row[row::READY].min(c.ready);
    row[row::PRIORITY] = row[row::PRIORITY].min(c.priority);
    row[row::BITS] |= row::PREFERRED;
    if same_kind {
        let witness = if matches!(c.item, Item::WitnessTransaction(_)) { row::WITNESS } else { 0 };
        row[row::BITS] = row[row::BITS] & !row::WITNESS | witness;
    }
    if same_kind { Event::Lowered } else { Event::LoweredOtherKind }
}
