//! announce.

use oracle::calls::{Call, Candidate, Hash, Item, Reply};
use oracle::image::{header, row};
use oracle::sound::{MAX_AT_HASH, MAX_OF_CONNECTION};
use tracker::abi;

use super::{COMMON, Spec};
use crate::ask::{Given, Lent};
use crate::reference::{Reference, Victim, tie};
use crate::tally::{Event, Tally};

pub static SPEC: Spec = Spec {
    name: "announce",
    weights: [130, 30],
    refusals: &[3, 4],
    draw: |draw, _| Given::On(Call::Announce { candidate: draw.candidate() }),
    link,
    follow: Some(follow),
    mistakes: &[
        ("announce taken for request_parent", |call| match call {
            Call::Announce { candidate } => Some(Call::RequestParent { candidate: *candidate }),
            _ => None,
        }),
        ("v taken for t", |call| match *call {
            Call::Announce { mut candidate } => match candidate.item {
                Item::WitnessTransaction(hash) => {
                    candidate.item = Item::Transaction(hash);
                    Some(Call::Announce { candidate })
                }
                _ => None,
            },
            _ => None,
        }),
        ("unpreferred taken for preferred", |call| match *call {
            Call::Announce { mut candidate } => {
                candidate.preferred = true;
                Some(Call::Announce { candidate })
            }
            _ => None,
        }),
    ],
    ..COMMON
};

/// An exported function that brings one candidate.
pub fn bring(call: abi::OfCandidate, c: &Candidate, lent: Lent) -> u64 {
    let (number, Hash(hash)) = c.item.parts();
    let (start, length, reply) = (lent.store.as_mut_ptr(), lent.store.len(), &mut lent.out[0]);
    // SAFETY: the bytes and the reply are lent to this call alone.
    unsafe { call(start, length, c.connection, number, &hash, c.ready, c.preferred, c.priority, reply) }
}

fn link(given: &Given, lent: Lent) -> u64 {
    let Given::On(Call::Announce { candidate }) = given else { unreachable!() };
    bring(abi::tracker_announce, candidate, lent)
}

fn follow(reference: &mut Reference, call: &Call, tally: &mut Tally) -> Reply {
    let Call::Announce { candidate } = call else { unreachable!() };
    let event = announce(reference, candidate, tally);
    tally.event(event);
    Reply::Number(u64::from(event.kept()))
}

pub fn announce(reference: &mut Reference, c: &Candidate, tally: &mut Tally) -> Event {
    let Some(key) = c.item.key() else {
        return Event::NoKey;
    };
    if reference.candidate_at(key.hash, c.connection).is_some() {
        return Event::Again;
    }
    if reference.find(c.connection).is_ok_and(|i| reference.entries()[i][1] >= MAX_OF_CONNECTION) {
        return Event::OfConnection;
    }
    let at_hash = reference.at_hash(key.hash);
    let crowded = at_hash.clone().count() >= MAX_AT_HASH;
    let full = reference.words[header::ROWS] >= reference.words[header::L];
    let (found, event) = match (crowded, full) {
        (false, false) => {
            reference.insert(key, c);
            return Event::Added;
        }
        _ if !c.preferred => return if crowded { Event::EightThere } else { Event::Full },
        (true, _) => (reference.victim(at_hash), Event::EvictedAtHash),
        (false, true) => (reference.victim(0..reference.rows().len()), Event::EvictedAnywhere),
    };
    let Some(victim) = found else {
        return if crowded { Event::NoneAtHash } else { Event::NoneAnywhere };
    };
    note(reference, &victim, c, tally);
    reference.remove(victim.i);
    reference.insert(key, c);
    event
}

/// What decided who goes, and what goes with it.
fn note(reference: &Reference, victim: &Victim, c: &Candidate, tally: &mut Tally) {
    if let Some(tie) = victim.second.and_then(|second| tie(victim.weight, second)) {
        tally.event(tie);
    }
    if victim.owner > Some(victim.weight) {
        tally.event(Event::OwnerSpared);
    }
    let last = c.item.key().is_some_and(|key| reference.at(key) == (victim.i..victim.i + 1));
    if last && reference.rows()[victim.i][row::BITS] & row::MARK != 0 {
        tally.event(Event::MarkGone);
    }
}
