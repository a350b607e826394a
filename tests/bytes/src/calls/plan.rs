//! plan, and what it has in common with plan_given.

use std::collections::{BTreeMap, BTreeSet};

use oracle::calls::{Call, Entry, Hash, Item, Kind, LAST_CLOCK, Reply};
use oracle::image::{ROW, row};
use oracle::sound::MAX_OWNED;
use tracker::abi;

use super::{COMMON, Hands, Mistake, Spec};
use crate::ask::{ENTRY, Given, Lent};
use crate::draw::Draw;
use crate::reference::Reference;

/// After so many selected a phase stops; one more can come in the second.
pub const CHECKS: u64 = 1_024;
/// How long a claim lasts.
const LIFETIME: u64 = 60_000;
const HUNDREDS: usize = 200;

pub const EARLIER: (&str, Mistake) = ("a plan a millisecond earlier", |call| match call.clone() {
    Call::Plan { now, keys } => Some(Call::Plan { now: now.saturating_sub(1), keys }),
    _ => None,
});

pub static SPEC: Spec = Spec {
    name: "plan",
    weights: [4, 20],
    refusals: &[3, 5, 7],
    hands: Hands::Plan,
    need,
    draw: |draw, seen| Given::On(Call::Plan { now: clock(draw, seen), keys: None }),
    link,
    cases: &[
        "no key",
        "nothing ready",
        "some selected",
        "1,024 selected",
        "1,025 selected",
        "no ready cursor",
        "a ready cursor in the middle, round to it",
        "a ready cursor before the first key or after the last",
        "a ready cursor that is no key",
        "stopped before the last key",
        "an owner expired",
        "an owner at its deadline",
        "an owner a millisecond before its deadline",
        "an expired owner without other candidates",
        "100 owners expired",
        "parents of an expired owner",
        "an Enqueued owner stays, its parents announced",
        "a parent selected",
        "200 parents selected",
        "the clock went back: an owner with more than its time",
        "a ready one of a connection that owns 100",
        "100 of a connection with what is selected",
        "both kinds of a hash ready, the Txid selected",
        "both kinds of a hash ready, the Wtxid selected",
        "selected with equal priorities",
    ],
    case,
    also: |call, seen, reply| {
        let mut cases = common(call, seen, reply);
        cases.extend(about_cursor(seen, reply));
        cases
    },
    mistakes: &[
        EARLIER,
        ("no key but the parents considered", |call| match *call {
            Call::Plan { now, .. } => Some(Call::Plan { now, keys: Some(Vec::new()) }),
            _ => None,
        }),
    ],
    ..COMMON
};

pub fn need(_: &Given, [l, _]: [u64; 2]) -> usize {
    ENTRY * l.min(CHECKS + 1) as usize
}

/// About the end of an ownership, when a candidate gets ready, the last plan's time, or any time.
pub fn clock(draw: &mut Draw, seen: &Reference) -> u64 {
    let now = match draw.rng.below(10) {
        0..=2 => match draw.owning(seen) {
            Some(owner) => draw.near(owner.deadline),
            None => draw.clock(),
        },
        3 if !seen.rows().is_empty() => {
            let i = draw.rng.index(seen.rows().len());
            (seen.rows()[i][row::READY].saturating_add(draw.rng.below(2))).saturating_sub(1).min(LAST_CLOCK)
        }
        4 => draw.planned.now.saturating_sub(draw.rng.below(2 * LIFETIME)),
        5 => draw.rng.below(5),
        6 | 7 => LAST_CLOCK - draw.rng.below(2),
        _ => return draw.clock(),
    };
    if draw.rng.one_in(40) { u64::MAX - draw.rng.below(LIFETIME) } else { now }
}

/// By how many are selected.
pub fn case(_: &Call, seen: &Reference, reply: &Reply) -> &'static str {
    let Reply::Planned(_, entries, _) = reply else { unreachable!() };
    match entries.len() as u64 {
        0 if seen.rows().is_empty() => "no key",
        0 => "nothing ready",
        CHECKS => "1,024 selected",
        n if n > CHECKS => "1,025 selected",
        _ => "some selected",
    }
}

/// The owners whose time has come.
#[derive(Default)]
struct Expired {
    count: usize,
    parents: BTreeSet<Hash>,
    cases: BTreeSet<&'static str>,
}

fn expired(seen: &Reference, now: u64) -> Expired {
    let mut found = Expired::default();
    for (i, row) in seen.rows().iter().enumerate().filter(|(_, row)| row[row::BITS] & row::OWNS != 0) {
        let deadline = row[row::DEADLINE];
        if deadline > now {
            let going = deadline - now == 1;
            found.cases.extend(going.then_some("an owner a millisecond before its deadline"));
            let back = deadline - now > LIFETIME;
            found.cases.extend(back.then_some("the clock went back: an owner with more than its time"));
            continue;
        }
        found.count += 1;
        found.cases.insert("an owner expired");
        found.cases.extend((deadline == now).then_some("an owner at its deadline"));
        let key = seen.key_at(i);
        let held = seen.place_of(key);
        let stays = held.as_ref().is_some_and(|held| !held.releasable());
        if seen.at(key).len() == 1 && !stays {
            found.cases.insert("an expired owner without other candidates");
        }
        let parents = held.map(|held| held.parents).unwrap_or_default();
        if !parents.is_empty() {
            found.cases.insert(if stays {
                "an Enqueued owner stays, its parents announced"
            } else {
                "parents of an expired owner"
            });
        }
        found.parents.extend(parents);
    }
    found.cases.extend((found.count >= 100).then_some("100 owners expired"));
    found
}

/// Whether an entry is a parent's candidate that this plan has made.
fn announced(seen: &Reference, now: u64, parents: &BTreeSet<Hash>, entry: &Entry) -> bool {
    let Entry { key, candidate } = entry;
    let made = candidate.ready == now && candidate.preferred && candidate.item == Item::Transaction(key.hash);
    made && parents.contains(&key.hash) && seen.candidate_at(key.hash, candidate.connection).is_none()
}

/// How many entries are parents' candidates that this plan has made.
pub fn parents_selected(seen: &Reference, now: u64, entries: &[Entry]) -> usize {
    let parents = expired(seen, now).parents;
    entries.iter().filter(|entry| announced(seen, now, &parents, entry)).count()
}

/// The cases that both plans have, but for how many are selected.
pub fn common(call: &Call, seen: &Reference, reply: &Reply) -> Vec<&'static str> {
    let (Call::Plan { now, .. }, Reply::Planned(_, entries, _)) = (call, reply) else { unreachable!() };
    let mut cases = expired(seen, *now).cases;
    let parents = parents_selected(seen, *now, entries);
    cases.extend((parents > 0).then_some("a parent selected"));
    cases.extend((parents >= HUNDREDS).then_some("200 parents selected"));
    cases.extend(of_connections(seen, *now, entries));
    cases.extend(entries.iter().filter_map(|entry| of_kinds(seen, *now, entry)));
    let equal = entries.windows(2).any(|pair| pair[0].candidate.priority == pair[1].candidate.priority);
    cases.extend(equal.then_some("selected with equal priorities"));
    cases.into_iter().collect()
}

/// Connections at their 100: by what they own before and keep, or with what is selected.
fn of_connections(seen: &Reference, now: u64, entries: &[Entry]) -> BTreeSet<&'static str> {
    let mut owning: BTreeMap<u64, u64> = BTreeMap::new();
    let mut owned = BTreeSet::new();
    for (i, row) in seen.rows().iter().enumerate() {
        if row[row::BITS] & row::OWNS != 0 && row[row::DEADLINE] > now {
            *owning.entry(row[row::CONNECTION]).or_default() += 1;
            owned.insert(seen.key_at(i).hash);
        }
    }
    let full = |row: &[u64; ROW]| {
        row[row::READY] <= now && owning.get(&row[row::CONNECTION]).is_some_and(|count| *count >= MAX_OWNED)
    };
    let mut rows = seen.rows().iter().enumerate();
    let waiting = rows.any(|(i, row)| full(row) && !owned.contains(&seen.key_at(i).hash));
    for entry in entries {
        *owning.entry(entry.candidate.connection).or_default() += 1;
    }
    let now_full = entries.iter().any(|entry| owning[&entry.candidate.connection] >= MAX_OWNED);
    let cases = [
        waiting.then_some("a ready one of a connection that owns 100"),
        now_full.then_some("100 of a connection with what is selected"),
    ];
    cases.into_iter().flatten().collect()
}

/// Which kind was selected of a hash that is ready under both.
fn of_kinds(seen: &Reference, now: u64, entry: &Entry) -> Option<&'static str> {
    let ready: BTreeSet<u64> = seen
        .at_hash(entry.key.hash)
        .map(|i| &seen.rows()[i])
        .filter(|row| row[row::READY] <= now)
        .map(|row| row[row::BITS] & row::WTXID)
        .collect();
    let of = match entry.key.kind {
        Kind::Txid => "both kinds of a hash ready, the Txid selected",
        Kind::Wtxid => "both kinds of a hash ready, the Wtxid selected",
    };
    (ready.len() == 2).then_some(of)
}

/// Where the ready cursor stands among the keys, and whether the plan came round to it.
fn about_cursor(seen: &Reference, reply: &Reply) -> Vec<&'static str> {
    let Reply::Planned(considered, entries, _) = reply else { unreachable!() };
    let (count, stopped) = (seen.rows().len(), entries.len() as u64 >= CHECKS);
    let mut cases = Vec::new();
    let mut keys: Vec<_> = (0..count).map(|i| seen.key_at(i)).collect();
    keys.dedup();
    match seen.ready_cursor() {
        None => cases.push("no ready cursor"),
        Some(cursor) => {
            let before = keys.partition_point(|key| *key <= cursor);
            let middle = before > 0 && before < keys.len();
            cases.extend((middle && !stopped).then_some("a ready cursor in the middle, round to it"));
            cases.extend((!middle).then_some("a ready cursor before the first key or after the last"));
            let there = !seen.at(cursor).is_empty();
            cases.extend((!there).then_some("a ready cursor that is no key"));
        }
    }
    cases.extend((stopped && *considered < keys.len() as u64).then_some("stopped before the last key"));
    cases
}

fn link(given: &Given, lent: Lent) -> u64 {
    let Given::On(Call::Plan { now, .. }) = given else { unreachable!() };
    let (store, length) = (lent.store.as_mut_ptr(), lent.store.len());
    let (answer, room) = (lent.buffer.as_mut_ptr(), lent.buffer.len());
    let [considered, count, next, ..] = lent.out;
    // SAFETY: store, buffer and counts are lent to this call alone.
    unsafe { abi::tracker_plan(store, length, *now, answer, room, considered, count, next) }
}
