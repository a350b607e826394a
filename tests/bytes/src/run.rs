//! Runs: a store, a profile, and calls drawn for it.

use std::time::Instant;

use oracle::calls::{Call, Reply};
use oracle::image::need;
use oracle::random::Rng;

use crate::ask::{Ask, Given};
use crate::damage::{self, Store};
use crate::draw::{Draw, Planned};
use crate::profiles::{Profile, Start};
use crate::tally::Tally;
use crate::trial::{Library, Trial};

/// Calls in which every size of a large profile has one run.
pub const ROUND: u64 = 20_000;
/// A profile of short runs has several at once, of about so many calls.
const SHARE: u64 = 150;
/// One call in so many is on a damaged copy of the store.
const DAMAGED: u64 = 30;
/// One plan in so many is not claimed at once.
const UNCLAIMED: u64 = 3;
/// Bytes past the need are fewer than this.
const PAST: usize = 100;

/// One run; the error says which call differs.
pub fn run(
    profile: &Profile,
    (l, q): (u64, u64),
    mut rng: Rng,
    library: Library,
    tally: &mut Tally,
) -> Result<(), String> {
    let state = profile.state(&mut rng, l, q);
    let mut draw = Draw::new(rng, profile, &state);
    let past = draw.rng.index(PAST);
    let tail = draw.bytes(past);
    let mut trial = Trial::new(library, tally, &state, tail);
    let mut calls = 0;
    let about = |calls, text| format!("profile \"{}\", L {l}, Q {q}, call {calls}: {text}", profile.name);
    if matches!(profile.start, Start::Opened) {
        trial.store = draw.bytes(trial.store.len());
        trial.step(&draw.opening(l, q)).map_err(|text| about(0, text))?;
    }
    while calls < profile.calls {
        calls += 1;
        let fresh = std::mem::take(&mut draw.planned.fresh);
        let ask =
            if fresh && !draw.rng.one_in(UNCLAIMED) { draw.claim() } else { draw.ask(&trial.reference) };
        let done = if draw.rng.one_in(DAMAGED) {
            damaged(&mut trial, &ask, &mut draw.rng)
        } else {
            trial.step(&ask)
        };
        done.map_err(|text| about(calls, text))?;
        match (&ask.given, trial.reply.take()) {
            (Given::On(Call::Claim { .. }), Some(Reply::Entries(taken))) => draw.taken = taken,
            (Given::On(Call::Plan { now, .. }), Some(Reply::Planned(_, entries, _))) => {
                draw.planned = Planned { now: *now, entries, fresh: true };
            }
            _ => {}
        }
    }
    trial.end().map_err(|text| about(calls, text))
}

/// The call on a copy of the store that is damaged or of another length.
fn damaged(trial: &mut Trial, ask: &Ask, rng: &mut Rng) -> Result<(), String> {
    let bytes = trial.store[..need(trial.l, trial.q)].to_vec();
    let mut store = Store::new(bytes);
    let kinds = if rng.one_in(3) { damage::LENGTHS } else { damage::KINDS };
    let name = loop {
        let (name, damage) = rng.pick(kinds);
        if damage(&mut store, rng) {
            break name;
        }
    };
    trial.aside(ask, &store.bytes, name)
}

/// Rounds of runs until there were so many calls, or the time has come; whether it has.
pub fn rounds(
    profiles: &[Profile],
    calls: u64,
    seed: u64,
    stop: Option<Instant>,
    library: Library,
    tally: &mut Tally,
) -> Result<bool, String> {
    let mut rng = Rng::new(seed);
    let late = || stop.is_some_and(|stop| Instant::now() >= stop);
    while tally.calls < calls {
        let end = calls.min(tally.calls + ROUND);
        let mut large = profiles
            .iter()
            .filter(|profile| profile.large)
            .flat_map(|profile| profile.sizes.iter().map(move |sizes| (profile, *sizes)));
        while tally.calls < end {
            if late() {
                return Ok(true);
            }
            let (profile, sizes) = large.next().unwrap_or_else(|| small(profiles, &mut rng));
            let times = if profile.large { 1 } else { (SHARE / profile.calls).max(1) };
            for _ in 0..times {
                let own = Rng::new(rng.next());
                let number = tally.runs + 1;
                run(profile, sizes, own, library, tally)
                    .map_err(|text| format!("seed {seed}, run {number}: {text}"))?;
            }
        }
    }
    Ok(false)
}

/// A profile that is not large, and its sizes.
pub fn small<'a>(profiles: &'a [Profile], rng: &mut Rng) -> (&'a Profile, (u64, u64)) {
    let small: Vec<&Profile> = profiles.iter().filter(|profile| !profile.large).collect();
    let profile = rng.pick(&small);
    (profile, rng.pick(profile.sizes))
}
