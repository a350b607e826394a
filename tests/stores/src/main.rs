//! Images of random sound states, damaged in many ways: the library's sound test must
//! say of every one what `oracle::image::read` says of it, and `sum` must give its figures.
//!
//!     stores [--count N] [--seed N] [--seconds N]
//!
//! So many damaged stores, or as many as there is time for.
//!
//! Without the feature `library` only the second reading (`again`) is held against the
//! first, which tries the damage and both readings.

mod again;
mod damage;
mod forge;
#[cfg(feature = "library")]
mod opening;
mod report;
#[cfg(feature = "library")]
mod summing;

use std::process::ExitCode;
use std::time::{Duration, Instant};

use damage::Store;
use oracle::image::{Why, broken, image, read};
use oracle::random::{self, Rng, Shape};
use oracle::state::State;
use report::Report;

/// Damaged stores of each state.
const OF_STATE: u64 = 40;
/// One round in so many is of a larger state.
const LARGE: u64 = 250;

type Judge = (&'static str, fn(&[u8]) -> bool);

const JUDGES: &[Judge] = &[
    ("the second reading", again::sound),
    #[cfg(feature = "library")]
    ("the library", tracker::bytes::sound),
    #[cfg(feature = "library")]
    ("the library's sum", summing::takes),
];

struct Trial {
    rng: Rng,
    report: Report,
}

impl Trial {
    fn small_state(&mut self) -> State {
        let rng = &mut self.rng;
        let most = rng.pick(&[2, 2, 2, 5]);
        let (l, q) = (1 + rng.below(100), 1 + rng.below(most));
        #[cfg(feature = "source")]
        if rng.one_in(2) {
            let calls = rng.index(400);
            return random::walk(rng, l, q, calls);
        }
        let shape = Shape::any(rng, l, q);
        random::state(rng, shape)
    }

    fn large_state(&mut self) -> State {
        let rng = &mut self.rng;
        let (l, q) = rng.pick(&[(300, 3), (1_000, 16), (3_000, 40), (20_000, 64)]);
        let most = rng.pick(&[60, 2_000, 60_000]);
        let connections = 1 + rng.index(most);
        let shape = Shape { l, q, held: l, places: q, connections, spread: 4, owned: 1, list: None };
        random::state(rng, shape)
    }

    /// Every judge's verdict equals the reading's.
    fn judge(&mut self, damage: &[&'static str], bytes: &[u8]) -> Result<(), String> {
        let broken = broken(bytes);
        for (name, verdict) in JUDGES {
            if verdict(bytes) != broken.is_empty() {
                let why: Vec<String> = broken.iter().map(Why::to_string).collect();
                return Err(format!(
                    "{name} says {} of a store of {} bytes; damage: {damage:?}; broken rules: {why:?}",
                    if broken.is_empty() { "not sound" } else { "sound" },
                    bytes.len()
                ));
            }
        }
        self.report.note(damage, &broken);
        Ok(())
    }

    fn images_of(&mut self, state: &State) -> Result<Vec<u8>, String> {
        let bytes = image(state);
        if read(&bytes).as_ref() != Ok(state) {
            return Err(format!("not read back: {state:?}"));
        }
        for (name, verdict) in JUDGES {
            if !verdict(&bytes) {
                return Err(format!("{name} refuses the image of {state:?}"));
            }
        }
        self.report.images += 1;
        Ok(bytes)
    }

    fn round(&mut self, large: bool) -> Result<(), String> {
        let state = if large { self.large_state() } else { self.small_state() };
        let bytes = self.images_of(&state)?;
        for _ in 0..OF_STATE {
            if self.rng.one_in(4) {
                self.forged(&state)?;
            } else {
                self.damaged(Store::new(bytes.clone()))?;
            }
        }
        Ok(())
    }

    fn damaged(&mut self, mut store: Store) -> Result<(), String> {
        let mut done = Vec::new();
        let times = if self.rng.one_in(4) { 2 + self.rng.below(2) } else { 1 };
        while (done.len() as u64) < times {
            let (name, damage) = self.rng.pick(damage::KINDS);
            if damage(&mut store, &mut self.rng) {
                done.push(name);
            }
        }
        if self.rng.one_in(8) {
            let (name, damage) = self.rng.pick(damage::LENGTHS);
            if damage(&mut store, &mut self.rng) {
                done.push(name);
            }
        }
        self.judge(&done, &store.bytes)
    }

    /// A state that is not sound, or one at a limit, and at times another length.
    fn forged(&mut self, state: &State) -> Result<(), String> {
        let kinds = if self.rng.one_in(150) { forge::LARGE } else { forge::KINDS };
        let (name, forge) = self.rng.pick(kinds);
        let mut other = state.clone();
        let mut done = Vec::new();
        if forge(&mut other, &mut self.rng) {
            done.push(name);
        } else {
            other.clone_from(state);
        }
        let mut bytes = image(&other);
        if done.is_empty() || self.rng.one_in(8) {
            let mut store = Store::new(bytes);
            let (name, damage) = self.rng.pick(damage::LENGTHS);
            if damage(&mut store, &mut self.rng) {
                done.push(name);
            }
            bytes = store.bytes;
        }
        if done.is_empty() { Ok(()) } else { self.judge(&done, &bytes) }
    }
}

fn option(name: &str, default: u64) -> Result<u64, String> {
    let mut arguments = std::env::args().skip_while(|argument| argument != name);
    if arguments.next().is_none() {
        return Ok(default);
    }
    let value = arguments.next().unwrap_or_default();
    value.parse().map_err(|_| format!("{name} wants a number, not {value:?}"))
}

/// What was tried, and whether the clock ended it before its count.
fn run() -> Result<(Report, bool), String> {
    let (count, seed) = (option("--count", 120_000)?, option("--seed", 1)?);
    let (started, time) = (Instant::now(), Duration::from_secs(option("--seconds", u64::MAX)?));
    let mut trial = Trial { rng: Rng::new(seed), report: Report::default() };
    let mut rounds = 0;
    while trial.report.tried < count && started.elapsed() < time {
        rounds += 1;
        trial.round(rounds % LARGE == 0).map_err(|text| format!("seed {seed}, state {rounds}: {text}"))?;
    }
    let cut = trial.report.tried < count;
    Ok((trial.report, cut))
}

fn main() -> ExitCode {
    let (report, cut) = match run() {
        Ok(done) => done,
        Err(text) => {
            eprintln!("{text}");
            return ExitCode::FAILURE;
        }
    };
    report.print();
    let judges: Vec<&str> = JUDGES.iter().map(|(name, _)| *name).collect();
    println!("\nverdicts equal to the reading's: {}", judges.join(", "));
    if cut {
        println!("ended by the clock after {} damaged stores", report.tried);
    }
    #[cfg(feature = "library")]
    match opening::trial(&mut Rng::new(1)) {
        Ok(counts) => println!("{counts}"),
        Err(text) => {
            eprintln!("{text}");
            return ExitCode::FAILURE;
        }
    }
    let untried = report.untried();
    if !untried.is_empty() {
        println!("not broken alone by any store: {untried:?}");
        return if cut { ExitCode::SUCCESS } else { ExitCode::FAILURE };
    }
    ExitCode::SUCCESS
}
