//! The program tested: calls with a planted error, each of which must be told at the very call.

use oracle::image::{HEADER, ROW, WORD, header, need};
use oracle::random::Rng;
use oracle::sound::opens;

use crate::ask::{Answer, Ask, Given};
use crate::calls::{ALL, Hands, Mistake, PACKAGES, Spec};
use crate::oracles;
use crate::profiles::{Often, in_use};
use crate::run::{run, small};
use crate::tally::Tally;

/// A call as it was carried out, rightly.
struct Done<'a> {
    before: &'a [u8],
    store: &'a mut [u8],
    ask: &'a Ask,
    answer: &'a mut Answer,
}

/// Plants the error and says so, or does nothing if the call has no room for it.
type Fault = fn(&mut Done, &mut Rng) -> bool;

const FAULTS: &[(&str, Fault)] = &[
    ("a byte of the store", |done, rng| done.answer.status == 0 && done.flip(rng, true)),
    ("a byte past the need", |done, rng| done.answer.status == 0 && done.flip(rng, false)),
    ("a byte of a refused call's store", |done, rng| {
        let within = rng.one_in(2);
        done.answer.status != 0 && done.flip(rng, within)
    }),
    ("nothing stored", |done, _| {
        let changed = done.before != &*done.store;
        done.store.copy_from_slice(done.before);
        changed
    }),
    ("two rows exchanged", |done, rng| done.exchange(rng)),
    ("another reply", |done, _| {
        done.answer.out[0] ^= 1;
        done.answer.status == 0
    }),
    ("another second count", |done, _| {
        let second = matches!(done.ask.spec.hands, Hands::Departure | Hands::Plan | Hands::Counts);
        done.answer.out[1] ^= u64::from(second);
        second && done.answer.status == 0
    }),
    ("another figure of a sum", |done, rng| {
        let sum = done.ask.spec.hands == Hands::Figures;
        done.answer.out[rng.index(4)] += u64::from(sum);
        sum && done.answer.status == 0
    }),
    ("a status for a call that was carried out", |done, rng| {
        let carried_out = done.answer.status == 0;
        done.answer.status = 1 + rng.below(8);
        carried_out
    }),
    ("another refusal", |done, _| {
        done.answer.status += 1;
        done.answer.status != 1
    }),
    ("a refusal passed over", |done, _| std::mem::take(&mut done.answer.status) != 0),
    ("a number handed out by a refused call", |done, _| {
        done.answer.out[0] = 0;
        done.answer.status != 0
    }),
    ("a byte of the keys", |done, rng| {
        let length = done.answer.written(done.ask);
        done.flip_buffer(rng, 0, length)
    }),
    ("a byte past the keys", |done, rng| {
        let (from, to) = (done.answer.written(done.ask), done.answer.buffer.len());
        done.answer.status == 0 && done.flip_buffer(rng, from, to)
    }),
    ("a byte of a refused call's buffer", |done, rng| {
        let length = done.answer.buffer.len();
        done.answer.status != 0 && done.flip_buffer(rng, 0, length)
    }),
];

impl Done<'_> {
    fn word(&self, at: usize) -> u64 {
        u64::from_le_bytes(self.store[WORD * at..][..WORD].try_into().expect("a word"))
    }

    /// The need that the header tells, if the store has it.
    fn need(&self) -> Option<usize> {
        let sound = self.store.len() >= WORD * HEADER && opens(self.word(header::L), self.word(header::Q));
        sound
            .then(|| need(self.word(header::L), self.word(header::Q)))
            .filter(|need| *need <= self.store.len())
    }

    fn flip(&mut self, rng: &mut Rng, within: bool) -> bool {
        let Some(need) = self.need() else {
            return false;
        };
        let (from, to) = if within { (0, need) } else { (need, self.store.len()) };
        if from < to {
            self.store[from + rng.index(to - from)] ^= 1 << rng.below(8);
        }
        from < to
    }

    fn flip_buffer(&mut self, rng: &mut Rng, from: usize, to: usize) -> bool {
        if from < to {
            self.answer.buffer[from + rng.index(to - from)] ^= 1 << rng.below(8);
        }
        from < to
    }

    fn exchange(&mut self, rng: &mut Rng) -> bool {
        let Some(rows) = self.need().map(|_| self.word(header::ROWS) as usize).filter(|rows| *rows > 1)
        else {
            return false;
        };
        let (size, i) = (WORD * ROW, rng.index(rows - 1));
        let (one, other) = self.store[WORD * HEADER..][size * i..][..2 * size].split_at_mut(size);
        one.swap_with_slice(other);
        self.answer.status == 0 && one != other
    }
}

/// A run of a small profile on a library that is right but for one thing. How many calls it got and what was found.
fn trial(
    often: Often,
    seed: u64,
    library: &mut dyn FnMut(&mut [u8], &Ask) -> Answer,
) -> (u64, Result<(), String>) {
    let (profiles, mut rng) = (in_use(often), Rng::new(seed));
    let (profile, sizes) = small(&profiles, &mut rng);
    let mut calls = 0;
    let mut counted = |store: &mut [u8], ask: &Ask| {
        calls += 1;
        library(store, ask)
    };
    let found = run(profile, sizes, rng, &mut counted, &mut Tally::default());
    (calls, found)
}

/// Runs for each planted error.
const TRIALS: u64 = 28;
/// Runs in one of which a mistaken rule is found.
const MISTAKE_TRIALS: u64 = 400;
/// An error waits for a call before this one.
const LATEST: u64 = 120;

fn fault_found(name: &str, fault: Fault) -> Result<(), String> {
    let mut found = 0;
    for seed in 0..TRIALS {
        let mut rng = Rng::new(seed);
        let from = rng.below(LATEST);
        let (mut calls, mut planted) = (0, 0);
        let (ended, result) = trial(Often::None, seed, &mut |store, ask| {
            let before = store.to_vec();
            let mut answer = oracles::call(store, ask);
            calls += 1;
            if calls > from && planted == 0 {
                let (right, after) = (answer.clone(), store.to_vec());
                let mut done = Done { before: &before, store, ask, answer: &mut answer };
                if fault(&mut done, &mut rng) {
                    planted = calls;
                } else {
                    store.copy_from_slice(&after);
                    answer = right;
                }
            }
            answer
        });
        match (planted, &result) {
            (0, Ok(())) => {}
            (planted, Err(_)) if planted == ended => found += 1,
            _ => {
                return Err(format!(
                    "{name}, seed {seed}: planted at call {planted}, told at {ended}: {result:?}"
                ));
            }
        }
    }
    if found == 0 { Err(format!("{name}: never planted")) } else { Ok(()) }
}

/// The call that is carried out in the place of one of the spec.
fn mistake_found(spec: &Spec, name: &str, mistake: Mistake) -> Result<(), String> {
    let of_packages = PACKAGES.iter().any(|one| one.name == spec.name);
    let often = if of_packages { Often::Packages } else { Often::None };
    for seed in 0..MISTAKE_TRIALS {
        let (_, result) = trial(often, seed, &mut |store, ask| match &ask.given {
            Given::On(call) if ask.spec.name == spec.name => {
                let call = mistake(call).unwrap_or_else(|| call.clone());
                oracles::call(store, &Ask { given: Given::On(call), ..ask.clone() })
            }
            _ => oracles::call(store, ask),
        });
        if result.is_err() {
            return Ok(());
        }
    }
    Err(format!("{}, {name}: not found in {MISTAKE_TRIALS} runs", spec.name))
}

/// No error is found where there is none, and each planted one is.
pub fn all() -> Result<String, String> {
    for seed in 0..TRIALS {
        let (_, result) = trial(Often::None, seed, &mut |store, ask| oracles::call(store, ask));
        result.map_err(|text| format!("seed {seed}, a difference where no error was planted: {text}"))?;
    }
    for (name, fault) in FAULTS {
        fault_found(name, *fault)?;
    }
    let mut mistakes = 0;
    for spec in ALL {
        for (name, mistake) in spec.mistakes {
            mistake_found(spec, name, *mistake)?;
            mistakes += 1;
        }
    }
    Ok(format!("{} planted errors and {mistakes} mistaken rules found", FAULTS.len()))
}
