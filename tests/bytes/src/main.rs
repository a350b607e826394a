//! The library's calls against the Rust's tracker by bytes: answers, answer buffers and whole stores after every call.
//!
//!     bytes [CALLS [SEED [SECONDS]]] [--table] [--plans | --packages | --owners]
//!                                                 generated calls, as many as there is time for; the table has each call by
//!                                                 replies, refusals and cases; with --plans every second call is a plan,
//!                                                 with --packages four calls in five are package calls,
//!                                                 with --owners three in four tell the owners of hashes
//!     bytes self-test                             the program on calls with planted errors

mod ask;
mod calls;
#[path = "../../stores/src/damage.rs"]
mod damage;
mod draw;
mod look;
mod names;
mod oracles;
mod parts;
mod planted;
mod profiles;
mod reference;
mod run;
mod tally;
mod trial;

use std::process::ExitCode;
use std::time::{Duration, Instant};

use profiles::Often;
use tally::Tally;

const CALLS: u64 = 1_000_000;
/// A run of so many calls must have met every reply, refusal and case of each call.
const LONG: u64 = 200_000;

fn number(words: &[String], at: usize, default: u64) -> Result<u64, String> {
    let Some(text) = words.get(at) else {
        return Ok(default);
    };
    text.parse().map_err(|_| format!("a number is wanted, not {text:?}"))
}

/// Whether the table is wanted, and which calls are to be frequent.
fn options(given: &[String]) -> Result<(bool, Often), String> {
    let (mut table, mut often) = (false, Often::None);
    for option in given {
        match (option.as_str(), often) {
            ("--table", _) => table = true,
            ("--plans", Often::None) => often = Often::Plans,
            ("--packages", Often::None) => often = Often::Packages,
            ("--owners", Often::None) => often = Often::Owners,
            _ => {
                return Err(format!(
                    "not {option:?}; there are --table and one of --plans, --packages and --owners"
                ));
            }
        }
    }
    Ok((table, often))
}

/// What a run should have met and has not. One of package calls, or of questions for owners, is held to those.
fn missing(tally: &Tally, often: Often) -> Vec<String> {
    let held_to = match often {
        Often::Packages => calls::PACKAGES,
        Often::Owners => calls::OWNERS,
        Often::None | Often::Plans => calls::ALL,
    };
    let mut missing = Vec::new();
    if tally.calls >= run::ROUND && matches!(often, Often::None | Often::Plans) {
        missing.append(&mut tally.missing());
    }
    if tally.calls >= LONG {
        missing.append(&mut tally.missing_of_calls(held_to));
    }
    missing
}

fn generated(words: &[String], given: &[String]) -> Result<(), String> {
    let (table, often) = options(given)?;
    let (calls, seed) = (number(words, 0, CALLS)?, number(words, 1, 1)?);
    let stop = Instant::now().checked_add(Duration::from_secs(number(words, 2, u64::MAX)?));
    let mut tally = Tally::default();
    let done = run::rounds(&profiles::in_use(often), calls, seed, stop, &mut ask::library, &mut tally);
    tally.print();
    if table {
        tally.print_table();
    }
    if done? {
        println!("ended by the clock after {} calls", tally.calls);
    }
    let missing = missing(&tally, often);
    if !missing.is_empty() {
        return Err(format!("never met: {}", missing.join("; ")));
    }
    println!("no difference between the library and the Rust, seed {seed}");
    Ok(())
}

fn main() -> ExitCode {
    let (options, words): (Vec<String>, Vec<String>) =
        std::env::args().skip(1).partition(|word| word.starts_with("--"));
    let done = if words.first().is_some_and(|word| word == "self-test") {
        planted::all().map(|text| println!("{text}"))
    } else {
        generated(&words, &options)
    };
    match done {
        Ok(()) => ExitCode::SUCCESS,
        Err(text) => {
            eprintln!("{text}");
            ExitCode::FAILURE
        }
    }
}
