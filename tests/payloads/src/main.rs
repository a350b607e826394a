//! The library's calls on inventory payloads beside a reading of document 02's text (text.rs).
//!
//!     payloads [COUNT [SEED]]     vectors, COUNT payloads and a tenth as many lists
//!     payloads self-test          the comparison on calls with planted errors
//!     payloads times              how long they take, beside a copy of the bytes

mod calls;
mod compare;
mod draw;
mod handing;
mod text;
mod times;
mod vectors;

use std::process::ExitCode;

use calls::{Calls, LIBRARY, TEXT};
use oracle::random::Rng;

fn generated(calls: Calls, count: u64, seed: u64) -> Result<(), String> {
    let mut rng = Rng::new(seed);
    let mut met = [[0_u64; 3]; draw::WAYS.len() + 1];
    let place = |status| match status {
        0 => 0,
        10 => 1,
        _ => 2,
    };
    for i in 0..count {
        let way = (i % draw::WAYS.len() as u64) as usize;
        let payload = draw::payload(&mut rng, way);
        let status = compare::payload(&mut rng, calls, &payload)?;
        met[way][place(status)] += 1;
        if i % 10 == 0 {
            let list = draw::list(&mut rng);
            met[draw::WAYS.len()][place(compare::list(&mut rng, calls, &list)?)] += 1;
        }
    }
    for (way, [taken, bad, short]) in draw::WAYS.iter().chain(&["lists written"]).zip(met) {
        println!("{way}: {taken} carried out, {bad} refused by 10, {short} by 7");
        // A payload that is cut or has bytes added is none.
        let never = ["cut", "bytes added"].contains(way);
        if count >= 10_000 && (taken > 0) == never {
            return Err(format!("{way}: not as it is made"));
        }
    }
    Ok(())
}

fn self_test() -> Result<(), String> {
    vectors::check(TEXT)?;
    let planted = calls::planted();
    for (what, calls) in &planted {
        if vectors::check(*calls).is_ok() && generated(*calls, 50_000, 1).is_ok() {
            return Err(format!("not told: {what}"));
        }
    }
    println!("{} planted errors told", planted.len());
    Ok(())
}

fn run(words: &[String]) -> Result<(), String> {
    let number = |at: usize, default: u64| {
        words
            .get(at)
            .map_or(Ok(default), |word| word.parse().map_err(|_| format!("a number is wanted, not {word:?}")))
    };
    match words.first().map(String::as_str) {
        Some("self-test") => return self_test(),
        Some("times") => {
            times::print();
            return Ok(());
        }
        _ => {}
    }
    let (count, seed) = (number(0, 1_000_000)?, number(1, 1)?);
    println!("{} vectors, with buffers of all lengths", vectors::check(LIBRARY)?);
    handing::check(seed, count.div_ceil(1_000))?;
    generated(LIBRARY, count, seed)?;
    println!("{count} payloads and {} lists as the text has them", count.div_ceil(10));
    Ok(())
}

fn main() -> ExitCode {
    let words: Vec<String> = std::env::args().skip(1).collect();
    match run(&words) {
        Ok(()) => ExitCode::SUCCESS,
        Err(what) => {
            eprintln!("payloads: {what}");
            ExitCode::FAILURE
        }
    }
}
