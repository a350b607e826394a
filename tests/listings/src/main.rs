//! The library's saving and reading of listings beside a writer and a reading of their own (oracle/src/listing.rs).
//!
//!     listings [COUNT [SEED]] < cases     listings by hand; COUNT random states saved, read back and saved again; of each some damaged listings
//!     listings self-test < cases          the program on calls with planted errors
//!     listings times                      how long saving and reading take
//!
//! A case is a line: the text's verdict (11, 12, 0 for taken) and the text in hexadecimal digits.

#[path = "../../../bench/src/clock.rs"]
mod clock;
mod compare;
mod damage;
mod hand;
mod library;
mod planted;
mod run;
mod states;
mod texts;
mod times;

use std::process::ExitCode;

use library::Linked;

const COUNT: u64 = 2_000;

fn generated(words: &[String]) -> Result<(), String> {
    let number = |at: usize, default| words.get(at).map_or(Ok(default), |text| text.parse::<u64>());
    let (count, seed) = (number(0, COUNT), number(1, 1));
    let (Ok(count), Ok(seed)) = (count, seed) else {
        return Err("a count and a seed are numbers".to_owned());
    };
    println!("{}", hand::all(&mut Linked, &hand::cases()?)?);
    run::all(&mut Linked, count, seed)?.print();
    Ok(())
}

fn main() -> ExitCode {
    let words: Vec<String> = std::env::args().skip(1).collect();
    let done = match words.first().map(String::as_str) {
        Some("self-test") => {
            hand::cases().and_then(|cases| planted::all(&cases)).map(|text| println!("{text}"))
        }
        Some("times") => times::print(&mut Linked),
        _ => generated(&words),
    };
    match done {
        Ok(()) => ExitCode::SUCCESS,
        Err(text) => {
            eprintln!("{text}");
            ExitCode::FAILURE
        }
    }
}
