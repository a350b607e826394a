//! Listings by hand (cases.py), by the oracle's reading and by the library's.

use std::io::BufRead as _;

use oracle::image::image;
use oracle::listing;
use oracle::random::Rng;

use crate::compare;
use crate::library::Library;

/// A store that a refused text is read into, if not one that is too short for any.
const LONG: usize = 30_000;

/// A text and its verdict.
pub struct Case {
    number: u64,
    text: Vec<u8>,
}

impl Case {
    /// The text with another verdict.
    pub fn mistaken(&self) -> Self {
        let number = if self.number == listing::UNSOUND { 0 } else { listing::UNSOUND };
        Self { number, text: self.text.clone() }
    }
}

pub fn cases() -> Result<Vec<Case>, String> {
    std::io::stdin().lock().lines().map(|line| case(&line.map_err(|error| error.to_string())?)).collect()
}

fn case(line: &str) -> Result<Case, String> {
    let (number, digits) = line.split_once(' ').ok_or("a case is a number and digits")?;
    let number = number.parse().map_err(|_| "a verdict is a number")?;
    let byte = |at| u8::from_str_radix(&digits[at..at + 2], 16).map_err(|error| error.to_string());
    Ok(Case { number, text: (0..digits.len()).step_by(2).map(byte).collect::<Result<_, _>>()? })
}

pub fn all(library: &mut dyn Library, cases: &[Case]) -> Result<String, String> {
    let (mut rng, mut met) = (Rng::new(1), [0; 3]);
    for Case { number, text } in cases {
        let shown = String::from_utf8_lossy(text);
        let read = compare::read(library, &mut rng, text, LONG)?;
        if read != *number {
            return Err(format!("{number} is {read} here: {shown}"));
        }
        match listing::read(text) {
            Ok(state) => {
                compare::saved(library, &mut rng, &image(&state), &shown)?;
                met[0] += 1;
            }
            Err(listing::UNREADABLE) => met[1] += 1,
            Err(_) => met[2] += 1,
        }
    }
    let [taken, unreadable, unsound] = met;
    Ok(format!("by hand: {taken} listings saved and read, {unreadable} refused with 11, {unsound} with 12"))
}
