//! A call and what it left, beside the state, the text and the verdict that are known without the library.

use oracle::image::image;
use oracle::listing;
use oracle::random::Rng;
use oracle::state::State;

use crate::library::{Library, NOT_SOUND, SHORT_ANSWER, SHORT_STORE};

/// Bytes past the need and past the text, which must stay.
const SPARE: usize = 5;
/// What a number that is not handed out stays at.
const OLD_NUMBER: u64 = 77;
/// A store for a text of which no state is known, if it is not one of another state's need.
const ANY_LENGTH: usize = 300;

/// What stands in a buffer or a store before a call: any bytes, or one byte throughout.
pub fn old(rng: &mut Rng, length: usize) -> Vec<u8> {
    match rng.below(3) {
        0 => vec![0xa5; length],
        1 => vec![0xff; length],
        _ => (0..length.div_ceil(8)).flat_map(|_| rng.next().to_le_bytes()).take(length).collect(),
    }
}

/// A saving that is refused leaves every byte and hands nothing out.
pub fn not_saved(
    library: &mut dyn Library,
    rng: &mut Rng,
    number: u64,
    store: &[u8],
    room: usize,
) -> Result<(), String> {
    let before = old(rng, room);
    let (mut answer, mut written) = (before.clone(), OLD_NUMBER);
    let status = library.save(store, &mut answer, &mut written);
    if status != number || written != OLD_NUMBER || answer != before {
        return Err(format!("saving: {status} and not {number}, {written} written, or the answer changed"));
    }
    Ok(())
}

/// The text is what saving leaves of the state's store, with just enough room and with more; a byte less is refused.
pub fn saved(library: &mut dyn Library, rng: &mut Rng, store: &[u8], text: &str) -> Result<(), String> {
    for spare in [0, SPARE] {
        let before = old(rng, text.len() + spare);
        let (mut answer, mut written) = (before.clone(), OLD_NUMBER);
        let status = library.save(store, &mut answer, &mut written);
        if status != 0 || written != text.len() as u64 || answer[..text.len()] != *text.as_bytes() {
            let shown = String::from_utf8_lossy(&answer);
            return Err(format!("saving: status {status}, {written} bytes written of\n{text}{shown}"));
        }
        if answer[text.len()..] != before[text.len()..] {
            return Err(format!("saving: bytes past the listing changed:\n{text}"));
        }
    }
    not_saved(library, rng, SHORT_ANSWER, store, text.len() - 1)?;
    not_saved(library, rng, SHORT_ANSWER, store, 0)
}

/// A damaged store is refused with 3.
pub fn unsound(library: &mut dyn Library, rng: &mut Rng, store: &[u8]) -> Result<(), String> {
    not_saved(library, rng, NOT_SOUND, store, 10)
}

/// A reading that is refused leaves every byte of a store of that length.
fn not_restored(
    library: &mut dyn Library,
    rng: &mut Rng,
    number: u64,
    text: &[u8],
    length: usize,
) -> Result<(), String> {
    let before = old(rng, length);
    let mut store = before.clone();
    let status = library.restore(&mut store, text);
    if status != number || store != before {
        let shown = String::from_utf8_lossy(text);
        return Err(format!(
            "reading into {length} bytes: {status} and not {number}, or a byte changed:\n{shown}"
        ));
    }
    Ok(())
}

/// Reading leaves the state's image, whatever the store's bytes were, and those past the need; a byte less is refused. Answers the store.
pub fn restored(
    library: &mut dyn Library,
    rng: &mut Rng,
    state: &State,
    text: &[u8],
) -> Result<Vec<u8>, String> {
    let wanted = image(state);
    let length = wanted.len() + rng.index(2) * SPARE;
    let before = old(rng, length);
    let mut store = before.clone();
    let status = library.restore(&mut store, text);
    if status != 0 || store[..wanted.len()] != wanted || store[wanted.len()..] != before[wanted.len()..] {
        let shown = String::from_utf8_lossy(text);
        let place = store.iter().zip(&wanted).position(|(one, other)| one != other);
        return Err(format!(
            "reading: status {status}, first other byte {place:?}, or one past the need:\n{shown}"
        ));
    }
    let short = if rng.one_in(4) { rng.index(wanted.len()) } else { wanted.len() - 1 };
    not_restored(library, rng, SHORT_STORE, text, short)?;
    Ok(store)
}

/// The reading of any text beside the oracle's. A verdict is the same on a store that is too short. Answers it: 0, 11 or 12.
pub fn read(library: &mut dyn Library, rng: &mut Rng, text: &[u8], need: usize) -> Result<u64, String> {
    match listing::read(text) {
        Ok(state) => restored(library, rng, &state, text).map(|_| 0),
        Err(number) => {
            not_restored(library, rng, number, text, need)?;
            let short = if rng.one_in(2) { 0 } else { rng.index(ANY_LENGTH) };
            not_restored(library, rng, number, text, short)?;
            Ok(number)
        }
    }
}
