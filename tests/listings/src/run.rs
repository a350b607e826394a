//! Random states saved, read back and saved again; damaged listings of them, and damaged stores.

use oracle::image::{broken, image, need};
use oracle::listing;
use oracle::random::{Rng, Shape, state};
use oracle::state::State;

use crate::compare;
use crate::damage::{KINDS, Tally};
use crate::library::Library;

/// One state in so many is larger.
const LARGE: u64 = 1_000;
/// Draws of a damage that come to nothing before it is left.
const DRAWS: u64 = 20;
/// A run of so many states must have met every kind of damage with each of its verdicts.
const LONG: u64 = 2_000;

/// What a run has met.
pub struct Met {
    states: u64,
    bytes: usize,
    stores_refused: u64,
    pub damaged: Tally,
}

fn any_state(rng: &mut Rng) -> State {
    let (l, q) = match rng.below(LARGE) {
        0 => (2_000, 40),
        one if one % 4 != 0 => (1 + rng.below(8), 1 + rng.below(2)),
        _ => (1 + rng.below(100), 1 + rng.below(4)),
    };
    let shape = Shape::any(rng, l, q);
    state(rng, shape)
}

/// Saved, read back into other bytes, and saved again.
fn there_and_back(library: &mut dyn Library, rng: &mut Rng, state: &State, text: &str) -> Result<(), String> {
    let mut store = image(state);
    store.extend([0xa5; 3]);
    compare::saved(library, rng, &store, text)?;
    let back = compare::restored(library, rng, state, text.as_bytes())?;
    compare::saved(library, rng, &back, text)
}

/// Whether a bit was found that makes the store unsound; then saving it is refused.
fn damaged_store(library: &mut dyn Library, rng: &mut Rng, state: &State) -> Result<bool, String> {
    let mut store = image(state);
    let at = rng.index(store.len());
    store[at] ^= 1 << rng.below(8);
    if broken(&store).is_empty() {
        return Ok(false);
    }
    compare::unsound(library, rng, &store).map(|()| true)
}

/// Five damaged listings for two states, the kinds in turn.
fn damaged(
    library: &mut dyn Library,
    rng: &mut Rng,
    state: &State,
    text: &str,
    number: u64,
    tally: &mut Tally,
) -> Result<(), String> {
    let first = number * 5 / 2;
    for turn in first..(number + 1) * 5 / 2 {
        let (round, kind) = (turn / KINDS.len() as u64, (turn % KINDS.len() as u64) as usize);
        if round % KINDS[kind].seldom != 0 {
            continue;
        }
        let Some(bytes) = (0..DRAWS).find_map(|_| KINDS[kind].draw(rng, state, text)) else { continue };
        let told = |what| format!("{}: {what}", KINDS[kind].name);
        let verdict = compare::read(library, rng, &bytes, need(state.l, state.q)).map_err(told)?;
        tally.met(kind, verdict)?;
    }
    Ok(())
}

pub fn all(library: &mut dyn Library, count: u64, seed: u64) -> Result<Met, String> {
    let mut met = Met { states: count, bytes: 0, stores_refused: 0, damaged: Tally::new() };
    for number in 0..count {
        // a run of its own for each, so that one can be made again by itself
        let mut rng = Rng::new(seed.wrapping_mul(0x2545_f491_4f6c_dd1d) ^ number);
        let state = any_state(&mut rng);
        let text = listing::write(&state);
        let told = |what| format!("seed {seed}, state {number}: {what}");
        there_and_back(library, &mut rng, &state, &text).map_err(told)?;
        met.stores_refused += u64::from(damaged_store(library, &mut rng, &state).map_err(told)?);
        damaged(library, &mut rng, &state, &text, number, &mut met.damaged).map_err(told)?;
        met.bytes += text.len();
    }
    let missing = met.damaged.missing();
    if count >= LONG && !missing.is_empty() {
        return Err(missing.join("\n"));
    }
    Ok(met)
}

impl Met {
    pub fn print(&self) {
        let Self { states, bytes, stores_refused, damaged } = self;
        println!(
            "random: {states} states saved, read and saved again, {bytes} bytes; {stores_refused} damaged stores refused with 3"
        );
        println!("{} damaged listings, each also on a store that is too short", damaged.texts());
        damaged.print();
    }
}
