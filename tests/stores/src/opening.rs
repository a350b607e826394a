//! Opening any bytes at any length: the library leaves the image of an empty tracker over
//! the need and every other byte as it was, or refuses and leaves all.

use oracle::image::{image, need};
use oracle::random::Rng;
use oracle::sound::{MAX_L, MAX_Q, opens};
use oracle::state::State;
use tracker::{Error, bytes};

const TRIALS: u64 = 20_000;
/// One trial in so many takes sizes at the limits, whose stores are large.
const AT_LIMIT: u64 = 200;

const SHORT_STORE: u64 = 1;
const BAD_SIZES: u64 = 2;

/// How many were opened and how many refused, none of which may be zero.
pub fn trial(rng: &mut Rng) -> Result<String, String> {
    let (mut opened, mut short, mut bad) = (0, 0, 0);
    for _ in 0..TRIALS {
        let (l, q) = sizes(rng);
        let mut store = any_bytes(rng, l, q);
        let before = store.clone();
        let reply = bytes::open(&mut store, l, q).map_err(Error::number);
        let (expected, after) = expected(&before, l, q);
        if reply != expected || store != after {
            return Err(format!(
                "open {l}, {q} of {} bytes: {reply:?}, not {expected:?}, or other bytes",
                before.len()
            ));
        }
        match reply {
            Ok(()) => opened += 1,
            Err(SHORT_STORE) => short += 1,
            Err(_) => bad += 1,
        }
        if reply.is_ok() && !bytes::sound(&store) {
            return Err(format!("the store opened at {l}, {q} is not sound"));
        }
    }
    let counts = format!("openings: {opened} carried out, {short} refused as too short, {bad} for L or Q");
    if opened.min(short).min(bad) == 0 { Err(counts) } else { Ok(counts) }
}

fn expected(before: &[u8], l: u64, q: u64) -> (Result<(), u64>, Vec<u8>) {
    if !opens(l, q) {
        return (Err(BAD_SIZES), before.to_vec());
    }
    if before.len() < need(l, q) {
        return (Err(SHORT_STORE), before.to_vec());
    }
    let empty = State { l, q, next_poll: None, known_cursor: None, ready_cursor: None, requests: Vec::new() };
    let mut after = image(&empty);
    after.extend_from_slice(&before[after.len()..]);
    (Ok(()), after)
}

fn sizes(rng: &mut Rng) -> (u64, u64) {
    if rng.one_in(AT_LIMIT) {
        return (rng.pick(&[1, MAX_L, MAX_L + 1]), rng.pick(&[1, MAX_Q, MAX_Q + 1]));
    }
    if rng.one_in(4) {
        let word = rng.word();
        return rng.pick(&[(0, 1), (1, 0), (word, 1), (1, word)]);
    }
    (1 + rng.below(100), 1 + rng.below(3))
}

/// About as many bytes as the sizes need, of any content.
fn any_bytes(rng: &mut Rng, l: u64, q: u64) -> Vec<u8> {
    let length = if opens(l, q) { need(l, q) } else { need(1, 1) };
    let any = rng.index(2 * length);
    let length = rng.pick(&[length, length - 1, length + 1, any, 0]);
    match rng.below(3) {
        0 => vec![0; length],
        1 => vec![0xff; length],
        _ => std::iter::repeat_with(|| rng.next() as u8).take(length).collect(),
    }
}
