//! States that someone who knows the sound test would choose to slow it down.

use std::collections::BTreeMap;

use oracle::state::State;

/// A number that is another for each connection.
pub type Number = fn(u64) -> u64;

pub fn random(n: u64) -> u64 {
    let x = (n ^ (n >> 30)).wrapping_add(0x9e37_79b9).wrapping_mul(0xbf58_476d_1ce4_e5b9);
    let x = (x ^ (x >> 27)).wrapping_mul(0x94d0_49bb_1331_11eb);
    x ^ (x >> 31)
}

pub fn in_a_row(n: u64) -> u64 {
    n
}

pub fn low_40_equal(n: u64) -> u64 {
    n << 40 | 0x77_1234_5678
}

pub fn low_32_equal(n: u64) -> u64 {
    n << 32 | 0x1234_5678
}

/// The halves add up to one number, which is all that the guesses look at.
pub fn one_fold(n: u64) -> u64 {
    n << 32 | (0x7fff_ffff - n)
}

/// Other numbers for the connections, in the order of the numbers that they had.
pub fn renumber(state: &mut State, number: Number) {
    let mut names = BTreeMap::new();
    for candidate in state.requests.iter().flat_map(|request| &request.candidates) {
        names.insert(candidate.connection, 0);
    }
    for (rank, name) in names.values_mut().enumerate() {
        *name = number(1 + rank as u64);
    }
    for request in &mut state.requests {
        for candidate in &mut request.candidates {
            candidate.connection = names[&candidate.connection];
        }
        if let Some(owner) = &mut request.owner {
            owner.connection = names[&owner.connection];
        }
    }
}

/// A connection of its own for each announcement.
pub fn part(state: &mut State, number: Number) {
    let mut next = 0;
    for request in &mut state.requests {
        for candidate in &mut request.candidates {
            next += 1;
            let (old, new) = (candidate.connection, number(next));
            candidate.connection = new;
            if let Some(owner) = request.owner.as_mut().filter(|owner| owner.connection == old) {
                owner.connection = new;
            }
        }
    }
}

/// Parents that the test marks in one slot, and that differ in the word alone that it compares last.
pub fn meet(state: &mut State) {
    for request in &mut state.requests {
        for (i, parent) in request.parents.iter_mut().enumerate() {
            parent.0 = [0; 32];
            parent.0[24..].copy_from_slice(&one_fold(i as u64).to_le_bytes());
        }
    }
}
