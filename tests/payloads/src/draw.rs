//! Payloads and lists: whole, cut, with a byte changed or added, with each form of the count.

use oracle::random::Rng;

use crate::text::{self, Item, Kind};

/// How a payload is made.
pub const WAYS: [&str; 7] = [
    "whole",
    "cut",
    "one byte changed",
    "bytes added",
    "another form of the count",
    "another count",
    "any bytes",
];

fn kind(rng: &mut Rng) -> Kind {
    match rng.below(8) {
        0 | 1 => Kind::T,
        2 | 3 => Kind::V,
        4 | 5 => Kind::W,
        6 => text::kind_of(rng.below(10) as u32),
        _ => text::kind_of(rng.next() as u32),
    }
}

pub fn items(rng: &mut Rng, n: usize) -> Vec<Item> {
    (0..n).map(|_| Item { kind: kind(rng), hash: rng.hash().0 }).collect()
}

/// Mostly few items; now and then as many as stand at an edge of the count's forms or of the limit.
fn count(rng: &mut Rng) -> usize {
    if rng.one_in(40_000) {
        return 49_999 + rng.index(3);
    }
    if rng.one_in(500) {
        return 251 + rng.index(5);
    }
    let most = if rng.one_in(20) { 40 } else { 5 };
    rng.index(most)
}

/// The payload of a list that may be too long for one.
fn whole(items: &[Item], count: &[u8]) -> Vec<u8> {
    let mut payload = count.to_vec();
    for item in items {
        payload.extend(text::number_of(item.kind).to_le_bytes());
        payload.extend(item.hash);
    }
    payload
}

pub fn payload(rng: &mut Rng, way: usize) -> Vec<u8> {
    let n = count(rng);
    let items = items(rng, n);
    let n = n as u64;
    let mut payload = whole(&items, &text::shortest(n));
    match way {
        1 => payload.truncate(rng.index(payload.len())),
        2 => {
            // The count's bytes as often as the others.
            let at = if rng.one_in(2) { rng.index(payload.len().min(3)) } else { rng.index(payload.len()) };
            payload[at] ^= 1 << rng.below(8);
        }
        3 => payload.extend(vec![rng.next() as u8; 1 + rng.index(40)]),
        4 => {
            let form = rng.pick(&[1, 3, 5, 9]);
            payload = whole(&items, &text::in_form(n, form));
        }
        5 => {
            let other = match rng.below(4) {
                0 => rng.word(),
                1 => n + 1,
                2 => 253 + rng.below(3),
                _ => rng.below(70_000),
            };
            payload = whole(&items, &text::shortest(other));
        }
        6 => payload = (0..rng.index(80)).map(|_| if rng.one_in(3) { rng.next() as u8 } else { 0 }).collect(),
        _ => {}
    }
    payload
}

/// A list with words of all kinds, and at times a rest at its end.
pub fn list(rng: &mut Rng) -> Vec<u8> {
    let n = count(rng);
    let mut list = text::list(&items(rng, n));
    for item in list.chunks_exact_mut(40) {
        if rng.one_in(12) {
            item[4 + rng.index(4)] = 1 << rng.below(8);
        }
    }
    if rng.one_in(10) {
        list.extend(vec![1; rng.index(40)]);
    }
    list
}
