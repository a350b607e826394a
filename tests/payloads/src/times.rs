//! How long reading and writing take, beside a copy of the bytes.

use std::hint::black_box;
use std::time::{Duration, Instant};

use oracle::random::Rng;
use tracker::bytes;

use crate::{draw, text};

/// Nanoseconds of one call: the least of rounds that take some 20 ms each.
fn took(mut call: impl FnMut()) -> f64 {
    let (mut times, mut best) = (1_u32, f64::INFINITY);
    for _ in 0..12 {
        let start = Instant::now();
        (0..times).for_each(|_| call());
        let each = start.elapsed().as_secs_f64() / f64::from(times);
        best = best.min(each);
        times = (Duration::from_millis(20).as_secs_f64() / each).clamp(1.0, 1e8) as u32;
    }
    best * 1e9
}

pub fn print() {
    println!(
        "items, bytes of the payload: ns to copy the payload, to read it, to copy the list, to write its payload"
    );
    for n in [1, 1_000, 50_000] {
        let items = draw::items(&mut Rng::new(1), n);
        let (payload, list) = (text::write(&items).expect("a payload"), text::list(&items));
        let (mut read, mut written) = (vec![0; list.len()], vec![0; payload.len()]);
        let copied = took(|| written.copy_from_slice(black_box(&payload)));
        let reading = took(|| _ = black_box(bytes::read_payload(black_box(&payload), &mut read)));
        let listed = took(|| read.copy_from_slice(black_box(&list)));
        let writing = took(|| _ = black_box(bytes::write_payload(black_box(&list), &mut written)));
        println!("{n}, {}: {copied:.0}, {reading:.0}, {listed:.0}, {writing:.0}", payload.len());
    }
}
