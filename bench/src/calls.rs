//! The calls: the library's, checked and for the owner of a store, beside the Rust's, on the same arguments in the same states.

use std::hint::black_box;
use std::time::Duration;

use oracle::Machine;
use oracle::calls::{Call, Reply};
use oracle::image::image;

use crate::clock::processor_time;
use crate::linked::{Prepared, Side};
use crate::scenes::{Scene, all};
use crate::timing::{median, micros};

/// Bytes of an answer buffer that every timed call fits in.
const ANSWER: usize = 40 * (5_000 + 100 * 4_096);

struct Ready {
    machine: Machine,
    image: Vec<u8>,
    calls: Vec<Call>,
    prepared: Vec<Prepared>,
}

impl Ready {
    fn new(scene: &Scene) -> Self {
        let machine = Machine::load(&scene.state).expect("a sound state");
        let prepared = scene.calls.iter().map(Prepared::new).collect();
        Self { machine, image: image(&scene.state), calls: scene.calls.clone(), prepared }
    }

    fn rust(&self, after: &mut Vec<u8>) -> Duration {
        let mut machine = self.machine.clone();
        let start = processor_time();
        for call in &self.calls {
            let reply = machine.call(black_box(call));
            assert!(!matches!(reply, Reply::Refused(_)), "refused: {call:?}");
        }
        let time = processor_time() - start;
        *after = image(&machine.state());
        time
    }

    fn timed(&self, side: Side, answer: &mut [u8], after: &[u8]) -> Duration {
        let mut store = self.image.clone();
        let start = processor_time();
        for call in &self.prepared {
            assert_eq!(black_box(call).run(side, &mut store, answer), 0);
        }
        let time = processor_time() - start;
        assert!(store == after, "the library and the Rust differ");
        time
    }
}

fn row(scene: &Scene, runs: usize, answer: &mut [u8]) -> String {
    let (ready, calls) = (Ready::new(scene), scene.calls.len() as u32);
    let mut times = [const { Vec::new() }; 3];
    let mut after = Vec::new();
    for run in 0..1 + runs {
        let rust = ready.rust(&mut after);
        let checked = ready.timed(Side::Checked, answer, &after);
        let owned = ready.timed(Side::Owned, answer, &after);
        if run > 0 {
            times.iter_mut().zip([rust, checked, owned]).for_each(|(list, one)| list.push(one / calls));
        }
    }
    let [rust, checked, owned] = times.map(|list| micros(median(list)));
    let (l, held) = (scene.state.l, scene.state.held());
    format!("| {l} | {held} | {} | {rust} | {checked} | {owned} |", scene.name)
}

/// The rows whose names have the text in them.
pub fn table(runs: usize, rows: &str) {
    let mut answer = vec![0; ANSWER];
    println!("| L | held | call | the Rust, µs | checked call, µs | owned call, µs |");
    println!("|---|---|---|---|---|---|");
    for l in [1_000, 10_000, 100_000] {
        for scene in all(l).iter().filter(|scene| scene.name.contains(rows)) {
            println!("{}", row(scene, runs, &mut answer));
        }
    }
}
