//! The sound test beside one read of the same bytes, hot and cold.

use std::hint::black_box;
use std::time::Duration;

use oracle::image::{WORD, header, image, need};
use oracle::random::{Rng, Shape, state};
use oracle::state::State;

use crate::chosen;
use crate::timing::{WARM, calls_for, median, micros, time};

/// What is touched before a cold call: more than the caches hold.
const ELSEWHERE: usize = 96 << 20;
const LINE: usize = 64;

struct Case {
    name: &'static str,
    state: State,
}

fn shape(l: u64, q: u64, held: u64, places: u64, connections: usize) -> State {
    let list = Some(oracle::sound::MAX_PARENTS);
    let shape = Shape { l, q, held, places, connections, spread: 4, owned: 1, list };
    let state = state(&mut Rng::new(7), shape);
    assert_eq!((state.held(), state.places_held()), (held, places), "{shape:?}");
    state
}

fn cases() -> Vec<Case> {
    let case = |name, state| Case { name, state };
    let full = || shape(100_000, 16, 100_000, 16, 125);
    let packages = || shape(100_000, 4_096, 100_000, 4_096, 125);
    let renumbered = |mut state, number| {
        chosen::renumber(&mut state, number);
        state
    };
    let parted = |number| {
        let mut state = full();
        chosen::part(&mut state, number);
        state
    };
    let mut meeting = packages();
    chosen::meet(&mut meeting);
    vec![
        case("full", full()),
        case("full", shape(10_000, 64, 10_000, 64, 125)),
        case("empty", shape(100_000, 4_096, 0, 0, 125)),
        case("full, each place with 100 parents and 100 wtxids", packages()),
        case("full", shape(100_000, 16, 100_000, 16, 100_000)),
        case("full", shape(100, 2, 100, 2, 12)),
        case("a connection for each announcement, random", parted(chosen::random)),
        case("a connection for each announcement, 1, 2, 3, ..", parted(chosen::in_a_row)),
        case("a connection for each announcement, low 40 bits equal", parted(chosen::low_40_equal)),
        case("a connection for each announcement, one slot", parted(chosen::one_fold)),
        case("full, low 32 bits of the connections equal", renumbered(full(), chosen::low_32_equal)),
        case("full, connections in one slot", renumbered(full(), chosen::one_fold)),
        case("full, the parents of each place in one slot", meeting),
    ]
}

/// One read of the bytes.
fn sum(bytes: &[u8]) -> u64 {
    let words = bytes.chunks_exact(8).map(|word| u64::from_le_bytes(word.try_into().expect("a word")));
    words.fold(0, u64::wrapping_add)
}

/// The medians of the read's time and of the test's.
struct Times {
    read: Duration,
    test: Duration,
}

impl Times {
    /// Read and test by turns, so that both meet the same machine.
    fn of(runs: usize, mut read: impl FnMut() -> Duration, mut test: impl FnMut() -> Duration) -> Self {
        let (mut reads, mut tests) = (Vec::new(), Vec::new());
        for run in 0..WARM + runs {
            let (one, other) = (read(), test());
            if run >= WARM {
                reads.push(one);
                tests.push(other);
            }
        }
        Self { read: median(reads), test: median(tests) }
    }

    fn columns(&self) -> String {
        let ratio = self.test.as_nanos() as f64 / self.read.as_nanos().max(1) as f64;
        format!("{} | {} | {ratio:.2}", micros(self.read), micros(self.test))
    }
}

fn row(case: &Case, elsewhere: &mut [u8], runs: usize) -> String {
    let (l, q) = (case.state.l, case.state.q);
    let bytes = image(&case.state);
    assert_eq!(bytes.len(), need(l, q));
    assert!(tracker::bytes::sound(&bytes), "the library refuses the image");
    let read = || {
        black_box(sum(black_box(&bytes)));
    };
    let test = || {
        black_box(tracker::bytes::sound(black_box(&bytes)));
    };
    let (reads, tests) = (calls_for(read), calls_for(test));
    let hot = Times::of(runs, || time(reads, read), || time(tests, test));
    let mut away = || elsewhere.iter_mut().step_by(LINE).for_each(|byte| *byte = byte.wrapping_add(1));
    let (mut reads, mut tests) = (Vec::new(), Vec::new());
    for _ in 0..runs {
        away();
        reads.push(time(1, read));
        away();
        tests.push(time(1, test));
    }
    let cold = Times { read: median(reads), test: median(tests) };
    let word = |at: usize| u64::from_le_bytes(bytes[WORD * at..][..WORD].try_into().expect("a word"));
    let a_row = match case.state.held() {
        0 => String::new(),
        held => format!("{:.1}", hot.test.as_nanos() as f64 / held as f64),
    };
    let (name, entries) = (case.name, word(header::ENTRIES));
    let (hot, cold) = (hot.columns(), cold.columns());
    format!("| {l} | {q} | {name} | {entries} | {} | {hot} | {a_row} | {cold} |", bytes.len())
}

pub fn table(runs: usize) {
    println!(
        "| L | Q | store | connections | bytes | one read, µs | sound test, µs | ratio | ns a row | cold read, µs | cold test, µs | cold ratio |"
    );
    println!("|---|---|---|---|---|---|---|---|---|---|---|---|");
    let mut elsewhere = vec![0; ELSEWHERE];
    for case in cases() {
        println!("{}", row(&case, &mut elsewhere, runs));
    }
}
