//! announce: the library's checked call beside the Rust's, on the same announcements in the same states.

use std::hint::black_box;
use std::time::Duration;

use oracle::Machine;
use oracle::calls::{Call, Candidate, Hash, Item, Reply};
use oracle::image::image;
use oracle::random::{Rng, Shape, state};
use oracle::sound::MAX_AT_HASH;
use oracle::state::State;

use crate::timing::{WARM, median, micros, time};

/// Announcements timed in one run; each run starts in the same state.
const CALLS: usize = 20;
/// Announcements of a batch.
const BATCH: usize = 100;
const Q: u64 = 16;
const CONNECTIONS: usize = 125;

/// What is announced, and where.
#[derive(Clone, Copy)]
enum Case {
    Room,
    EightPreferred,
    EightUnpreferred,
    Full,
    FullUnpreferred,
    Batch,
}

const CASES: &[(Case, &str)] = &[
    (Case::Room, "with room"),
    (Case::EightPreferred, "eight at the hash, preferred: evicts there"),
    (Case::EightUnpreferred, "eight at the hash, unpreferred: 0"),
    (Case::Full, "L held, preferred: evicts anywhere"),
    (Case::FullUnpreferred, "L held, unpreferred: 0"),
    (Case::Batch, "100 with room, as single calls"),
];

impl Case {
    fn calls(self) -> usize {
        if matches!(self, Self::Batch) { BATCH } else { CALLS }
    }

    /// Whether the announcements are kept.
    fn kept(self) -> bool {
        !matches!(self, Self::EightUnpreferred | Self::FullUnpreferred)
    }

    fn preferred(self) -> bool {
        matches!(self, Self::EightPreferred | Self::Full)
    }

    /// Full at L, less what is to fit.
    fn state(self, l: u64) -> State {
        let room = if matches!(self, Self::Room | Self::Batch) { self.calls() as u64 } else { 0 };
        let held = l - room;
        let shape =
            Shape { l, q: Q, held, places: 0, connections: CONNECTIONS, spread: 8, owned: 4, list: None };
        state(&mut Rng::new(11), shape)
    }

    fn announcements(self, state: &State) -> Vec<Candidate> {
        let mut rng = Rng::new(13);
        let crowded = crowded(state);
        let connections: Vec<u64> =
            state.requests.iter().flat_map(|request| &request.candidates).map(|c| c.connection).collect();
        // It has no candidate, so none at a crowded hash.
        let stranger =
            (1_000..).find(|number| !connections.contains(number)).expect("there are more numbers");
        (0..self.calls())
            .map(|i| {
                let (hash, connection) = match self {
                    Self::EightPreferred | Self::EightUnpreferred => (crowded[i % crowded.len()], stranger),
                    _ => (Hash(std::array::from_fn(|_| rng.next() as u8)), rng.pick(&connections)),
                };
                let priority = rng.next();
                let item = if rng.one_in(2) { Item::WTx(hash) } else { Item::Transaction(hash) };
                Candidate { connection, item, ready: 0, preferred: self.preferred(), priority }
            })
            .collect()
    }
}

/// Hashes with eight candidates, one of which can be evicted.
fn crowded(state: &State) -> Vec<Hash> {
    let mut hashes: Vec<Hash> = state.requests.iter().map(|request| request.key.hash).collect();
    hashes.sort_unstable();
    hashes.dedup();
    let mut at_hash = vec![(0, 0); hashes.len()];
    for request in &state.requests {
        let i = hashes.binary_search(&request.key.hash).expect("listed above");
        let free = |c: &&Candidate| !c.preferred && !request.owned_by(c.connection);
        at_hash[i].0 += request.candidates.len();
        at_hash[i].1 += request.candidates.iter().filter(free).count();
    }
    let crowded = hashes.into_iter().zip(at_hash).filter(|(_, (all, free))| *all == MAX_AT_HASH && *free > 0);
    let mut crowded: Vec<Hash> = crowded.map(|(hash, _)| hash).collect();
    Rng::new(17).shuffle(&mut crowded);
    assert!(crowded.len() >= CALLS, "{} crowded hashes", crowded.len());
    crowded
}

/// The announcement as the library takes it.
fn candidate(c: &Candidate) -> tracker::bytes::Candidate {
    let (item_type, Hash(hash)) = c.item.parts();
    let Candidate { connection, ready, preferred, priority, .. } = *c;
    tracker::bytes::Candidate { connection, item_type, hash, ready, preferred, priority }
}

/// A case made ready: the state on both sides, the announcements as each side takes them.
struct Ready {
    kept: bool,
    machine: Machine,
    image: Vec<u8>,
    calls: Vec<Call>,
    candidates: Vec<tracker::bytes::Candidate>,
}

impl Ready {
    fn new(case: Case, l: u64) -> Self {
        let start = case.state(l);
        let announcements = case.announcements(&start);
        Self {
            kept: case.kept(),
            machine: Machine::load(&start).expect("a sound state"),
            image: image(&start),
            calls: announcements.iter().map(|c| Call::Announce { candidate: *c }).collect(),
            candidates: announcements.iter().map(candidate).collect(),
        }
    }

    /// All announcements on both sides: the Rust's time, the checked calls', and that of the sound test alone, which takes
    /// turns with the checked call.
    fn run(&self) -> [Duration; 3] {
        let (mut machine, mut store) = (self.machine.clone(), self.image.clone());
        let reply = Reply::Number(u64::from(self.kept));
        let rust = time(1, || {
            for call in &self.calls {
                assert_eq!(machine.call(black_box(call)), reply);
            }
        });
        let (mut checked, mut sound) = (Duration::ZERO, Duration::ZERO);
        for candidate in &self.candidates {
            checked += time(1, || {
                assert_eq!(tracker::bytes::announce(black_box(&mut store), candidate), Ok(self.kept));
            });
            sound += time(1, || assert!(tracker::bytes::sound(black_box(&store))));
        }
        assert!(store == image(&machine.state()), "the library and the Rust differ");
        [rust, checked, sound]
    }
}

fn row(case: Case, name: &str, l: u64, runs: usize) -> String {
    let ready = Ready::new(case, l);
    let shown = if matches!(case, Case::Batch) { 1 } else { case.calls() as u32 };
    let mut times = [const { Vec::new() }; 3];
    let mut beyond = Vec::new();
    for run in 0..WARM + runs {
        let [rust, checked, sound] = ready.run().map(|time| time / shown);
        if run >= WARM {
            times.iter_mut().zip([rust, checked, sound]).for_each(|(list, one)| list.push(one));
            beyond.push(checked.as_nanos() as i64 - sound.as_nanos() as i64);
        }
    }
    let [rust, checked, sound] = times.map(|list| micros(median(list)));
    let beyond = median(beyond) as f64 / 1_000.0;
    format!("| {l} | {name} | {rust} | {checked} | {sound} | {beyond:.1} |")
}

pub fn table(runs: usize) {
    println!(
        "| L | announce | the Rust, µs | checked call, µs | sound test, µs | checked call less sound test, µs |"
    );
    println!("|---|---|---|---|---|---|");
    for l in [1_000, 10_000, 100_000] {
        for (case, name) in CASES {
            println!("{}", row(*case, name, l, runs));
        }
    }
}
