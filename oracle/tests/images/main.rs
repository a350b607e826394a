//! `image` and `read` on random sound states: what one writes, the other reads.

use oracle::calls::{Candidate, Hash, Item, Key};
use oracle::image::{Why, broken, image, need, read};
use oracle::random::{Rng, Shape, state, walk};
use oracle::sound;
use oracle::state::{Owner, Package, Request, State};

fn round_trip(state: &State) {
    assert_eq!(sound::breach(state), None);
    let bytes = image(state);
    assert_eq!(bytes.len(), need(state.l, state.q));
    assert_eq!(read(&bytes).as_ref(), Ok(state));
    assert!(broken(&bytes).is_empty());
}

/// Which of the things that a state may hold were met.
#[derive(Debug, Default, Eq, PartialEq)]
struct Met([u64; 12]);

impl Met {
    fn note(&mut self, state: &State) {
        let packages = || state.requests.iter().filter_map(|request| request.package.as_ref());
        let tests = [
            state.requests.is_empty(),
            state.held() == state.l,
            state.places_held() == state.q,
            state.next_poll.is_some(),
            state.known_cursor.is_some(),
            state.ready_cursor.is_some(),
            state.requests.iter().any(|request| request.fallback),
            state.requests.iter().any(|request| request.package_info),
            packages().any(|package| !package.enqueued),
            packages().any(|package| package.enqueued),
            state.requests.iter().any(|request| request.holds_place() && request.parents.len() == 100),
            state.requests.iter().any(|request| request.candidates.len() == 8),
        ];
        for (count, holds) in self.0.iter_mut().zip(tests) {
            *count += u64::from(holds);
        }
    }
}

#[test]
fn states_put_together() {
    let (mut rng, mut met) = (Rng::new(1), Met::default());
    for turn in 0..1_500 {
        let (l, q) = (1 + turn % 100, 1 + turn % 2);
        let shape = Shape::any(&mut rng, l, q);
        let state = state(&mut rng, shape);
        round_trip(&state);
        met.note(&state);
    }
    assert!(met.0.iter().all(|count| *count >= 20), "{met:?}");
}

#[test]
fn states_reached_by_calls() {
    let (mut rng, mut met) = (Rng::new(2), Met::default());
    for turn in 0..1_000 {
        let (l, q) = (1 + turn % 100, 1 + turn % 2);
        let calls = rng.index(400);
        let state = walk(&mut rng, l, q, calls);
        round_trip(&state);
        met.note(&state);
    }
    // 100 parents and eight candidates of one request are left to the states above.
    assert!(met.0[..10].iter().all(|count| *count >= 5), "{met:?}");
}

#[test]
fn larger_states() {
    let mut rng = Rng::new(3);
    for (l, q) in [(1_000, 5), (10_000, 64), (100_000, 16), (100_000, 4_096)] {
        let held = if q == 4_096 { 40_000 } else { l };
        let shape = Shape { l, q, held, places: q, connections: 400, spread: 4, owned: 1, list: None };
        let state = state(&mut rng, shape);
        assert_eq!((state.held(), state.places_held()), (held, q));
        round_trip(&state);
    }
}

/// One state, its words written out by hand from docs/STORE.md.
#[test]
fn one_image_by_hand() {
    let hash = |low: u8, high: u8| {
        let mut bytes = [0; 32];
        (bytes[0], bytes[31]) = (low, high);
        Hash(bytes)
    };
    let request = |key: Key, candidates| Request {
        key,
        candidates,
        owner: None,
        package_info: false,
        package: None,
        parents: Vec::new(),
        fallback: false,
    };
    let candidate = |connection, item, ready, preferred, priority| Candidate {
        connection,
        item,
        ready,
        preferred,
        priority,
    };
    let marked = Request {
        fallback: true,
        ..request(
            Key::txid(hash(3, 2)),
            vec![candidate(9, Item::WitnessTransaction(hash(3, 2)), 50, true, 60)],
        )
    };
    let packed = Request {
        owner: Some(Owner { connection: 7, deadline: 61_000 }),
        package: Some(Package { combined: hash(8, 0), wtxids: vec![hash(4, 0), hash(5, 0)], enqueued: true }),
        parents: vec![hash(6, 1)],
        ..request(
            Key::wtxid(hash(1, 0)),
            vec![
                candidate(9, Item::WTx(hash(1, 0)), 10, false, 11),
                candidate(7, Item::WTx(hash(1, 0)), 20, true, 21),
            ],
        )
    };
    let state = State {
        l: 4,
        q: 1,
        next_poll: Some(100),
        known_cursor: Some(Key::wtxid(hash(1, 0))),
        ready_cursor: None,
        requests: vec![marked, packed],
    };
    let top = |byte: u64| byte << 56;
    let mut words = vec![1, 4, 1, 3, 2, 1, 1, 100, 2, 1, 0, 0, 0];
    words.resize(24, 0);
    words.extend([3, 0, 0, top(2), 9, 50, 60, 0, 2 + 4 + 16]);
    words.extend([1, 0, 0, 0, 9, 10, 11, 0, 1]);
    words.extend([1, 0, 0, 0, 7, 20, 21, 61_000, 1 + 4 + 8]);
    words.resize(24 + 9 * 4, 0);
    words.extend([7, 1, 1, 9, 2, 0]);
    words.resize(24 + 12 * 4, 0);
    words.extend([1, 0, 0, 0, 8, 0, 0, 0, 3, 2, 1, 4, 0, 0, 0, 5, 0, 0, 0]);
    words.resize(24 + 12 * 4 + 411, 0);
    words.extend([6, 0, 0, top(1)]);
    words.resize(24 + 12 * 4 + 824, 0);
    let bytes: Vec<u8> = words.into_iter().flat_map(u64::to_le_bytes).collect();
    assert_eq!(image(&state), bytes);
    assert_eq!(read(&bytes), Ok(state));
}

#[test]
fn sizes_of_the_page() {
    let table = [
        (1, 1, 6_880),
        (100, 2, 22_976),
        (10_000, 64, 1_382_080),
        (100_000, 16, 9_705_664),
        (100_000, 4_096, 36_601_024),
    ];
    for (l, q, bytes) in table {
        assert_eq!(need(l, q), bytes);
    }
}

#[test]
fn bytes_past_the_need_are_not_read() {
    let mut rng = Rng::new(4);
    let shape = Shape::any(&mut rng, 10, 2);
    let state = state(&mut rng, shape);
    let mut bytes = image(&state);
    bytes.extend([0xff; 100]);
    assert_eq!(read(&bytes), Ok(state));
    assert_eq!(read(&[]), Err(Why::HeaderCut));
    assert_eq!(read(&[0xff; 1_000]), Err(Why::Format));
}
