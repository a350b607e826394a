//! How long saving and reading take at the largest sizes, of listings as they may come and of hostile ones, in processor time of the thread.

use oracle::calls::{Candidate, Hash, Item, Key, Kind};
use oracle::image::image;
use oracle::listing::{self, UNREADABLE, UNSOUND};
use oracle::random::Rng;
use oracle::sound::{MAX_L, MAX_OF_CONNECTION, MAX_OWNED, MAX_PARENTS, MAX_Q, MAX_WTXIDS};
use oracle::state::{Owner, Package, Request, State};

use crate::clock::processor_time;
use crate::library::Library;

/// A call is made so many times; the least time counts.
const ROUNDS: usize = 3;

/// A hash by its number, all words of it in use.
fn hash(number: u64) -> Hash {
    let mut bytes = [0x77; 32];
    bytes[24..].copy_from_slice(&(number << 32 | 1 << 63).to_le_bytes());
    Hash(bytes)
}

fn candidate(key: Key, connection: u64) -> Candidate {
    let item = if key.kind == Kind::Txid { Item::Transaction(key.hash) } else { Item::WTx(key.hash) };
    Candidate {
        connection,
        item,
        ready: 1_700_000_000_000,
        preferred: false,
        priority: u64::MAX - connection,
    }
}

/// A state of L candidates, `each` at a hash, whose connections are given by their number; owned by the first candidate of each or by none.
fn full(each: u64, owned: bool, connection: impl Fn(u64) -> u64) -> State {
    let requests = (0..MAX_L / each).map(|number| {
        let key = Key::wtxid(hash(number));
        let mut request = Request::new(key, false);
        request.candidates = (0..each).map(|at| candidate(key, connection(number * each + at))).collect();
        request.owner = owned
            .then_some(Owner { connection: request.candidates[0].connection, deadline: 1_700_000_060_000 });
        request
    });
    let requests = requests.collect();
    State { l: MAX_L, q: MAX_Q, next_poll: Some(1), known_cursor: None, ready_cursor: None, requests }
}

/// The same with Q full places at its first requests.
fn with_places(mut state: State) -> State {
    let list = |from: u64, count: usize| (from..).take(count).map(hash).collect::<Vec<_>>();
    for (number, request) in (0..MAX_Q).zip(&mut state.requests) {
        let connection = request.candidates[0].connection;
        request.owner = Some(Owner { connection, deadline: 5 });
        request.package =
            Some(Package { combined: hash(number), wtxids: list(number, MAX_WTXIDS), enqueued: true });
        request.parents = list(2 * number, MAX_PARENTS);
    }
    state
}

/// Both kinds of each hash.
fn pairs() -> State {
    let mut state = full(1, false, |number| number + 1);
    let half = state.requests.len() / 2;
    state.requests.truncate(half);
    let txids = state.requests.iter().map(|request| {
        let key = Key::txid(request.key.hash);
        let candidates = vec![candidate(key, request.candidates[0].connection + MAX_L)];
        Request { candidates, ..Request::new(key, true) }
    });
    let mut txids: Vec<Request> = txids.collect();
    txids.append(&mut state.requests);
    State { requests: txids, ..state }
}

fn shuffled() -> State {
    let mut order: Vec<u64> = (1..=MAX_L).map(|number| number << 40).collect();
    Rng::new(1).shuffle(&mut order);
    full(1, true, |number| order[number as usize])
}

fn milliseconds(mut call: impl FnMut() -> u64, status: u64) -> Result<f64, String> {
    let mut best = f64::INFINITY;
    for _ in 0..ROUNDS {
        let start = processor_time();
        let got = call();
        best = best.min((processor_time() - start).as_secs_f64() * 1e3);
        if got != status {
            return Err(format!("{got} and not {status}"));
        }
    }
    Ok(best)
}

fn shown(what: &str, verb: &str, bytes: usize, time: f64) {
    println!("{what:58}{verb:12}{bytes:12}{time:12.1}{:12.1}", time * 1e6 / bytes as f64);
}

/// A text read into a store of the largest need.
fn reading(
    library: &mut dyn Library,
    what: &str,
    text: &[u8],
    status: u64,
    store: &mut [u8],
) -> Result<f64, String> {
    let time = milliseconds(|| library.restore(store, text), status)?;
    shown(what, if status == 0 { "read" } else { "refused" }, text.len(), time);
    Ok(time)
}

/// One state saved and read, and its listing refused at the very end.
fn timed(library: &mut dyn Library, what: &str, state: &State) -> Result<f64, String> {
    let (bytes, text) = (image(state), listing::write(state).into_bytes());
    let (mut answer, mut written) = (vec![0; text.len()], 0);
    let saving = milliseconds(|| library.save(&bytes, &mut answer, &mut written), 0)?;
    shown(what, "saved", text.len(), saving);
    let mut store = vec![0xa5; bytes.len()];
    let taken = reading(library, what, &text, 0, &mut store)?;
    if store != bytes || answer != text {
        return Err(format!("{what}: not what was saved"));
    }
    let open =
        reading(library, "  without its last line feed", &text[..text.len() - 1], UNREADABLE, &mut store)?;
    let mut last = state.clone();
    let candidates = &mut last.requests.last_mut().expect("a request").candidates;
    candidates.push(candidates[0]);
    last.l = MAX_L;
    let unsound = reading(
        library,
        "  its last candidate twice",
        listing::write(&last).as_bytes(),
        UNSOUND,
        &mut store,
    )?;
    Ok(taken.max(open).max(unsound))
}

pub fn print(library: &mut dyn Library) -> Result<(), String> {
    let (most, owners) = (MAX_L / MAX_OF_CONNECTION, MAX_L / MAX_OWNED);
    println!("{:58}{:12}{:>12}{:>12}{:>12}", "L 100,000, Q 4,096", "", "bytes", "ms", "ns a byte");
    let mut slowest: f64 = 0.0;
    for (what, state) in [
        ("100,000 connections, ascending", full(1, false, |number| number + 1)),
        ("100,000 connections, falling", full(1, false, |number| u64::MAX - number)),
        ("100,000 owners in any order", shuffled()),
        (
            "100,000 connections, eight at a hash",
            full(8, true, |number| (number.wrapping_mul(0x9e37_79b9_7f4a_7c15)) | 1),
        ),
        ("20 connections of 5,000 each", full(1, false, |number| number % most + 1)),
        (
            "20 connections of 5,000 each, one after the other",
            full(1, false, |number| number / MAX_OF_CONNECTION + 1),
        ),
        ("1,000 owners of 100 each", full(1, true, |number| number % owners + 1)),
        ("50,000 hashes of both kinds", pairs()),
        ("4,096 full places", with_places(full(1, false, |number| number + 1))),
    ] {
        slowest = slowest.max(timed(library, what, &state).map_err(|error| format!("{what}: {error}"))?);
    }
    println!("slowest reading: {slowest:.1} ms");
    Ok(())
}
