//! What document 01 and the Rust give: refusals, and a whole call on bytes without the library.

use oracle::Machine;
use oracle::calls::{Call, LAST_CLOCK, MAX_PARENTS, Reply};
use oracle::image::{image, need, read};
use oracle::sound::opens;
use oracle::state::State;

use crate::ask::{Answer, Ask, Given};
use crate::calls::counted;

const SHORT_STORE: u64 = 1;
const BAD_SIZES: u64 = 2;
const UNSOUND: u64 = 3;
const CONNECTION_0: u64 = 4;
const LATE_CLOCK: u64 = 5;
const MANY_PARENTS: u64 = 6;
const SHORT_BUFFER: u64 = 7;
const WRONG_HASHES: u64 = 13;

/// The refusals from 4 to 7, and 13 before 7, that apply to a call, in their order: the first is the answer. The Rust's machine knows when
/// 8 is, which it comes to after these.
pub fn refusals(ask: &Ask, call: &Call, sizes: [u64; 2]) -> Vec<u64> {
    let tests = [
        (CONNECTION_0, call.names_connection_0()),
        (LATE_CLOCK, call.clock().is_some_and(|now| now > LAST_CLOCK)),
        (MANY_PARENTS, call.parents_given() > MAX_PARENTS),
        (WRONG_HASHES, call.wrong_hashes()),
        (SHORT_BUFFER, ask.buffer.len() < (ask.spec.need)(&ask.given, sizes)),
    ];
    tests.into_iter().filter(|(_, applies)| *applies).map(|(number, _)| number).collect()
}

/// The refusal of an opening, if there is one.
pub fn opening_refusal(length: usize, l: u64, q: u64) -> Option<u64> {
    if !opens(l, q) {
        Some(BAD_SIZES)
    } else if length < need(l, q) {
        Some(SHORT_STORE)
    } else {
        None
    }
}

/// The counts of a connection, in a sound state.
pub fn counts(state: &State, connection: u64, ask: &Ask) -> Answer {
    match connection {
        0 => Answer::refused(CONNECTION_0, ask),
        _ => Answer::counts(counted(state, connection), ask),
    }
}

/// The call on any bytes: read, carried out by the Rust, written back.
pub fn call(store: &mut [u8], ask: &Ask) -> Answer {
    let (machine, answer) = match &ask.given {
        Given::Open { l, q } => match opening_refusal(store.len(), *l, *q) {
            Some(number) => return Answer::refused(number, ask),
            None => (Machine::open(*l, *q).expect("tested above"), Answer::refused(0, ask)),
        },
        Given::Counts { connection } => {
            return match read(store) {
                Ok(state) => counts(&state, *connection, ask),
                Err(_) => Answer::refused(UNSOUND, ask),
            };
        }
        Given::On(call) => {
            let Ok(state) = read(store) else {
                return Answer::refused(UNSOUND, ask);
            };
            if let Some(number) = refusals(ask, call, [state.l, state.q]).first() {
                return Answer::refused(*number, ask);
            }
            let mut machine = Machine::load(&state).expect("read has tested it");
            match machine.call(call) {
                Reply::Refused(number) => return Answer::refused(number.into(), ask),
                reply => (machine, Answer::done(&reply, ask)),
            }
        }
    };
    let after = image(&machine.state());
    store[..after.len()].copy_from_slice(&after);
    answer
}
