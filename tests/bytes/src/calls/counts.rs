//! counts: no call of document 01. What is right is counted in the Rust's state.

use oracle::state::State;
use tracker::abi;

use super::{COMMON, Hands, Spec};
use crate::ask::{Given, Lent};
use crate::draw::Draw;
use crate::reference::Reference;

const NONE: &str = "no announcement";
const UNOWNED: &str = "announcements, none owned";
const OWNED: &str = "announcements, some owned";
const EQUAL: &str = "announcements, all owned";

pub static SPEC: Spec = Spec {
    name: "counts",
    weights: [4, 4],
    refusals: &[3, 4],
    hands: Hands::Counts,
    draw,
    link,
    cases: &[NONE, UNOWNED, OWNED, EQUAL],
    ..COMMON
};

/// A connection of a row as a rule.
fn draw(draw: &mut Draw, seen: &Reference) -> Given {
    let row = if draw.rng.one_in(2) { draw.owning(seen) } else { draw.row(seen) };
    let other = draw.connection();
    let of_row = !draw.rng.one_in(4);
    Given::Counts { connection: row.filter(|_| of_row).map_or(other, |row| row.connection) }
}

/// The connection's announcements in a state, and the requests that it owns.
pub fn counted(state: &State, connection: u64) -> [u64; 2] {
    let candidates = state.requests.iter().flat_map(|request| &request.candidates);
    let announced = candidates.filter(|candidate| candidate.connection == connection).count();
    let owned = state.requests.iter().filter(|request| request.owned_by(connection)).count();
    [announced, owned].map(|count| count as u64)
}

/// Which case the counts are.
pub fn case([announced, owned]: [u64; 2]) -> &'static str {
    match (announced, owned) {
        (0, _) => NONE,
        (_, 0) => UNOWNED,
        _ if announced == owned => EQUAL,
        _ => OWNED,
    }
}

fn link(given: &Given, lent: Lent) -> u64 {
    let Given::Counts { connection } = given else { unreachable!() };
    let [announced, owned, ..] = lent.out;
    // SAFETY: the bytes are only read, the numbers are lent to this call alone.
    unsafe { abi::tracker_counts(lent.store.as_ptr(), lent.store.len(), *connection, announced, owned) }
}
