//! Kinds of damage, and what was met of each.

use oracle::listing::{self, UNREADABLE, UNSOUND};
use oracle::random::Rng;
use oracle::state::State;

use crate::{states, texts};

/// The verdicts of a reading.
pub const VERDICTS: [u64; 3] = [0, UNREADABLE, UNSOUND];

#[derive(Clone, Copy)]
enum Damage {
    /// Of the text; none if the draw changed nothing.
    Text(fn(&mut Rng, &str) -> Option<Vec<u8>>),
    /// Of the state, which is then listed.
    State(fn(&mut Rng, &mut State)),
}

pub struct Kind {
    pub name: &'static str,
    /// Verdicts that a run must meet, and whether it can meet no other.
    must: &'static [u64],
    only: bool,
    damage: Damage,
    /// One of its turns in so many is taken.
    pub seldom: u64,
}

const fn text(
    name: &'static str,
    must: &'static [u64],
    damage: fn(&mut Rng, &str) -> Option<Vec<u8>>,
) -> Kind {
    Kind { name, must, only: false, damage: Damage::Text(damage), seldom: 1 }
}

/// The text gets this verdict and no other.
const fn state(name: &'static str, must: &'static [u64], damage: fn(&mut Rng, &mut State)) -> Kind {
    Kind { name, must, only: true, damage: Damage::State(damage), seldom: 1 }
}

const ANY: &[u64] = &VERDICTS;
const TAKEN: &[u64] = &[0];
const BAD: &[u64] = &[UNREADABLE];
const NOT_SOUND: &[u64] = &[UNSOUND];
/// Of the kinds that have thousands of lines.
const SELDOM: u64 = 40;

pub const KINDS: &[Kind] = &[
    text("a byte changed", ANY, texts::byte_changed),
    text("a byte dropped", ANY, texts::byte_dropped),
    text("a byte doubled", ANY, texts::byte_doubled),
    text("the text cut", ANY, texts::cut),
    text("lines swapped", ANY, texts::lines_swapped),
    text("a line dropped", ANY, texts::line_dropped),
    Kind { only: true, ..text("a line doubled", &[UNREADABLE, UNSOUND], texts::line_doubled) },
    text("fields of two lines exchanged", ANY, texts::fields_exchanged),
    Kind { only: true, ..text("a leading zero", BAD, texts::leading_zero) },
    Kind { only: true, ..text("a number from 2^64 on", BAD, texts::too_large) },
    Kind { only: true, ..text("a number 2^64 - 1", &[0, UNSOUND], texts::largest) },
    text("a list's length changed", BAD, texts::wrong_length),
    state("a list of 101", BAD, states::list_too_long),
    state("a package of no wtxid", BAD, states::no_wtxid),
    state("falling keys", BAD, states::falling_keys),
    state("a key twice", NOT_SOUND, states::a_key_twice),
    state("L or Q out of range", NOT_SOUND, states::sizes_out_of_range),
    state("more candidates than L", NOT_SOUND, states::above_l),
    state("more places than Q", NOT_SOUND, states::above_q),
    state("as many as L and Q", TAKEN, states::just_l_and_q),
    state("connection 0", NOT_SOUND, states::connection_0),
    state("no candidate", NOT_SOUND, states::no_candidate),
    state("an item of another key", NOT_SOUND, states::item_of_another_key),
    state("an owner that is no candidate", NOT_SOUND, states::owner_no_candidate),
    state("flag or package without owner", NOT_SOUND, states::place_without_owner),
    state("flag or package on a Txid key", NOT_SOUND, states::place_on_txid),
    state("flag beside package", NOT_SOUND, states::flag_and_package),
    state("parents without flag and package", NOT_SOUND, states::parents_alone),
    state("a parent twice", NOT_SOUND, states::a_parent_twice),
    state("a mark on a Wtxid key", NOT_SOUND, states::mark_on_wtxid),
    state("a connection twice at a key", NOT_SOUND, states::connection_twice),
    state("a connection at both kinds", NOT_SOUND, states::connection_at_both_kinds),
    state("both kinds owned", NOT_SOUND, states::both_kinds_owned),
    state("nine at a key", NOT_SOUND, states::nine_at_a_key),
    state("nine over both kinds", NOT_SOUND, states::nine_over_both_kinds),
    state("eight over both kinds", TAKEN, states::eight_over_both_kinds),
    state("100 owned by a connection", TAKEN, states::owns_100),
    state("101 owned by a connection", NOT_SOUND, states::owns_101),
    Kind { seldom: SELDOM, ..state("5,000 of a connection", TAKEN, states::has_5000) },
    Kind { seldom: SELDOM, ..state("5,001 of a connection", NOT_SOUND, states::has_5001) },
];

impl Kind {
    /// A damaged text of the state, whose listing is given too; none if the draw came to nothing.
    pub fn draw(&self, rng: &mut Rng, state: &State, listed: &str) -> Option<Vec<u8>> {
        match self.damage {
            Damage::Text(damage) => damage(rng, listed),
            Damage::State(damage) => {
                let mut state = state.clone();
                damage(rng, &mut state);
                Some(listing::write(&state).into_bytes())
            }
        }
    }
}

/// How often each kind met each verdict.
#[derive(Default)]
pub struct Tally(Vec<[u64; VERDICTS.len()]>);

impl Tally {
    pub fn new() -> Self {
        Self(vec![[0; VERDICTS.len()]; KINDS.len()])
    }

    /// A text of the kind that got the verdict; an error if it can get no such one.
    pub fn met(&mut self, kind: usize, verdict: u64) -> Result<(), String> {
        let Kind { name, must, only, .. } = &KINDS[kind];
        if *only && !must.contains(&verdict) {
            return Err(format!("{name}: verdict {verdict}"));
        }
        let place = VERDICTS.iter().position(|one| *one == verdict).ok_or("no verdict of a text")?;
        self.0[kind][place] += 1;
        Ok(())
    }

    pub fn texts(&self) -> u64 {
        self.0.as_flattened().iter().sum()
    }

    /// Kinds and verdicts that should have been met and were not.
    pub fn missing(&self) -> Vec<String> {
        let mut missing = Vec::new();
        for (kind, met) in KINDS.iter().zip(&self.0) {
            for (verdict, count) in VERDICTS.iter().zip(met) {
                if *count == 0 && kind.must.contains(verdict) {
                    missing.push(format!("{}: {verdict} never met", kind.name));
                }
            }
        }
        missing
    }

    pub fn print(&self) {
        println!("{:36}{:>10}{:>10}{:>10}", "damage", "taken", "11", "12");
        for (kind, [taken, unreadable, unsound]) in KINDS.iter().zip(&self.0) {
            println!("{:36}{taken:10}{unreadable:10}{unsound:10}", kind.name);
        }
    }
}
