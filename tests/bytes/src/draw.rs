//! Random calls, refused ones among them.

use oracle::calls::{
    Call, Candidate, Entry, Hash, Item, Key, Kind, LAST_CLOCK, MAX_PARENTS, TYPE_TRANSACTION,
    TYPE_WITNESS_TRANSACTION, TYPE_WTX,
};
use oracle::image::{WORD, row};
use oracle::random::Rng;
use oracle::state::State;

use crate::ask::{Ask, ENTRY, Given, HASH_BYTES};
use crate::calls::{ALL, CLAIM, OPEN, OWNERS, PACKAGES, PLANS, Spec};
use crate::look::Held;
use crate::profiles::{Often, Profile};
use crate::reference::Reference;

/// One call in so many is given something that is refused.
const ODD: u64 = 60;
/// Hashes and connections taken over from the state.
const OF_STATE: usize = 40;
/// Rows among which an owner is looked for, and places among which a stage is.
const LOOKED_AT: usize = 2_000;
const PLACES_LOOKED_AT: usize = 6;

pub struct Draw<'a> {
    pub rng: Rng,
    pub profile: &'a Profile,
    known: Vec<Hash>,
    connections: Vec<u64>,
    /// The run's last plan, and what the last claim took.
    pub planned: Planned,
    pub taken: Vec<Entry>,
}

#[derive(Default)]
pub struct Planned {
    pub now: u64,
    pub entries: Vec<Entry>,
    /// No call has been drawn since.
    pub fresh: bool,
}

/// A request's key, a connection, and when its ownership ends.
pub struct Named {
    pub key: Key,
    pub connection: u64,
    pub deadline: u64,
}

impl<'a> Draw<'a> {
    pub fn new(mut rng: Rng, profile: &'a Profile, state: &State) -> Self {
        let mut known: Vec<Hash> = (0..profile.width).map(|_| profile.hash(&mut rng)).collect();
        let mut connections: Vec<u64> = (0..profile.connections).map(|i| i as u64 + 1).collect();
        if profile.priorities == 0 {
            connections.iter_mut().for_each(|connection| *connection = rng.word().max(1));
        }
        for _ in 0..OF_STATE.min(state.requests.len()) {
            let request = &state.requests[rng.index(state.requests.len())];
            known.push(request.key.hash);
            connections.push(request.candidates[rng.index(request.candidates.len())].connection);
        }
        Self { rng, profile, known, connections, planned: Planned::default(), taken: Vec::new() }
    }

    pub fn bytes(&mut self, length: usize) -> Vec<u8> {
        std::iter::repeat_with(|| self.rng.next().to_le_bytes()).flatten().take(length).collect()
    }

    pub fn hash(&mut self) -> Hash {
        if self.rng.one_in(12) { self.profile.hash(&mut self.rng) } else { self.rng.pick(&self.known) }
    }

    pub fn connection(&mut self) -> u64 {
        if self.rng.one_in(ODD) { 0 } else { self.rng.pick(&self.connections) }
    }

    pub fn item(&mut self) -> Item {
        let hash = self.hash();
        match self.rng.below(20) {
            0..=5 => Item::Transaction(hash),
            6..=10 => Item::WitnessTransaction(hash),
            11..=18 => Item::WTx(hash),
            _ => Item::Other(self.other_type(), hash),
        }
    }

    /// A type number that is none of the three.
    pub fn other_type(&mut self) -> u32 {
        let any = self.rng.next() as u32;
        let number = self.rng.pick(&[0, 2, 3, 4, 6, 7, 0x4000_0000, 0x4000_0005, 0x8000_0001, u32::MAX, any]);
        let three = [TYPE_TRANSACTION, TYPE_WITNESS_TRANSACTION, TYPE_WTX];
        if three.contains(&number) { 0 } else { number }
    }

    pub fn candidate(&mut self) -> Candidate {
        let (connection, item) = (self.connection(), self.item());
        let ready = if self.rng.one_in(2) { self.rng.below(4) } else { self.rng.word() };
        let preferred = self.rng.one_in(3);
        let priorities = self.profile.priorities;
        let priority = if priorities == 0 { self.rng.word() } else { self.rng.below(priorities) };
        Candidate { connection, item, ready, preferred, priority }
    }

    pub fn clock(&mut self) -> u64 {
        match self.rng.below(ODD) {
            0 => LAST_CLOCK + 1 + self.rng.below(60_000),
            1 => u64::MAX,
            2 | 3 => LAST_CLOCK,
            _ => self.rng.word().min(LAST_CLOCK),
        }
    }

    /// A list of parents or wtxids: few as a rule, repeats among them, and at times as many as fit or more.
    pub fn hashes(&mut self) -> Vec<Hash> {
        let count = match self.rng.below(40) {
            0 => MAX_PARENTS + 1,
            1 => MAX_PARENTS + 1 + self.rng.index(200),
            2 => MAX_PARENTS,
            3 => self.rng.index(MAX_PARENTS),
            _ => self.rng.index(4),
        };
        (0..count).map(|_| if count > 9 { self.rng.hash() } else { self.hash() }).collect()
    }

    /// An answer buffer of the need as a rule, at times shorter.
    fn buffer(&mut self, need: usize) -> Vec<u8> {
        let length = match self.rng.below(30) {
            0 => need - 1,
            1 => self.rng.index(need),
            2..=9 => need,
            _ => need + self.rng.index(100),
        };
        self.bytes(length)
    }

    /// A time about a deadline, as a rule before it.
    pub fn near(&mut self, deadline: u64) -> u64 {
        let now = match self.rng.below(11) {
            0 | 1 => return self.clock(),
            2 | 10 => deadline,
            3 => deadline.saturating_add(1),
            4..=6 => deadline.saturating_sub(1),
            _ => deadline / 2,
        };
        now.min(LAST_CLOCK)
    }

    /// A key and a connection, of nothing that is there as a rule.
    pub fn any(&mut self) -> Named {
        let (hash, connection) = (self.hash(), self.connection());
        let key = if self.rng.one_in(2) { Key::txid(hash) } else { Key::wtxid(hash) };
        Named { key, connection, deadline: self.rng.word() }
    }

    fn row_at(&self, seen: &Reference, i: usize) -> Named {
        let row = &seen.rows()[i];
        Named { key: seen.key_at(i), connection: row[row::CONNECTION], deadline: row[row::DEADLINE] }
    }

    /// Any row.
    pub fn row(&mut self, seen: &Reference) -> Option<Named> {
        let count = seen.rows().len();
        (count > 0).then(|| self.rng.index(count)).map(|i| self.row_at(seen, i))
    }

    pub fn owning(&mut self, seen: &Reference) -> Option<Named> {
        let from = self.rng.index(seen.rows().len().max(1));
        seen.owning(from, LOOKED_AT).map(|i| self.row_at(seen, i))
    }

    /// The hash of a key of this kind that the connection owns.
    pub fn owned_by(&mut self, seen: &Reference, connection: u64, kind: Kind) -> Option<Hash> {
        let (count, wanted) = (seen.rows().len(), u64::from(kind == Kind::Wtxid));
        let from = self.rng.index(count.max(1));
        let found = (0..count.min(LOOKED_AT)).map(|n| (from + n) % count).find(|i| {
            let row = &seen.rows()[*i];
            let bits = row[row::BITS];
            row[row::CONNECTION] == connection && bits & row::OWNS != 0 && bits & row::WTXID == wanted
        })?;
        Some(seen.key_at(found).hash)
    }

    /// The owner of a place; of the stage, if there is one near.
    fn holding(&mut self, seen: &Reference, stage: Option<u64>) -> Option<Named> {
        let count = seen.places_held();
        let from = self.rng.index(count.max(1));
        let places = (0..count.min(PLACES_LOOKED_AT)).map(|n| seen.place((from + n) % count));
        let held = places.reduce(|first, next| if Some(first.stage) == stage { first } else { next })?;
        let key = Key::wtxid(held.hash);
        let owner = seen.owner_of(key).expect("a place has an owner");
        Some(Named { key, connection: owner.connection, deadline: owner.deadline })
    }

    /// Any place.
    pub fn package(&mut self, seen: &Reference) -> Option<Held> {
        let count = seen.places_held();
        (count > 0).then(|| self.rng.index(count)).map(|i| seen.place(i))
    }

    /// The places of a connection, as far as they are looked for.
    pub fn packages_of(&mut self, seen: &Reference, connection: u64) -> Vec<Held> {
        let count = seen.places_held();
        let from = self.rng.index(count.max(1));
        let places = (0..count.min(LOOKED_AT)).map(|n| seen.place((from + n) % count));
        let owned = places.filter(|held| {
            seen.owner_of(Key::wtxid(held.hash)).is_some_and(|owner| owner.connection == connection)
        });
        owned.collect()
    }

    /// A request and its owner as a rule, at times with something else in one's place.
    pub fn request(&mut self, seen: &Reference) -> Named {
        let found = match self.rng.below(9) {
            0 => None,
            1 | 2 => self.row(seen),
            3..=5 => self.owning(seen),
            _ => self.holding(seen, None).or_else(|| self.owning(seen)),
        };
        let found = found.unwrap_or_else(|| self.any());
        self.mistaken(found)
    }

    /// The same of a place at the stage.
    pub fn at_place(&mut self, seen: &Reference, stage: u64) -> Named {
        match self.holding(seen, Some(stage)) {
            Some(found) if !self.rng.one_in(4) => self.mistaken(found),
            _ => self.request(seen),
        }
    }

    fn mistaken(&mut self, mut found: Named) -> Named {
        let Key { kind, hash } = found.key;
        match self.rng.below(40) {
            0 => found.connection = 0,
            1..=3 => found.connection = self.connection(),
            4 | 5 => found.key = if kind == Kind::Txid { Key::wtxid(hash) } else { Key::txid(hash) },
            _ => {}
        }
        found
    }

    /// The store opened as the run has it.
    pub fn opening(&self, l: u64, q: u64) -> Ask {
        Ask { spec: OPEN, given: Given::Open { l, q }, rest: Vec::new(), buffer: Vec::new(), shift: 0 }
    }

    /// A claim of the whole of the last plan.
    pub fn claim(&mut self) -> Ask {
        let (now, checked) = (self.planned.now, self.planned.entries.clone());
        let buffer = self.bytes(ENTRY * checked.len());
        let given = Given::On(Call::Claim { now, checked });
        Ask { spec: CLAIM, given, rest: Vec::new(), buffer, shift: 0 }
    }

    /// Which call comes next.
    fn spec(&mut self) -> &'static Spec {
        match self.profile.often {
            Often::Plans if self.rng.one_in(2) => self.rng.pick(&PLANS),
            Often::Owners if !self.rng.one_in(4) => OWNERS[0],
            Often::Packages if !self.rng.one_in(3) => self.weighted(PACKAGES),
            _ => self.weighted(ALL),
        }
    }

    /// One of the calls, by its weight.
    fn weighted(&mut self, specs: &[&'static Spec]) -> &'static Spec {
        let theme = self.profile.theme as usize;
        let mut left = self.rng.below(specs.iter().map(|spec| spec.weights[theme]).sum());
        let drawn = specs.iter().find(|spec| {
            let here = left < spec.weights[theme];
            left = left.saturating_sub(spec.weights[theme]);
            here
        });
        drawn.expect("below the sum of the weights")
    }

    pub fn ask(&mut self, seen: &Reference) -> Ask {
        let spec = self.spec();
        let given = (spec.draw)(self, seen);
        let rest = if self.rng.one_in(4) { self.rng.index(HASH_BYTES) } else { 0 };
        let (rest, need) = (self.bytes(rest), (spec.need)(&given, seen.sizes()));
        let buffer = if need == 0 { Vec::new() } else { self.buffer(need) };
        let shift = if self.profile.large || self.rng.one_in(2) { 0 } else { self.rng.index(WORD) };
        Ask { spec, given, rest, buffer, shift }
    }
}
