//! From bytes to a state, every rule tested on the way.

use std::collections::{BTreeMap, BTreeSet};

use super::{
    ENTRY, FORMAT, HASH, HEADER, LIST, PLACE, ROW, WORD, Why, entries_at, header, need, place, places_at, row,
};
use crate::calls::{Candidate, Hash, Item, Key};
use crate::sound::{self, MAX_AT_HASH, MAX_OF_CONNECTION, MAX_OWNED};
use crate::state::{Owner, Package, Request, State};

/// The state that the bytes write, or the first rule that they break.
pub fn read(bytes: &[u8]) -> Result<State, Why> {
    let mut reading = Reading { bytes, l: 0, q: 0, broken: Vec::new() };
    let state = reading.whole();
    match reading.broken.first() {
        Some(why) => Err(*why),
        None => Ok(state.expect("the sizes hold")),
    }
}

/// The rules that the bytes break, as they are met. If sizes or counts are wrong, the
/// rest is not looked at.
pub fn broken(bytes: &[u8]) -> Vec<Why> {
    let mut reading = Reading { bytes, l: 0, q: 0, broken: Vec::new() };
    reading.whole();
    reading.broken
}

struct Reading<'a> {
    bytes: &'a [u8],
    l: u64,
    q: u64,
    broken: Vec<Why>,
}

struct Row {
    key: Key,
    candidate: Candidate,
    /// The deadline, if the row owns its request.
    owns: Option<u64>,
    mark: bool,
}

impl Reading<'_> {
    fn rule(&mut self, why: Why, holds: bool) -> bool {
        if !holds && !self.broken.contains(&why) {
            self.broken.push(why);
        }
        holds
    }

    fn word(&self, at: usize) -> u64 {
        u64::from_le_bytes(self.bytes[WORD * at..WORD * (at + 1)].try_into().expect("a word"))
    }

    fn hash(&self, at: usize) -> Hash {
        Hash(self.bytes[WORD * at..WORD * (at + HASH)].try_into().expect("a hash"))
    }

    fn zero(&self, from: usize, to: usize) -> bool {
        self.bytes[WORD * from..WORD * to].iter().all(|byte| *byte == 0)
    }

    fn whole(&mut self) -> Option<State> {
        if !self.sizes() {
            return None;
        }
        let mut state = self.header();
        let rows = self.rows();
        self.hashes(&rows);
        self.entries(&rows);
        state.requests = requests(rows);
        self.places(&mut state);
        Some(state)
    }

    /// Without these the regions cannot be told.
    fn sizes(&mut self) -> bool {
        if !self.rule(Why::HeaderCut, self.bytes.len() >= WORD * HEADER)
            || !self.rule(Why::Format, self.word(header::FORMAT) == FORMAT)
        {
            return false;
        }
        (self.l, self.q) = (self.word(header::L), self.word(header::Q));
        self.rule(Why::LimitRange, sound::opens(self.l, 1))
            && self.rule(Why::PlacesRange, sound::opens(1, self.q))
            && self.rule(Why::Cut, self.bytes.len() >= need(self.l, self.q))
            && self.rule(Why::RowCount, self.word(header::ROWS) <= self.l)
            && self.rule(Why::EntryCount, self.word(header::ENTRIES) <= self.l)
            && self.rule(Why::PlaceCount, self.word(header::PLACES) <= self.q)
    }

    fn header(&mut self) -> State {
        let poll = self.word(header::NEXT_POLL);
        self.rule(Why::PollTag, poll <= 1);
        self.rule(Why::PollTime, poll != 0 || self.zero(header::NEXT_POLL, header::KNOWN_CURSOR));
        let known_cursor = self.cursor(header::KNOWN_CURSOR, Why::KnownTag, Why::KnownHash);
        let ready_cursor = self.cursor(header::READY_CURSOR, Why::ReadyTag, Why::ReadyHash);
        self.rule(Why::HeaderSpare, self.zero(header::SPARE, HEADER));
        State {
            l: self.l,
            q: self.q,
            next_poll: (poll == 1).then(|| self.word(header::NEXT_POLL + 1)),
            known_cursor,
            ready_cursor,
            requests: Vec::new(),
        }
    }

    fn cursor(&mut self, at: usize, tag: Why, hash: Why) -> Option<Key> {
        let kind = self.word(at);
        self.rule(tag, kind <= 2);
        self.rule(hash, kind != 0 || self.zero(at, at + 1 + HASH));
        match kind {
            1 => Some(Key::txid(self.hash(at + 1))),
            2 => Some(Key::wtxid(self.hash(at + 1))),
            _ => None,
        }
    }

    fn rows(&mut self) -> Vec<Row> {
        let count = self.word(header::ROWS) as usize;
        let rows: Vec<Row> = (0..count).map(|i| self.row(HEADER + ROW * i)).collect();
        for pair in rows.windows(2) {
            self.rule(Why::RowOrder, pair[0].key <= pair[1].key);
            self.rule(Why::MarkDiffers, pair[0].key != pair[1].key || pair[0].mark == pair[1].mark);
        }
        self.rule(Why::RowSpare, self.zero(HEADER + ROW * count, entries_at(self.l)));
        rows
    }

    fn row(&mut self, at: usize) -> Row {
        let bits = self.word(at + row::BITS);
        let [wtxid, witness, preferred, owns, mark] =
            [row::WTXID, row::WITNESS, row::PREFERRED, row::OWNS, row::MARK].map(|bit| bits & bit != 0);
        let connection = self.word(at + row::CONNECTION);
        let deadline = self.word(at + row::DEADLINE);
        self.rule(Why::RowBits, bits < row::NO_BITS);
        self.rule(Why::RowConnection, connection != 0);
        self.rule(Why::RowDeadline, owns || deadline == 0);
        self.rule(Why::RowWitness, !(wtxid && witness));
        self.rule(Why::RowMark, !(wtxid && mark));
        let hash = self.hash(at);
        let (key, item) = match (wtxid, witness) {
            (true, _) => (Key::wtxid(hash), Item::WTx(hash)),
            (false, false) => (Key::txid(hash), Item::Transaction(hash)),
            (false, true) => (Key::txid(hash), Item::WitnessTransaction(hash)),
        };
        let (ready, priority) = (self.word(at + row::READY), self.word(at + row::PRIORITY));
        let candidate = Candidate { connection, item, ready, preferred, priority };
        Row { key, candidate, owns: owns.then_some(deadline), mark }
    }

    /// What holds of the rows of one hash, over both kinds.
    fn hashes(&mut self, rows: &[Row]) {
        let mut at_hash: BTreeMap<Hash, Vec<&Row>> = BTreeMap::new();
        for row in rows {
            let others = at_hash.entry(row.key.hash).or_default();
            for other in others.iter() {
                let one_key = other.key == row.key;
                if other.owns.is_some() && row.owns.is_some() {
                    self.rule(if one_key { Why::TwoOwners } else { Why::BothOwned }, false);
                }
                if other.candidate.connection == row.candidate.connection {
                    self.rule(if one_key { Why::TwiceAtKey } else { Why::TwiceAtHash }, false);
                }
            }
            others.push(row);
            self.rule(Why::Crowded, others.len() <= MAX_AT_HASH);
        }
    }

    fn entries(&mut self, rows: &[Row]) {
        let mut tally: BTreeMap<u64, (u64, u64)> = BTreeMap::new();
        for row in rows {
            let (held, owning) = tally.entry(row.candidate.connection).or_default();
            *held += 1;
            *owning += u64::from(row.owns.is_some());
        }
        let first = entries_at(self.l);
        let count = self.word(header::ENTRIES) as usize;
        let mut named = BTreeSet::new();
        let mut last = None;
        for at in (0..count).map(|i| first + ENTRY * i) {
            let connection = self.word(at);
            self.rule(Why::EntryOrder, last.is_none_or(|last| last < connection));
            last = Some(connection);
            named.insert(connection);
            match tally.get(&connection) {
                None => self.rule(Why::EntryStray, false),
                Some((held, owning)) => {
                    self.rule(Why::EntryRows, self.word(at + 1) == *held);
                    self.rule(Why::EntryOwning, self.word(at + 2) == *owning)
                }
            };
        }
        self.rule(Why::EntryMissing, tally.keys().all(|connection| named.contains(connection)));
        self.rule(Why::ManyRows, tally.values().all(|(held, _)| *held <= MAX_OF_CONNECTION));
        self.rule(Why::ManyOwning, tally.values().all(|(_, owning)| *owning <= MAX_OWNED));
        self.rule(Why::EntrySpare, self.zero(first + ENTRY * count, places_at(self.l)));
    }

    fn places(&mut self, state: &mut State) {
        let first = places_at(self.l);
        let count = self.word(header::PLACES) as usize;
        let of_key: BTreeMap<Key, usize> =
            state.requests.iter().map(|request| request.key).zip(0..).collect();
        let mut last = None;
        for at in (0..count).map(|i| first + PLACE * i) {
            let hash = self.hash(at);
            self.rule(Why::PlaceOrder, last.is_none_or(|last| last < hash));
            last = Some(hash);
            let package = self.package(at);
            let parents =
                self.list(at + place::PARENT_COUNT, at + place::PARENTS, Why::ManyParents, Why::ParentSpare);
            let distinct: BTreeSet<&Hash> = parents.iter().collect();
            self.rule(Why::ParentTwice, distinct.len() == parents.len());
            self.rule(Why::Scratch, self.zero(at + place::SCRATCH, at + PLACE));
            let Some(request) = of_key.get(&Key::wtxid(hash)).map(|i| &mut state.requests[*i]) else {
                self.rule(Why::PlaceStray, false);
                continue;
            };
            self.rule(Why::PlaceIdle, request.owner.is_some());
            request.package_info = package.is_none();
            request.package = package;
            request.parents = parents;
        }
        self.rule(Why::PlaceSpare, self.zero(first + PLACE * count, first + PLACE * self.q as usize));
    }

    /// None stands for the package-info flag.
    fn package(&mut self, at: usize) -> Option<Package> {
        let stage = self.word(at + place::STAGE);
        let wtxids = self.list(at + place::WTXID_COUNT, at + place::WTXIDS, Why::ManyWtxids, Why::WtxidSpare);
        self.rule(Why::Stage, [place::FLAG, place::AWAITING, place::ENQUEUED].contains(&stage));
        if stage == place::FLAG {
            self.rule(Why::FlagCombined, self.zero(at + place::COMBINED, at + place::STAGE));
            self.rule(Why::FlagWtxids, wtxids.is_empty());
            return None;
        }
        self.rule(Why::NoWtxid, !wtxids.is_empty());
        Some(Package {
            combined: self.hash(at + place::COMBINED),
            wtxids,
            enqueued: stage == place::ENQUEUED,
        })
    }

    fn list(&mut self, count: usize, at: usize, many: Why, spare: Why) -> Vec<Hash> {
        let count = self.word(count);
        self.rule(many, count <= LIST as u64);
        let count = count.min(LIST as u64) as usize;
        self.rule(spare, self.zero(at + HASH * count, at + HASH * LIST));
        (0..count).map(|i| self.hash(at + HASH * i)).collect()
    }
}

/// Rows of one key in a run are one request.
fn requests(rows: Vec<Row>) -> Vec<Request> {
    let mut requests: Vec<Request> = Vec::new();
    for row in rows {
        if requests.last().is_none_or(|last| last.key != row.key) {
            requests.push(Request::new(row.key, row.mark));
        }
        let request = requests.last_mut().expect("pushed above if there was none");
        let connection = row.candidate.connection;
        request.owner = request.owner.or(row.owns.map(|deadline| Owner { connection, deadline }));
        request.candidates.push(row.candidate);
    }
    requests
}
