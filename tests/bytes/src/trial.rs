//! One store under a run of calls, each on both sides and compared.

use oracle::Machine;
use oracle::calls::{Call, Reply};
use oracle::image::{WORD, image, need, read};
use oracle::sound::assert_sound;
use oracle::state::State;
use oracle::write;

use crate::ask::{Answer, Ask, Given};
use crate::calls::counts_case;
use crate::names;
use crate::oracles;
use crate::parts;
use crate::reference::Reference;
use crate::tally::Tally;

/// A library: the call on the bytes, which it may change.
pub type Library<'a> = &'a mut dyn FnMut(&mut [u8], &Ask) -> Answer;

/// A whole image of the Rust's state costs as much as its length: the reference is held against it after each call up
/// to so many bytes, else after every k-th call, k growing with the need, and after the run's last.
const AT_EACH_CALL: usize = 1 << 15;

/// The state before a call that differs is shown, as the oracle loads it, if the store has fewer bytes.
const SHOWN: usize = 1 << 16;

pub struct Trial<'a> {
    call: Library<'a>,
    tally: &'a mut Tally,
    pub l: u64,
    pub q: u64,
    pub store: Vec<u8>,
    /// The bytes past the need, as they were.
    tail: Vec<u8>,
    machine: Machine,
    pub reference: Reference,
    /// The reply of the last call that was carried out.
    pub reply: Option<Reply>,
    since: usize,
}

impl<'a> Trial<'a> {
    /// A store in a state, with bytes past its need.
    pub fn new(library: Library<'a>, tally: &'a mut Tally, state: &State, tail: Vec<u8>) -> Self {
        let machine = Machine::load(state).expect("a sound state");
        let mut store = image(state);
        let reference = Reference::new(&store);
        store.extend_from_slice(&tail);
        tally.runs += 1;
        tally.limits.insert(state.l);
        tally.places.insert(state.q);
        let (l, q) = (state.l, state.q);
        Self { call: library, tally, l, q, store, tail, machine, reference, reply: None, since: 0 }
    }

    pub fn step(&mut self, ask: &Ask) -> Result<(), String> {
        let before = if self.store.len() < SHOWN { self.store.clone() } else { Vec::new() };
        match &ask.given {
            Given::Open { l, q } => self.open(ask, *l, *q),
            Given::Counts { connection } => self.counts(ask, *connection),
            Given::On(call) => self.on(ask, call),
        }
        .map_err(|text| match read(&before) {
            Ok(state) => format!("{ask}\n  {text}\n  on load,{}", write::dump(&state)),
            Err(_) => format!("{ask}\n  {text}"),
        })
    }

    fn renew(&mut self) {
        (self.since, self.tally.wholes) = (0, self.tally.wholes + 1);
        self.reference = Reference::new(&image(&self.machine.state()));
    }

    fn open(&mut self, ask: &Ask, l: u64, q: u64) -> Result<(), String> {
        let before = self.store.clone();
        let got = (self.call)(&mut self.store, ask);
        let refusal = oracles::opening_refusal(before.len(), l, q);
        let wanted = Answer::refused(refusal.unwrap_or(0), ask);
        self.tally.call(ask.spec, &wanted);
        same_answer(ask, &got, &wanted)?;
        if refusal.is_some() {
            return same_bytes(self.l, self.q, "a refused opening", &self.store, &before);
        }
        self.tally.limits.insert(l);
        self.tally.places.insert(q);
        (self.l, self.q) = (l, q);
        self.machine = Machine::open(l, q).expect("not refused");
        self.reference = Reference::new(&image(&self.machine.state()));
        self.tail = before[need(l, q)..].to_vec();
        self.same_store()
    }

    /// A call that only reads, and that the Rust does not have: its state is counted.
    fn counts(&mut self, ask: &Ask, connection: u64) -> Result<(), String> {
        let got = (self.call)(&mut self.store, ask);
        let wanted = oracles::counts(&self.machine.state(), connection, ask);
        self.tally.call(ask.spec, &wanted);
        if let Answer { status: 0, out: [announced, owned, ..], .. } = wanted {
            self.tally.case(ask.spec, counts_case([announced, owned]));
        }
        same_answer(ask, &got, &wanted)?;
        self.same_store()
    }

    fn on(&mut self, ask: &Ask, call: &Call) -> Result<(), String> {
        let got = (self.call)(&mut self.store, ask);
        let refusals = oracles::refusals(ask, call, [self.l, self.q]);
        let wanted = match refusals.first() {
            Some(number) => Answer::refused(*number, ask),
            None => self.carried_out(ask, call)?,
        };
        if wanted.status != 0 && !ask.spec.refusals.contains(&wanted.status) {
            return Err(format!("refusal {}, which the call is said not to meet", wanted.status));
        }
        self.tally.call(ask.spec, &wanted);
        self.tally.several += u64::from(refusals.len() > 1);
        same_answer(ask, &got, &wanted)?;
        self.same_store()?;
        self.same_parts(call, &got)?;
        self.since += 1;
        if self.since >= self.reference.words.len() * WORD / AT_EACH_CALL { self.whole() } else { Ok(()) }
    }

    /// Each connection's part of what was arranged.
    fn same_parts(&self, call: &Call, got: &Answer) -> Result<(), String> {
        match (call, &self.reply, got.status) {
            (Call::Arrange { taken, .. }, Some(Reply::Entries(arranged)), 0) => {
                parts::wrong(taken, arranged).map_or(Ok(()), Err)
            }
            _ => Ok(()),
        }
    }

    /// The Rust's answer; the reference must give it too, if it has the call.
    fn carried_out(&mut self, ask: &Ask, call: &Call) -> Result<Answer, String> {
        let reply = self.machine.call(call);
        if let Reply::Refused(number) = reply {
            return Ok(Answer::refused(number.into(), ask));
        }
        self.tally.case(ask.spec, (ask.spec.case)(call, &self.reference, &reply));
        for case in (ask.spec.also)(call, &self.reference, &reply) {
            self.tally.case(ask.spec, case);
        }
        match ask.spec.follow {
            None => self.renew(),
            Some(follow) => {
                let second = follow(&mut self.reference, call, self.tally);
                if reply != second {
                    return Err(format!("the reference replies {second:?}, the Rust {reply:?}"));
                }
            }
        }
        let answer = Answer::done(&reply, ask);
        self.reply = Some(reply);
        Ok(answer)
    }

    /// The store is the reference's image as far as the need; the bytes past it are as they were.
    fn same_store(&self) -> Result<(), String> {
        let (bytes, tail) = self.store.split_at(need(self.l, self.q));
        if self.reference.holds(bytes) && tail == self.tail {
            return Ok(());
        }
        let mut wanted: Vec<u8> = self.reference.words.iter().flat_map(|word| word.to_le_bytes()).collect();
        wanted.extend_from_slice(&self.tail);
        same_bytes(self.l, self.q, "the store", &self.store, &wanted)
    }

    fn whole(&mut self) -> Result<(), String> {
        self.since = 0;
        self.tally.wholes += 1;
        let whole = image(&self.machine.state());
        if self.reference.holds(&whole) {
            return Ok(());
        }
        let bytes: Vec<u8> = self.reference.words.iter().flat_map(|word| word.to_le_bytes()).collect();
        same_bytes(self.l, self.q, "the reference beside the Rust's image", &bytes, &whole)
    }

    /// The call on other bytes than the run's, which stay.
    pub fn aside(&mut self, ask: &Ask, bytes: &[u8], about: &str) -> Result<(), String> {
        let (mut store, mut after) = (bytes.to_vec(), bytes.to_vec());
        let got = (self.call)(&mut store, ask);
        let wanted = oracles::call(&mut after, ask);
        self.tally.call(ask.spec, &wanted);
        self.tally.on_damaged += 1;
        same_answer(ask, &got, &wanted)
            .and_then(|()| same_bytes(self.l, self.q, "the store", &store, &after))
            .map_err(|text| format!("{ask}\n  on a store of {} bytes, {about}: {text}", bytes.len()))
    }

    /// After a run's last call: the Rust's whole image, its own books, and the state read back from the store.
    pub fn end(mut self) -> Result<(), String> {
        assert_sound(&self.machine);
        self.whole()?;
        match read(&self.store) {
            Ok(state) if state == self.machine.state() => Ok(()),
            other => Err(format!("the store is read back otherwise: {:?}", other.err())),
        }
    }
}

fn same_answer(ask: &Ask, got: &Answer, wanted: &Answer) -> Result<(), String> {
    if (got.status, got.out) != (wanted.status, wanted.out) {
        return Err(format!("library: {got}; wanted: {wanted}"));
    }
    match got.buffer.iter().zip(&wanted.buffer).position(|(one, other)| one != other) {
        None => Ok(()),
        Some(byte) => {
            let place = if byte < wanted.written(ask) { "in the reply" } else { "past the reply" };
            let (one, other) = (got.buffer[byte], wanted.buffer[byte]);
            Err(format!("answer buffer, byte {byte} ({place}): {one:02x}, not {other:02x}"))
        }
    }
}

fn same_bytes(l: u64, q: u64, about: &str, got: &[u8], wanted: &[u8]) -> Result<(), String> {
    if got == wanted { Ok(()) } else { Err(format!("{about}: {}", names::first(l, q, got, wanted))) }
}
