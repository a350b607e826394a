//! The event program: a line in, an answer out.

use crate::Machine;
use crate::calls::{Call, Entry, Reply};
use crate::read::{self, Extra, Line};
use crate::write;

/// Above these an `open` is unreadable.
const EVENT_L: u64 = 100;
const EVENT_Q: u64 = 2;
/// A longer line is unreadable; its line feed does not count.
pub const LINE_BUFFER: usize = 65_536;

pub struct Program {
    machine: Option<Machine>,
    planned: Vec<Entry>,
    taken: Vec<Entry>,
    arranged: Vec<Entry>,
    big: bool,
    extra: bool,
}

impl Program {
    /// `big`: every L and Q that opening takes, and lines of any length. `extra`: the
    /// oracle's own words.
    pub fn new(big: bool, extra: bool) -> Self {
        Self { machine: None, planned: Vec::new(), taken: Vec::new(), arranged: Vec::new(), big, extra }
    }

    pub fn machine(&self) -> Option<&Machine> {
        self.machine.as_ref()
    }

    /// The answer to a line, given without its line feed.
    pub fn answer(&mut self, text: &[u8]) -> String {
        match self.read(text) {
            None => write::reply(&Reply::Refused(9)),
            Some(Line::Open { l, q }) => self.start(Machine::open(l, q)),
            Some(Line::Extra(Extra::Load(state))) => self.start(Machine::load(&state)),
            Some(line) => self.run(line),
        }
    }

    fn read(&self, text: &[u8]) -> Option<Line> {
        if (!self.big && text.len() > LINE_BUFFER) || (!self.extra && read::is_extra(text)) {
            return None;
        }
        let line = read::line(text)?;
        let (l, q) = match &line {
            Line::Open { l, q } => (*l, *q),
            Line::Extra(Extra::Load(state)) => (state.l, state.q),
            _ => return Some(line),
        };
        (self.big || (l <= EVENT_L && q <= EVENT_Q)).then_some(line)
    }

    fn start(&mut self, opened: Result<Machine, u8>) -> String {
        match opened {
            Ok(machine) => {
                *self = Self { machine: Some(machine), ..Self::new(self.big, self.extra) };
                "ok".to_owned()
            }
            Err(number) => write::reply(&Reply::Refused(number)),
        }
    }

    fn run(&mut self, line: Line) -> String {
        let Some(machine) = &mut self.machine else {
            return write::reply(&Reply::Refused(3));
        };
        let call = match line {
            Line::Call(call) => call,
            Line::Take { now } => Call::Claim { now, checked: self.planned.clone() },
            Line::Send { witness } => Call::Arrange { taken: self.taken.clone(), witness },
            Line::Part { connection } => return write::reply(&part(&self.arranged, connection)),
            Line::Extra(Extra::Dump) => return write::dump(&machine.state()),
            Line::Open { .. } | Line::Extra(Extra::Load(_)) => unreachable!("these start a tracker"),
        };
        let reply = machine.call(&call);
        match (&call, &reply) {
            (Call::Plan { .. }, Reply::Planned(_, entries, _)) => self.planned.clone_from(entries),
            (Call::Claim { .. }, Reply::Entries(entries)) => self.taken.clone_from(entries),
            (Call::Arrange { .. }, Reply::Entries(entries)) => self.arranged.clone_from(entries),
            _ => {}
        }
        write::reply(&reply)
    }
}

/// The part of an arranged list that is the connection's: no call of a tracker.
fn part(arranged: &[Entry], connection: u64) -> Reply {
    if connection == 0 {
        return Reply::Refused(4);
    }
    Reply::Entries(
        arranged.iter().filter(|entry| entry.candidate.connection == connection).copied().collect(),
    )
}
