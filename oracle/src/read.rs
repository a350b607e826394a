//! Event lines to calls. A line of no listed form gives `None`.

use crate::calls::Call;
use crate::fields::{Field, Fields};
use crate::state::{Owner, Package, Request, State};

/// A line that can be read.
#[derive(Clone, Debug, Eq, PartialEq)]
pub enum Line {
    Open {
        l: u64,
        q: u64,
    },
    Call(Call),
    /// Claims the last carried-out plan.
    Take {
        now: u64,
    },
    /// Arranges the last carried-out take.
    Send {
        witness: Vec<u64>,
    },
    /// A part of the last arranged list.
    Part {
        connection: u64,
    },
    /// A word that the event program does not know.
    Extra(Extra),
}

/// Words of the oracle alone, for comparisons.
#[derive(Clone, Debug, Eq, PartialEq)]
pub enum Extra {
    /// Prints the state.
    Dump,
    /// Sets a state, given as a dump.
    Load(State),
}

pub fn line(text: &[u8]) -> Option<Line> {
    let mut fields = Fields::new(text);
    let word = fields.field()?;
    let line = match word {
        b"open" => Line::Open { l: fields.read()?, q: fields.read()? },
        b"take" => Line::Take { now: fields.read()? },
        b"send" => Line::Send { witness: fields.read()? },
        b"part" => Line::Part { connection: fields.read()? },
        b"dump" => Line::Extra(Extra::Dump),
        b"load" => return Some(Line::Extra(Extra::Load(dump(text.strip_prefix(b"load,")?)?))),
        _ => Line::Call(Call::read(word, &mut fields)?),
    };
    fields.end(line)
}

/// Whether a word belongs to the oracle alone.
pub fn is_extra(text: &[u8]) -> bool {
    let word = text.split(|byte| *byte == b',').next().unwrap_or_default();
    [&b"dump"[..], b"load", b"grab", b"ship"].contains(&word)
}

/// `none`, or a value.
fn or_none<T: Field>(fields: &mut Fields) -> Option<Option<T>> {
    if fields.skip(b"none") { Some(None) } else { fields.read().map(Some) }
}

fn owner(fields: &mut Fields) -> Option<Option<Owner>> {
    match (or_none(fields)?, or_none(fields)?) {
        (None, None) => Some(None),
        (Some(connection), Some(deadline)) => Some(Some(Owner { connection, deadline })),
        _ => None,
    }
}

fn package(fields: &mut Fields) -> Option<Option<Package>> {
    let enqueued = match fields.field()? {
        b"none" => return Some(None),
        b"awaiting" => false,
        b"enqueued" => true,
        _ => return None,
    };
    Some(Some(Package { combined: fields.read()?, wtxids: fields.read()?, enqueued }))
}

fn request(fields: &mut Fields) -> Option<Request> {
    Some(Request {
        key: fields.read()?,
        candidates: Vec::new(),
        owner: owner(fields)?,
        package_info: fields.read()?,
        package: package(fields)?,
        parents: fields.read()?,
        fallback: fields.read()?,
    })
}

fn state(fields: &mut Fields) -> Option<State> {
    Some(State {
        l: fields.read()?,
        q: fields.read()?,
        next_poll: or_none(fields)?,
        known_cursor: or_none(fields)?,
        ready_cursor: or_none(fields)?,
        requests: Vec::new(),
    })
}

/// A state as `write::dump` writes it.
pub fn dump(text: &[u8]) -> Option<State> {
    let mut state: Option<State> = None;
    for part in text.split(|byte| *byte == b';') {
        let mut fields = Fields::new(part);
        match (fields.field()?, &mut state) {
            (b"s", None) => state = Some(self::state(&mut fields)?),
            (b"r", Some(state)) => state.requests.push(request(&mut fields)?),
            (b"c", Some(state)) => state.requests.last_mut()?.candidates.push(fields.read()?),
            _ => return None,
        }
        fields.end(())?;
    }
    state
}
