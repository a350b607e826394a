//! Saved listings as docs/LISTING.md has them, written and read without the library: `write` writes a state, `read` gives the state
//! of a text or the number of its refusal.

use crate::calls::{Candidate, Hash, Item, Key, Kind};
use crate::sound;
use crate::state::{Owner, Package, Request, State};
use crate::write::{candidate, hash, hashes, key};

/// A text that is no listing, and a listing of a state that is not sound.
pub const UNREADABLE: u64 = 11;
pub const UNSOUND: u64 = 12;

const NONE: &str = "none";
const MOST_HASHES: usize = 100;

fn or_none<T>(value: Option<T>, text: impl Fn(T) -> String) -> String {
    value.map_or_else(|| NONE.to_owned(), text)
}

fn request_line(request: &Request) -> String {
    [
        key(request.key),
        or_none(request.owner, |owner| format!("{},{}", owner.connection, owner.deadline)),
        u8::from(request.package_info).to_string(),
        or_none(request.package.as_ref(), |package| {
            format!("{},{},{}", hash(package.combined), hashes(&package.wtxids), u8::from(package.enqueued))
        }),
        hashes(&request.parents),
        u8::from(request.fallback).to_string(),
    ]
    .join(",")
}

/// The listing of a state.
pub fn write(state: &State) -> String {
    let mut lines = vec![
        [
            state.l.to_string(),
            state.q.to_string(),
            or_none(state.next_poll, |time| time.to_string()),
            or_none(state.known_cursor, key),
            or_none(state.ready_cursor, key),
        ]
        .join(","),
    ];
    for request in &state.requests {
        lines.push(request_line(request));
        lines.extend(request.candidates.iter().map(candidate));
    }
    lines.iter().map(|line| format!("{line}\n")).collect()
}

// ---- reading

fn number(text: &str, end: u128) -> Option<u64> {
    let plain = text.bytes().all(|byte| byte.is_ascii_digit()) && (text.len() == 1 || !text.starts_with('0'));
    let value = text.parse::<u128>().ok().filter(|value| plain && *value < end)?;
    u64::try_from(value).ok()
}

fn word(text: &str) -> Option<u64> {
    number(text, 1 << 64)
}

fn flag(text: &str) -> Option<bool> {
    match text {
        "0" => Some(false),
        "1" => Some(true),
        _ => None,
    }
}

fn digits(text: &str) -> Option<Hash> {
    let lower = text.bytes().all(|byte| matches!(byte, b'0'..=b'9' | b'a'..=b'f'));
    if !lower || !(1..=64).contains(&text.len()) || (text.len() > 1 && text.starts_with('0')) {
        return None;
    }
    let all = format!("{text:0>64}");
    let mut bytes = [0; 32];
    for (at, byte) in bytes.iter_mut().rev().enumerate() {
        *byte = u8::from_str_radix(&all[2 * at..][..2], 16).ok()?;
    }
    Some(Hash(bytes))
}

fn key_in(text: &str) -> Option<Key> {
    let kind = match text.as_bytes().first()? {
        b't' => Kind::Txid,
        b'w' => Kind::Wtxid,
        _ => return None,
    };
    Some(Key { kind, hash: digits(&text[1..])? })
}

fn item_in(text: &str) -> Option<Item> {
    let rest = text.get(1..)?;
    Some(match text.as_bytes().first()? {
        b't' => Item::Transaction(digits(rest)?),
        b'v' => Item::WitnessTransaction(digits(rest)?),
        b'w' => Item::WTx(digits(rest)?),
        b'o' => {
            let (kind, hash) = rest.split_once(':')?;
            let kind = number(kind, 1 << 32).filter(|kind| ![1, 5, 0x4000_0001].contains(kind))?;
            Item::Other(u32::try_from(kind).ok()?, digits(hash)?)
        }
        _ => return None,
    })
}

/// The fields of a line, from the front.
struct Fields<'a>(std::collections::VecDeque<&'a str>);

impl<'a> Fields<'a> {
    fn new(line: &'a str) -> Self {
        Self(line.split(',').collect())
    }

    fn one<T>(&mut self, read: impl Fn(&str) -> Option<T>) -> Option<T> {
        read(self.0.pop_front()?)
    }

    fn missing(&mut self) -> bool {
        let missing = self.0.front() == Some(&NONE);
        if missing {
            self.0.pop_front();
        }
        missing
    }

    fn maybe<T>(&mut self, read: impl Fn(&mut Self) -> Option<T>) -> Option<Option<T>> {
        if self.missing() { Some(None) } else { read(self).map(Some) }
    }

    fn hashes(&mut self, least: usize) -> Option<Vec<Hash>> {
        let count = self.one(word)?;
        let count = usize::try_from(count).ok().filter(|count| (least..=MOST_HASHES).contains(count))?;
        (0..count).map(|_| self.one(digits)).collect()
    }

    fn end<T>(self, value: T) -> Option<T> {
        self.0.is_empty().then_some(value)
    }
}

enum Line {
    First(State),
    Request(Request),
    Candidate(Candidate),
}

fn first_line(line: &str) -> Option<Line> {
    let mut fields = Fields::new(line);
    let state = State {
        l: fields.one(word)?,
        q: fields.one(word)?,
        next_poll: fields.maybe(|fields| fields.one(word))?,
        known_cursor: fields.maybe(|fields| fields.one(key_in))?,
        ready_cursor: fields.maybe(|fields| fields.one(key_in))?,
        requests: Vec::new(),
    };
    fields.end(Line::First(state))
}

fn request_in(line: &str) -> Option<Line> {
    let mut fields = Fields::new(line);
    let request = Request {
        key: fields.one(key_in)?,
        candidates: Vec::new(),
        owner: fields
            .maybe(|fields| Some(Owner { connection: fields.one(word)?, deadline: fields.one(word)? }))?,
        package_info: fields.one(flag)?,
        package: fields.maybe(|fields| {
            Some(Package {
                combined: fields.one(digits)?,
                wtxids: fields.hashes(1)?,
                enqueued: fields.one(flag)?,
            })
        })?,
        parents: fields.hashes(0)?,
        fallback: fields.one(flag)?,
    };
    fields.end(Line::Request(request))
}

fn candidate_in(line: &str) -> Option<Line> {
    let mut fields = Fields::new(line);
    let candidate = Candidate {
        connection: fields.one(word)?,
        item: fields.one(item_in)?,
        ready: fields.one(word)?,
        preferred: fields.one(flag)?,
        priority: fields.one(word)?,
    };
    fields.end(Line::Candidate(candidate))
}

/// The state that a text lists, sound or not.
fn listed(text: &[u8]) -> Option<State> {
    let body = std::str::from_utf8(text).ok()?.strip_suffix('\n')?;
    let mut lines = body
        .split('\n')
        .map(|line| first_line(line).or_else(|| request_in(line)).or_else(|| candidate_in(line)));
    let Line::First(mut state) = lines.next()?? else { return None };
    for line in lines {
        match line? {
            Line::First(_) => return None,
            Line::Request(request) => {
                if state.requests.last().is_some_and(|last| request.key < last.key) {
                    return None;
                }
                state.requests.push(request);
            }
            Line::Candidate(candidate) => state.requests.last_mut()?.candidates.push(candidate),
        }
    }
    Some(state)
}

/// The sound state that a text lists, or the number of its refusal.
pub fn read(text: &[u8]) -> Result<State, u64> {
    let state = listed(text).ok_or(UNREADABLE)?;
    if sound::breach(&state).is_some() { Err(UNSOUND) } else { Ok(state) }
}
