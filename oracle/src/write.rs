//! Answers and whole states as text.

use crate::calls::{Candidate, Entry, Hash, Holding, Item, Key, Kind, Reply};
use crate::state::{Request, State};

pub fn hash(hash: Hash) -> String {
    let digits: String = hash.0.iter().rev().map(|byte| format!("{byte:02x}")).collect();
    match digits.trim_start_matches('0') {
        "" => "0".to_owned(),
        short => short.to_owned(),
    }
}

pub fn key(key: Key) -> String {
    let letter = match key.kind {
        Kind::Txid => 't',
        Kind::Wtxid => 'w',
    };
    format!("{letter}{}", hash(key.hash))
}

pub fn item(item: Item) -> String {
    match item {
        Item::Transaction(id) => format!("t{}", hash(id)),
        Item::WitnessTransaction(id) => format!("v{}", hash(id)),
        Item::WTx(id) => format!("w{}", hash(id)),
        Item::Other(kind, id) => format!("o{kind}:{}", hash(id)),
    }
}

pub fn candidate(candidate: &Candidate) -> String {
    format!(
        "{},{},{},{},{}",
        candidate.connection,
        item(candidate.item),
        candidate.ready,
        u8::from(candidate.preferred),
        candidate.priority
    )
}

pub fn entry(entry: &Entry) -> String {
    format!("{},{}", key(entry.key), candidate(&entry.candidate))
}

/// An empty list is `-`.
fn list(fields: Vec<String>) -> String {
    if fields.is_empty() { "-".to_owned() } else { fields.join(",") }
}

/// A count, then the fields.
pub fn counted(count: u64, fields: impl Iterator<Item = String>) -> String {
    std::iter::once(count.to_string()).chain(fields).collect::<Vec<_>>().join(",")
}

pub fn reply(reply: &Reply) -> String {
    match reply {
        Reply::Refused(number) => format!("no,{number}"),
        Reply::Number(number) => number.to_string(),
        Reply::Keys(keys) => list(keys.iter().copied().map(key).collect()),
        Reply::Gone(own, parents) => counted(own.len() as u64, own.iter().chain(parents).copied().map(key)),
        Reply::Planned(count, entries, next) => {
            let next = or_none(next.map(|time| time.to_string()));
            counted(*count, entries.iter().map(entry).chain([next]))
        }
        Reply::Entries(entries) => list(entries.iter().map(entry).collect()),
        Reply::Sum(held, free, preferred, permille) => format!("{held},{free},{preferred},{permille}"),
        Reply::Owners(passed, owners) => {
            counted(*passed, owners.iter().map(|owner| or_none(owner.map(holding))))
        }
    }
}

fn holding(owner: Holding) -> String {
    format!("{},{},{}", key(owner.key), owner.connection, owner.deadline)
}

fn or_none(value: Option<String>) -> String {
    value.unwrap_or_else(|| "none".to_owned())
}

pub fn hashes(list: &[Hash]) -> String {
    counted(list.len() as u64, list.iter().copied().map(hash))
}

pub fn numbers(list: &[u64]) -> String {
    counted(list.len() as u64, list.iter().map(u64::to_string))
}

fn request(request: &Request) -> String {
    let package = request.package.as_ref().map(|package| {
        let phase = if package.enqueued { "enqueued" } else { "awaiting" };
        format!("{phase},{},{}", hash(package.combined), hashes(&package.wtxids))
    });
    format!(
        "r,{},{},{},{},{},{},{}",
        key(request.key),
        or_none(request.owner.map(|owner| owner.connection.to_string())),
        or_none(request.owner.map(|owner| owner.deadline.to_string())),
        u8::from(request.package_info),
        or_none(package),
        hashes(&request.parents),
        u8::from(request.fallback)
    )
}

/// A whole state in one line, its parts between semicolons: `s` with L, Q, next poll,
/// known and ready cursor; for each request `r` with key, owner, deadline, flag, package
/// (`none`, or phase, combined hash and wtxids), parents and mark; after it `c` with the
/// fields of each candidate. Lists stand after their length, `none` is what is missing.
pub fn dump(state: &State) -> String {
    let mut parts = vec![format!(
        "s,{},{},{},{},{}",
        state.l,
        state.q,
        or_none(state.next_poll.map(|time| time.to_string())),
        or_none(state.known_cursor.map(key)),
        or_none(state.ready_cursor.map(key))
    )];
    for one in &state.requests {
        parts.push(request(one));
        parts.extend(one.candidates.iter().map(|one| format!("c,{}", candidate(one))));
    }
    parts.join(";")
}
