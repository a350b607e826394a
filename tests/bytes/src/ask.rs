//! A call as the library gets it, and its answer.

use std::fmt;

use oracle::calls::{Call, Entry, Hash, Holding, Key, Kind, Reply};

use crate::calls::{Hands, Spec};

/// Bytes of a key in an answer buffer: a word for its kind, then the hash.
pub const KEY: usize = 40;
/// Bytes of an entry in an answer buffer and in a checked list: key, connection, item type and hash, ready, preferred,
/// priority.
pub const ENTRY: usize = 112;
pub const HASH_BYTES: usize = 32;
/// Bytes of an owner in an answer buffer: how the hash is owned, connection, deadline.
pub const OWNER: usize = 24;

/// What the caller's numbers hold before a call.
pub const UNTOUCHED: [u64; 4] =
    [0x5a5a_5a5a_5a5a_5a5a, 0xa5a5_a5a5_a5a5_a5a5, 0x3c3c_3c3c_3c3c_3c3c, 0xc3c3_c3c3_c3c3_c3c3];

/// The arguments.
#[derive(Clone, Debug)]
pub enum Given {
    Open {
        l: u64,
        q: u64,
    },
    /// No call of document 01.
    Counts {
        connection: u64,
    },
    On(Call),
}

#[derive(Clone)]
pub struct Ask {
    pub spec: &'static Spec,
    pub given: Given,
    /// Bytes behind the last whole hash, item or entry of a list.
    pub rest: Vec<u8>,
    /// The answer buffer as it is lent.
    pub buffer: Vec<u8>,
    /// How far the store stands from an address that is a multiple of eight.
    pub shift: usize,
}

/// In the words of event lines, with what they have no field for behind it.
impl fmt::Display for Ask {
    fn fmt(&self, f: &mut fmt::Formatter<'_>) -> fmt::Result {
        let line = match &self.given {
            Given::Open { l, q } => format!("open,{l},{q}"),
            Given::Counts { connection } => format!("counts of {connection}"),
            Given::On(call) => call.line(),
        };
        let (rest, buffer, shift) = (self.rest.len(), self.buffer.len(), self.shift);
        write!(f, "{}: {line}", self.spec.name)?;
        write!(f, " ({rest} bytes behind a list, a buffer of {buffer}, the store at {shift} past a word)")
    }
}

/// What is lent to one call of the library.
pub struct Lent<'a> {
    pub store: &'a mut [u8],
    pub rest: &'a [u8],
    pub buffer: &'a mut [u8],
    pub out: &'a mut [u64; 4],
}

impl Lent<'_> {
    /// A list of hashes as it is lent.
    pub fn list(&self, hashes: &[Hash]) -> Vec<u8> {
        hashes.iter().flat_map(|hash| hash.0).chain(self.rest.iter().copied()).collect()
    }
}

/// The library's call, as C calls it.
pub fn library(store: &mut [u8], ask: &Ask) -> Answer {
    let (mut out, mut buffer) = (UNTOUCHED, ask.buffer.clone());
    let mut status = |store: &mut [u8]| {
        let lent = Lent { store, rest: &ask.rest, buffer: &mut buffer, out: &mut out };
        (ask.spec.link)(&ask.given, lent)
    };
    let status = if ask.shift == 0 {
        status(store)
    } else {
        let mut moved = vec![0; ask.shift];
        moved.extend_from_slice(store);
        let number = status(&mut moved[ask.shift..]);
        store.copy_from_slice(&moved[ask.shift..]);
        number
    };
    Answer { status, out, buffer }
}

/// What a call hands back beside the store.
#[derive(Clone, Eq, PartialEq)]
pub struct Answer {
    pub status: u64,
    /// The caller's numbers after the call.
    pub out: [u64; 4],
    pub buffer: Vec<u8>,
}

impl Answer {
    pub fn refused(number: u64, ask: &Ask) -> Self {
        Self { status: number, out: UNTOUCHED, buffer: ask.buffer.clone() }
    }

    /// A call that was carried out with this reply.
    pub fn done(reply: &Reply, ask: &Ask) -> Self {
        let mut answer = Self::refused(0, ask);
        match reply {
            _ if ask.spec.hands == Hands::Nothing => {}
            Reply::Number(number) => answer.out[0] = *number,
            Reply::Sum(held, free, preferred, permille) => answer.out = [*held, *free, *preferred, *permille],
            Reply::Keys(keys) => {
                answer.out[0] = keys.len() as u64;
                answer.put_keys(keys.iter());
            }
            Reply::Gone(own, parents) => {
                [answer.out[0], answer.out[1]] = [own, parents].map(|keys| keys.len() as u64);
                answer.put_keys(own.iter().chain(parents));
            }
            Reply::Planned(considered, entries, next) => {
                [answer.out[0], answer.out[1], answer.out[2]] =
                    [*considered, entries.len() as u64, next.unwrap_or(0)];
                answer.put_entries(entries);
            }
            Reply::Entries(entries) => {
                answer.out[0] = entries.len() as u64;
                answer.put_entries(entries);
            }
            Reply::Owners(passed, owners) => {
                answer.out[0] = *passed;
                for (owner, place) in owners.iter().zip(answer.buffer.chunks_exact_mut(OWNER)) {
                    place.copy_from_slice(&owner_bytes(*owner));
                }
            }
            other => unreachable!("no call of these replies {other:?}"),
        }
        answer
    }

    /// The counts of a connection.
    pub fn counts([announced, owned]: [u64; 2], ask: &Ask) -> Self {
        let mut answer = Self::refused(0, ask);
        [answer.out[0], answer.out[1]] = [announced, owned];
        answer
    }

    fn put_keys<'a>(&mut self, keys: impl Iterator<Item = &'a Key>) {
        for (key, place) in keys.zip(self.buffer.chunks_exact_mut(KEY)) {
            place.copy_from_slice(&key_bytes(*key));
        }
    }

    fn put_entries(&mut self, entries: &[Entry]) {
        for (entry, place) in entries.iter().zip(self.buffer.chunks_exact_mut(ENTRY)) {
            place.copy_from_slice(&entry_bytes(entry));
        }
    }

    /// How many bytes of the buffer are reply.
    pub fn written(&self, ask: &Ask) -> usize {
        let [first, second, ..] = self.out.map(|number| number as usize);
        match ask.spec.hands {
            _ if self.status != 0 => 0,
            Hands::Keys => KEY * first,
            Hands::Departure => KEY * (first + second),
            Hands::Entries => ENTRY * first,
            Hands::Plan => ENTRY * second,
            Hands::Owners => (ask.spec.need)(&ask.given, [0; 2]),
            Hands::Nothing | Hands::Number | Hands::Figures | Hands::Counts => 0,
        }
    }
}

impl fmt::Display for Answer {
    fn fmt(&self, f: &mut fmt::Formatter<'_>) -> fmt::Result {
        write!(f, "status {}, numbers", self.status)?;
        for (number, before) in self.out.iter().zip(UNTOUCHED) {
            if *number == before { write!(f, " (untouched)")? } else { write!(f, " {number}")? }
        }
        Ok(())
    }
}

fn key_bytes(key: Key) -> [u8; KEY] {
    let mut bytes = [0; KEY];
    bytes[0] = u8::from(key.kind == Kind::Wtxid);
    bytes[KEY - HASH_BYTES..].copy_from_slice(&key.hash.0);
    bytes
}

/// 0 nobody, 1 Txid, 2 Wtxid; then connection and deadline.
fn owner_bytes(owner: Option<Holding>) -> [u8; OWNER] {
    let words = owner.map_or([0; 3], |owner| {
        [1 + u64::from(owner.key.kind == Kind::Wtxid), owner.connection, owner.deadline]
    });
    std::array::from_fn(|i| words[i / 8].to_le_bytes()[i % 8])
}

pub fn entry_bytes(entry: &Entry) -> [u8; ENTRY] {
    let (key, candidate) = (key_bytes(entry.key), &entry.candidate);
    let (number, hash) = candidate.item.parts();
    let words = |words: &[u64]| words.iter().flat_map(|word| word.to_le_bytes()).collect::<Vec<u8>>();
    let fields = [
        key.to_vec(),
        words(&[candidate.connection, number.into()]),
        hash.0.to_vec(),
        words(&[candidate.ready, candidate.preferred.into(), candidate.priority]),
    ];
    fields.concat().try_into().expect("112 bytes")
}
