//! The image of a state kept row by row: what the store must hold after each call, without writing a whole image
//! anew. It knows neither the library nor the Rust; `trial` holds it against the Rust's whole image. Calls that have no
//! rule on it have the whole image written anew.

use std::ops::Range;

use oracle::calls::{Candidate, Hash, Item, Key, Kind};
use oracle::image::{ENTRY, HASH, HEADER, ROW, WORD, entries_at, header, row};

use crate::tally::Event;

/// A key in the order of the rows: the kind, then the hash from its most significant word.
pub type Rank = (u64, [u64; HASH]);
/// What eviction goes by.
pub type Weight = (u64, Rank, u64);

/// A row that is to go.
#[derive(Clone, Copy)]
pub struct Victim {
    pub i: usize,
    pub weight: Weight,
    /// The next that would go, and the greatest that is spared for owning its request.
    pub second: Option<Weight>,
    pub owner: Option<Weight>,
}

pub struct Reference {
    pub words: Vec<u64>,
}

/// The words of bytes; a rest of fewer than eight is left out.
pub fn words(bytes: &[u8]) -> impl Iterator<Item = u64> {
    bytes.as_chunks::<WORD>().0.iter().map(|word| u64::from_le_bytes(*word))
}

pub fn rank(key: Key) -> Rank {
    let mut hash: Vec<u64> = words(&key.hash.0).collect();
    hash.reverse();
    (u64::from(key.kind == Kind::Wtxid), hash.try_into().expect("four words"))
}

pub fn rank_of(row: &[u64; ROW]) -> Rank {
    (row[row::BITS] & row::WTXID, [row[3], row[2], row[1], row[0]])
}

pub fn key_of((kind, mut hash): Rank) -> Key {
    hash.reverse();
    let hash = Hash(hash.map(u64::to_le_bytes).as_flattened().try_into().expect("32 bytes"));
    if kind == 0 { Key::txid(hash) } else { Key::wtxid(hash) }
}

impl Reference {
    pub fn new(image: &[u8]) -> Self {
        Self { words: words(image).collect() }
    }

    /// Whether the bytes are the image.
    pub fn holds(&self, bytes: &[u8]) -> bool {
        bytes.len() == WORD * self.words.len() && words(bytes).eq(self.words.iter().copied())
    }

    pub fn rows(&self) -> &[[u64; ROW]] {
        self.words[HEADER..][..ROW * self.words[header::ROWS] as usize].as_chunks().0
    }

    pub fn row_mut(&mut self, i: usize) -> &mut [u64] {
        &mut self.words[HEADER + ROW * i..][..ROW]
    }

    fn entries_at(&self) -> usize {
        entries_at(self.words[header::L])
    }

    pub fn entries(&self) -> &[[u64; ENTRY]] {
        self.words[self.entries_at()..][..ENTRY * self.words[header::ENTRIES] as usize].as_chunks().0
    }

    pub fn find(&self, connection: u64) -> Result<usize, usize> {
        self.entries().binary_search_by_key(&connection, |entry| entry[0])
    }

    /// The rows of a key.
    pub fn at(&self, key: Key) -> Range<usize> {
        let (rows, key) = (self.rows(), rank(key));
        rows.partition_point(|row| rank_of(row) < key)..rows.partition_point(|row| rank_of(row) <= key)
    }

    /// The rows of a hash, over both kinds.
    pub fn at_hash(&self, hash: Hash) -> impl Iterator<Item = usize> + Clone + use<> {
        self.at(Key::txid(hash)).chain(self.at(Key::wtxid(hash)))
    }

    /// A record more in a region whose count stands in the header.
    fn put(&mut self, region: usize, count: usize, i: usize, record: &[u64]) {
        let (size, used) = (record.len(), self.words[count] as usize);
        self.words.copy_within(region + size * i..region + size * used, region + size * (i + 1));
        self.words[region + size * i..][..size].copy_from_slice(record);
        self.words[count] += 1;
    }

    fn take(&mut self, region: usize, count: usize, i: usize, size: usize) {
        let used = self.words[count] as usize;
        self.words.copy_within(region + size * (i + 1)..region + size * used, region + size * i);
        self.words[region + size * (used - 1)..][..size].fill(0);
        self.words[count] -= 1;
    }

    pub fn insert(&mut self, key: Key, c: &Candidate) {
        let at = self.at(key);
        let mark = if at.is_empty() { 0 } else { self.rows()[at.start][row::BITS] & row::MARK };
        let bits = mark
            | if key.kind == Kind::Wtxid { row::WTXID } else { 0 }
            | if matches!(c.item, Item::WitnessTransaction(_)) { row::WITNESS } else { 0 }
            | if c.preferred { row::PREFERRED } else { 0 };
        let mut record: Vec<u64> = words(&key.hash.0).collect();
        record.extend([c.connection, c.ready, c.priority, 0, bits]);
        self.put(HEADER, header::ROWS, at.end, &record);
        let region = self.entries_at();
        match self.find(c.connection) {
            Ok(i) => self.words[region + ENTRY * i + 1] += 1,
            Err(i) => self.put(region, header::ENTRIES, i, &[c.connection, 1, 0]),
        }
    }

    pub fn remove(&mut self, i: usize) {
        let connection = self.rows()[i][row::CONNECTION];
        self.take(HEADER, header::ROWS, i, ROW);
        let (region, i) = (self.entries_at(), self.find(connection).expect("it had a row"));
        self.words[region + ENTRY * i + 1] -= 1;
        if self.words[region + ENTRY * i + 1] == 0 {
            self.take(region, header::ENTRIES, i, ENTRY);
        }
    }

    /// The victim among these rows: the greatest by priority, key and connection of those that are unpreferred and do
    /// not own their request.
    pub fn victim(&self, among: impl Iterator<Item = usize>) -> Option<Victim> {
        let mut found: Option<Victim> = None;
        let mut owner = None;
        for i in among {
            let row = &self.rows()[i];
            let weight = (row[row::PRIORITY], rank_of(row), row[row::CONNECTION]);
            if row[row::BITS] & row::PREFERRED != 0 {
                continue;
            }
            if row[row::BITS] & row::OWNS != 0 {
                owner = owner.max(Some(weight));
                continue;
            }
            match &mut found {
                Some(victim) if weight < victim.weight => victim.second = victim.second.max(Some(weight)),
                _ => {
                    found = Some(Victim { i, weight, second: found.map(|victim| victim.weight), owner: None })
                }
            }
        }
        found.map(|victim| Victim { owner, ..victim })
    }

    pub fn candidate_at(&self, hash: Hash, connection: u64) -> Option<usize> {
        self.at_hash(hash).find(|i| self.rows()[*i][row::CONNECTION] == connection)
    }
}

/// What decided between two of one priority.
pub fn tie(greatest: Weight, second: Weight) -> Option<Event> {
    let ((kind, hash), (other_kind, other_hash)) = (greatest.1, second.1);
    if greatest.0 != second.0 {
        None
    } else if kind != other_kind {
        Some(Event::TieOfKind)
    } else if hash == other_hash {
        Some(Event::TieOfConnection)
    } else if hash[..HASH - 1] == other_hash[..HASH - 1] {
        Some(Event::TieOfLowWord)
    } else {
        Some(Event::TieOfHash)
    }
}
