//! Damage to a store's bytes, by named kinds.

use std::collections::BTreeMap;

use oracle::image::{
    ENTRY, HASH, HEADER, LIST, PLACE, ROW, WORD, entries_at, header, need, place, places_at, row,
};
use oracle::random::Rng;

/// A sound store's bytes and its sizes, which the damage does not change.
#[derive(Clone)]
pub struct Store {
    pub bytes: Vec<u8>,
    l: u64,
    q: u64,
    rows: usize,
    entries: usize,
    places: usize,
}

/// Does nothing and says so if the store has nothing of the kind.
pub type Damage = fn(&mut Store, &mut Rng) -> bool;

pub const KINDS: &[(&str, Damage)] = &[
    ("a word of the header", Store::header_word),
    ("a count of the header", Store::header_count),
    ("a word of a row", Store::row_word),
    ("a bit of a row", Store::row_bit),
    ("a bit of a row, connections mended", Store::row_bit_mended),
    ("two rows exchanged", Store::rows_exchanged),
    ("a row over another", Store::row_copied),
    ("a row over another, connections mended", Store::row_copied_mended),
    ("a row taken out", Store::row_out),
    ("a row put in", Store::row_in),
    ("a word of a connection", Store::entry_word),
    ("two connections exchanged", Store::entries_exchanged),
    ("a connection taken out", Store::entry_out),
    ("a connection put in", Store::entry_in),
    ("a word of a place's head", Store::place_word),
    ("a word of a place's lists", Store::list_word),
    ("a hash of a list over another", Store::hash_copied),
    ("a package made a flag", Store::package_to_flag),
    ("two places exchanged", Store::places_exchanged),
    ("a place over another", Store::place_copied),
    ("a place taken out", Store::place_out),
    ("a scratch word", Store::scratch_word),
    ("a word not in use", Store::spare_word),
    ("any byte", Store::any_byte),
];

/// Damage to the length, done last.
pub const LENGTHS: &[(&str, Damage)] =
    &[("cut", Store::cut), ("longer", Store::longer), ("a place past the need", Store::place_past)];

impl Store {
    pub fn new(bytes: Vec<u8>) -> Self {
        let mut store = Self { bytes, l: 0, q: 0, rows: 0, entries: 0, places: 0 };
        (store.l, store.q) = (store.word(header::L), store.word(header::Q));
        [store.rows, store.entries, store.places] =
            [header::ROWS, header::ENTRIES, header::PLACES].map(|at| store.word(at) as usize);
        store
    }

    fn word(&self, at: usize) -> u64 {
        u64::from_le_bytes(self.bytes[WORD * at..WORD * (at + 1)].try_into().expect("a word"))
    }

    fn set(&mut self, at: usize, value: u64) {
        self.bytes[WORD * at..WORD * (at + 1)].copy_from_slice(&value.to_le_bytes());
    }

    fn record(&self, at: usize, size: usize) -> Vec<u64> {
        (at..at + size).map(|i| self.word(i)).collect()
    }

    fn put(&mut self, at: usize, words: &[u64]) {
        for (i, value) in words.iter().enumerate() {
            self.set(at + i, *value);
        }
    }

    fn row(&self, i: usize) -> usize {
        HEADER + ROW * i
    }

    fn entry(&self, i: usize) -> usize {
        entries_at(self.l) + ENTRY * i
    }

    fn place(&self, i: usize) -> usize {
        places_at(self.l) + PLACE * i
    }

    /// Another value for a word; `like` is a word of the same content elsewhere.
    fn change(&mut self, rng: &mut Rng, at: usize, like: usize) -> bool {
        let old = self.word(at);
        let new = match rng.below(8) {
            0 => old.wrapping_add(1),
            1 => old.wrapping_sub(1),
            2 => old ^ (1 << rng.below(64)),
            3 => 0,
            4 => rng.below(5),
            5 => rng.next(),
            6 => u64::MAX,
            _ => self.word(like),
        };
        self.set(at, new);
        new != old
    }

    fn change_of(
        &mut self,
        rng: &mut Rng,
        count: usize,
        at: fn(&Self, usize) -> usize,
        field: usize,
    ) -> bool {
        if count == 0 {
            return false;
        }
        let (one, other) = (at(self, rng.index(count)), at(self, rng.index(count)));
        self.change(rng, one + field, other + field)
    }

    fn exchange(&mut self, rng: &mut Rng, count: usize, at: fn(&Self, usize) -> usize, size: usize) -> bool {
        if count < 2 {
            return false;
        }
        let i = rng.index(count - 1);
        let j = if rng.one_in(2) { i + 1 } else { rng.index(count) };
        let (one, other) = (self.record(at(self, i), size), self.record(at(self, j), size));
        self.put(at(self, i), &other);
        self.put(at(self, j), &one);
        i != j
    }

    fn copy(&mut self, rng: &mut Rng, count: usize, at: fn(&Self, usize) -> usize, size: usize) -> bool {
        if count < 2 {
            return false;
        }
        let i = rng.index(count - 1);
        let words = self.record(at(self, i), size);
        self.put(at(self, i + 1), &words);
        true
    }

    /// The records behind it move up; the count follows.
    fn out(
        &mut self,
        rng: &mut Rng,
        count: usize,
        at: fn(&Self, usize) -> usize,
        size: usize,
        field: usize,
    ) -> bool {
        if count == 0 {
            return false;
        }
        let i = rng.index(count);
        let behind = self.record(at(self, i + 1), size * (count - i - 1));
        self.put(at(self, i), &behind);
        self.put(at(self, count - 1), &vec![0; size]);
        self.set(field, count as u64 - 1);
        true
    }

    /// Behind the records, or in the place of the first one that is to stand behind it.
    fn into(&mut self, i: usize, count: usize, at: fn(&Self, usize) -> usize, words: &[u64], field: usize) {
        let behind = self.record(at(self, i), words.len() * (count - i));
        self.put(at(self, i + 1), &behind);
        self.put(at(self, i), words);
        self.set(field, count as u64 + 1);
    }

    fn header_word(&mut self, rng: &mut Rng) -> bool {
        let (at, like) = (rng.index(HEADER), rng.index(HEADER));
        self.change(rng, at, like)
    }

    fn header_count(&mut self, rng: &mut Rng) -> bool {
        let (field, most) =
            rng.pick(&[(header::ROWS, self.l), (header::ENTRIES, self.l), (header::PLACES, self.q)]);
        let old = self.word(field);
        let new = rng.pick(&[old.wrapping_sub(1), old.wrapping_add(1), 0, most, most + 1]);
        self.set(field, new);
        new != old
    }

    fn row_word(&mut self, rng: &mut Rng) -> bool {
        let field = rng.index(ROW);
        self.change_of(rng, self.rows, Self::row, field)
    }

    fn row_bit(&mut self, rng: &mut Rng) -> bool {
        if self.rows == 0 {
            return false;
        }
        let at = self.row(rng.index(self.rows)) + row::BITS;
        let bit = if rng.one_in(4) { rng.below(64) } else { rng.below(6) };
        self.set(at, self.word(at) ^ (1 << bit));
        true
    }

    fn row_bit_mended(&mut self, rng: &mut Rng) -> bool {
        self.row_bit(rng) && self.mend()
    }

    fn rows_exchanged(&mut self, rng: &mut Rng) -> bool {
        self.exchange(rng, self.rows, Self::row, ROW)
    }

    fn row_copied(&mut self, rng: &mut Rng) -> bool {
        self.copy(rng, self.rows, Self::row, ROW)
    }

    fn row_copied_mended(&mut self, rng: &mut Rng) -> bool {
        self.row_copied(rng) && self.mend()
    }

    fn row_out(&mut self, rng: &mut Rng) -> bool {
        self.out(rng, self.rows, Self::row, ROW, header::ROWS) && (rng.one_in(2) || self.mend())
    }

    /// A row like one that is there, often with another connection.
    fn row_in(&mut self, rng: &mut Rng) -> bool {
        if self.rows == 0 || self.rows as u64 >= self.l {
            return false;
        }
        let i = rng.index(self.rows);
        let mut words = self.record(self.row(i), ROW);
        if rng.below(4) != 0 {
            words[row::CONNECTION] = rng.word();
            words[row::BITS] &= !row::OWNS;
            words[row::DEADLINE] = 0;
        }
        self.into(i, self.rows, Self::row, &words, header::ROWS);
        rng.one_in(2) || self.mend()
    }

    fn entry_word(&mut self, rng: &mut Rng) -> bool {
        let field = rng.index(ENTRY);
        self.change_of(rng, self.entries, Self::entry, field)
    }

    fn entries_exchanged(&mut self, rng: &mut Rng) -> bool {
        self.exchange(rng, self.entries, Self::entry, ENTRY)
    }

    fn entry_out(&mut self, rng: &mut Rng) -> bool {
        self.out(rng, self.entries, Self::entry, ENTRY, header::ENTRIES)
    }

    /// In order, of a connection that may or may not have rows.
    fn entry_in(&mut self, rng: &mut Rng) -> bool {
        if self.entries as u64 >= self.l {
            return false;
        }
        let connection = rng.word();
        let i = (0..self.entries).find(|i| self.word(self.entry(*i)) > connection).unwrap_or(self.entries);
        let words = [connection, rng.below(2), rng.below(2)];
        self.into(i, self.entries, Self::entry, &words, header::ENTRIES);
        true
    }

    /// The connections' entries as the rows ask for, as far as they fit.
    fn mend(&mut self) -> bool {
        let mut tally: BTreeMap<u64, [u64; 2]> = BTreeMap::new();
        for at in (0..self.word(header::ROWS).min(self.l) as usize).map(|i| self.row(i)) {
            let [rows, owning] = tally.entry(self.word(at + row::CONNECTION)).or_default();
            *rows += 1;
            *owning += u64::from(self.word(at + row::BITS) & row::OWNS != 0);
        }
        self.set(header::ENTRIES, tally.len() as u64);
        let mut words: Vec<u64> =
            tally.into_iter().flat_map(|(connection, [m, n])| [connection, m, n]).collect();
        words.resize(ENTRY * self.l as usize, 0);
        self.put(self.entry(0), &words);
        true
    }

    fn place_word(&mut self, rng: &mut Rng) -> bool {
        let field = rng.index(place::WTXIDS);
        self.change_of(rng, self.places, Self::place, field)
    }

    fn list_word(&mut self, rng: &mut Rng) -> bool {
        let field = place::WTXIDS + rng.index(2 * LIST * HASH);
        self.change_of(rng, self.places, Self::place, field)
    }

    fn hash_copied(&mut self, rng: &mut Rng) -> bool {
        if self.places == 0 {
            return false;
        }
        let at = self.place(rng.index(self.places));
        let (count, list) =
            rng.pick(&[(place::WTXID_COUNT, place::WTXIDS), (place::PARENT_COUNT, place::PARENTS)]);
        let count = self.word(at + count).min(LIST as u64) as usize;
        if count < 2 {
            return false;
        }
        let (i, j) = (rng.index(count), rng.index(count));
        let words = self.record(at + list + HASH * i, HASH);
        self.put(at + list + HASH * j, &words);
        i != j
    }

    fn package_to_flag(&mut self, rng: &mut Rng) -> bool {
        let Some(at) =
            (0..self.places).map(|i| self.place(i)).find(|at| self.word(at + place::STAGE) != place::FLAG)
        else {
            return false;
        };
        self.set(at + place::STAGE, place::FLAG);
        self.put(at + place::COMBINED, &[0; HASH]);
        if rng.one_in(2) {
            self.set(at + place::WTXID_COUNT, 0);
            self.put(at + place::WTXIDS, &[0; HASH * LIST]);
        }
        true
    }

    fn places_exchanged(&mut self, rng: &mut Rng) -> bool {
        self.exchange(rng, self.places, Self::place, PLACE)
    }

    fn place_copied(&mut self, rng: &mut Rng) -> bool {
        self.copy(rng, self.places, Self::place, PLACE)
    }

    fn place_out(&mut self, rng: &mut Rng) -> bool {
        self.out(rng, self.places, Self::place, PLACE, header::PLACES)
    }

    fn scratch_word(&mut self, rng: &mut Rng) -> bool {
        if self.places == 0 {
            return false;
        }
        let at = self.place(rng.index(self.places)) + place::SCRATCH + rng.index(PLACE - place::SCRATCH);
        self.set(at, rng.word());
        self.word(at) != 0
    }

    /// Behind the records of a region, or behind those of a place's lists.
    fn spare_word(&mut self, rng: &mut Rng) -> bool {
        let mut spare = vec![
            (self.row(self.rows), self.entry(0)),
            (self.entry(self.entries), self.place(0)),
            (self.place(self.places), self.place(self.q as usize)),
        ];
        for at in (0..self.places).map(|i| self.place(i)) {
            let [wtxids, parents] = [place::WTXID_COUNT, place::PARENT_COUNT]
                .map(|field| HASH * self.word(at + field).min(LIST as u64) as usize);
            spare.push((at + place::WTXIDS + wtxids, at + place::PARENTS));
            spare.push((at + place::PARENTS + parents, at + place::SCRATCH));
        }
        let (from, to) = rng.pick(&spare);
        if from >= to {
            return false;
        }
        let within = from + rng.index(to - from);
        let at = rng.pick(&[from, to - 1, within]);
        self.set(at, rng.word());
        self.word(at) != 0
    }

    fn any_byte(&mut self, rng: &mut Rng) -> bool {
        let at = rng.index(self.bytes.len());
        self.bytes[at] ^= 1 << rng.below(8);
        true
    }

    fn cut(&mut self, rng: &mut Rng) -> bool {
        let length = self.bytes.len();
        let (any, small) = (rng.index(length), rng.index(2 * WORD * HEADER));
        let shorter = rng.pick(&[length - 1, length - WORD, any, small, 0]);
        self.bytes.truncate(shorter);
        true
    }

    fn longer(&mut self, rng: &mut Rng) -> bool {
        let more = 1 + rng.index(3 * WORD * PLACE);
        self.bytes.extend((0..more).map(|_| rng.next() as u8));
        true
    }

    /// A count of Q + 1 places, the last of which stands past the need.
    fn place_past(&mut self, rng: &mut Rng) -> bool {
        if self.places == 0 || self.places as u64 != self.q || self.bytes.len() != need(self.l, self.q) {
            return false;
        }
        let last = self.record(self.place(self.places - 1), PLACE);
        self.bytes.extend(last.into_iter().flat_map(u64::to_le_bytes));
        self.set(header::PLACES, self.q + 1);
        rng.one_in(2) || self.longer(rng)
    }
}
