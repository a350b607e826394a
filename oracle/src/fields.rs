//! The fields of event lines: each value's only text, read and written.

use crate::calls::{Candidate, Entry, Hash, Item, Key, TYPE_TRANSACTION, TYPE_WITNESS_TRANSACTION, TYPE_WTX};
use crate::write;

/// The fields of a line that are still to be read.
pub struct Fields<'a> {
    rest: Option<&'a [u8]>,
}

impl<'a> Fields<'a> {
    pub fn new(text: &'a [u8]) -> Self {
        Self { rest: Some(text) }
    }

    pub fn field(&mut self) -> Option<&'a [u8]> {
        let rest = self.rest?;
        match rest.iter().position(|byte| *byte == b',') {
            Some(comma) => {
                self.rest = Some(&rest[comma + 1..]);
                Some(&rest[..comma])
            }
            None => self.rest.take(),
        }
    }

    /// Passes over the next field, if it is that text.
    pub fn skip(&mut self, text: &[u8]) -> bool {
        let mut behind = Fields { rest: self.rest };
        let is = behind.field() == Some(text);
        if is {
            self.rest = behind.rest;
        }
        is
    }

    /// `value`, if no field is left.
    pub fn end<T>(&self, value: T) -> Option<T> {
        self.rest.is_none().then_some(value)
    }

    pub fn read<T: Field>(&mut self) -> Option<T> {
        T::read(self)
    }
}

/// A value that stands on a line in a field or several.
pub trait Field: Sized {
    fn read(fields: &mut Fields) -> Option<Self>;

    fn text(&self) -> String;
}

impl Field for u64 {
    fn read(fields: &mut Fields) -> Option<Self> {
        number(fields.field()?)
    }

    fn text(&self) -> String {
        self.to_string()
    }
}

impl Field for bool {
    fn read(fields: &mut Fields) -> Option<Self> {
        match fields.field()? {
            b"0" => Some(false),
            b"1" => Some(true),
            _ => None,
        }
    }

    fn text(&self) -> String {
        u8::from(*self).to_string()
    }
}

impl Field for Hash {
    fn read(fields: &mut Fields) -> Option<Self> {
        hash(fields.field()?)
    }

    fn text(&self) -> String {
        write::hash(*self)
    }
}

impl Field for Key {
    fn read(fields: &mut Fields) -> Option<Self> {
        key(fields.field()?)
    }

    fn text(&self) -> String {
        write::key(*self)
    }
}

impl Field for Item {
    fn read(fields: &mut Fields) -> Option<Self> {
        item(fields.field()?)
    }

    fn text(&self) -> String {
        write::item(*self)
    }
}

impl Field for Candidate {
    fn read(fields: &mut Fields) -> Option<Self> {
        Some(Self {
            connection: fields.read()?,
            item: fields.read()?,
            ready: fields.read()?,
            preferred: fields.read()?,
            priority: fields.read()?,
        })
    }

    fn text(&self) -> String {
        write::candidate(self)
    }
}

impl Field for Entry {
    fn read(fields: &mut Fields) -> Option<Self> {
        Some(Self { key: fields.read()?, candidate: fields.read()? })
    }

    fn text(&self) -> String {
        write::entry(self)
    }
}

/// An item and its priority.
impl Field for (Item, u64) {
    fn read(fields: &mut Fields) -> Option<Self> {
        Some((fields.read()?, fields.read()?))
    }

    fn text(&self) -> String {
        format!("{},{}", self.0.text(), self.1)
    }
}

/// A length and then that many elements.
impl<T: Field> Field for Vec<T> {
    fn read(fields: &mut Fields) -> Option<Self> {
        let length: u64 = fields.read()?;
        let mut list = Vec::new();
        for _ in 0..length {
            list.push(fields.read()?);
        }
        Some(list)
    }

    fn text(&self) -> String {
        write::counted(self.len() as u64, self.iter().map(Field::text))
    }
}

/// A list that is given. One that is not has no field.
impl<T: Field> Field for Option<Vec<T>> {
    fn read(fields: &mut Fields) -> Option<Self> {
        fields.read().map(Some)
    }

    fn text(&self) -> String {
        self.as_ref().map(Field::text).unwrap_or_default()
    }
}

fn number(text: &[u8]) -> Option<u64> {
    if text.is_empty() || (text[0] == b'0' && text.len() > 1) {
        return None;
    }
    text.iter().try_fold(0u64, |value, byte| {
        if !byte.is_ascii_digit() {
            return None;
        }
        value.checked_mul(10)?.checked_add(u64::from(byte - b'0'))
    })
}

fn hash(text: &[u8]) -> Option<Hash> {
    if text.is_empty() || text.len() > 64 || (text[0] == b'0' && text.len() > 1) {
        return None;
    }
    let mut bytes = [0u8; 32];
    for (at, digit) in text.iter().rev().enumerate() {
        let value = match digit {
            b'0'..=b'9' => digit - b'0',
            b'a'..=b'f' => digit - b'a' + 10,
            _ => return None,
        };
        bytes[at / 2] |= value << (4 * (at % 2));
    }
    Some(Hash(bytes))
}

fn key(text: &[u8]) -> Option<Key> {
    let (letter, rest) = text.split_first()?;
    match letter {
        b't' => Some(Key::txid(hash(rest)?)),
        b'w' => Some(Key::wtxid(hash(rest)?)),
        _ => None,
    }
}

fn item(text: &[u8]) -> Option<Item> {
    let (letter, rest) = text.split_first()?;
    match letter {
        b't' => Some(Item::Transaction(hash(rest)?)),
        b'v' => Some(Item::WitnessTransaction(hash(rest)?)),
        b'w' => Some(Item::WTx(hash(rest)?)),
        b'o' => {
            let colon = rest.iter().position(|byte| *byte == b':')?;
            let kind = u32::try_from(number(&rest[..colon])?).ok()?;
            if [TYPE_TRANSACTION, TYPE_WITNESS_TRANSACTION, TYPE_WTX].contains(&kind) {
                return None;
            }
            Some(Item::Other(kind, hash(&rest[colon + 1..])?))
        }
        _ => None,
    }
}
