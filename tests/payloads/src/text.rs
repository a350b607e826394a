//! Payloads read and written from the text of document 02, request a, alone.

#[derive(Clone, Copy, Debug, Eq, PartialEq)]
pub enum Kind {
    T,
    V,
    W,
    Other(u32),
}

#[derive(Clone, Copy, Debug, Eq, PartialEq)]
pub struct Item {
    pub kind: Kind,
    pub hash: [u8; 32],
}

pub const MOST: u64 = 50_000;

/// "Types 1, 0x40000001 and 5 are t, v and w; every other type is kept with its number."
pub fn kind_of(number: u32) -> Kind {
    match number {
        1 => Kind::T,
        0x4000_0001 => Kind::V,
        5 => Kind::W,
        other => Kind::Other(other),
    }
}

pub fn number_of(kind: Kind) -> u32 {
    match kind {
        Kind::T => 1,
        Kind::V => 0x4000_0001,
        Kind::W => 5,
        Kind::Other(number) => number,
    }
}

/// A CompactSize in the form of so many bytes: 1, 3, 5 or 9.
pub fn in_form(n: u64, bytes: usize) -> Vec<u8> {
    let mark = match bytes {
        1 => return vec![n as u8],
        3 => 0xfd,
        5 => 0xfe,
        _ => 0xff,
    };
    [&[mark], &n.to_le_bytes()[..bytes - 1]].concat()
}

/// "in its shortest form"
pub fn shortest(n: u64) -> Vec<u8> {
    let bytes = match n {
        0..=0xfc => 1,
        0xfd..=0xffff => 3,
        0x1_0000..=0xffff_ffff => 5,
        _ => 9,
    };
    in_form(n, bytes)
}

/// The count in front and what follows it.
fn count(payload: &[u8]) -> Option<(u64, &[u8])> {
    let (first, rest) = payload.split_first()?;
    let more = match first {
        0xfd => 2,
        0xfe => 4,
        0xff => 8,
        small => return Some((u64::from(*small), rest)),
    };
    let (digits, rest) = rest.split_at_checked(more)?;
    let n = digits.iter().rev().fold(0, |n, digit| n << 8 | u64::from(*digit));
    (shortest(n).len() == 1 + more).then_some((n, rest))
}

/// The items of a payload, if it is one.
pub fn read(payload: &[u8]) -> Option<Vec<Item>> {
    let (n, rest) = count(payload)?;
    if n > MOST || rest.len() as u64 != 36 * n {
        return None;
    }
    let item = |bytes: &[u8]| Item {
        kind: kind_of(u32::from_le_bytes(bytes[..4].try_into().unwrap())),
        hash: bytes[4..].try_into().unwrap(),
    };
    Some(rest.chunks(36).map(item).collect())
}

/// The payload of a list, if it has one.
pub fn write(items: &[Item]) -> Option<Vec<u8>> {
    if items.len() as u64 > MOST || items.iter().any(|item| kind_of(number_of(item.kind)) != item.kind) {
        return None;
    }
    let mut payload = shortest(items.len() as u64);
    for item in items {
        payload.extend(number_of(item.kind).to_le_bytes());
        payload.extend(item.hash);
    }
    Some(payload)
}

// ---- lists of items, as the library's calls are given them and answer them (docs/API.md): a word for the type, then the hash

/// The list of the items, as the reader answers it. Other items of the three types have no word below 2^32.
pub fn list(items: &[Item]) -> Vec<u8> {
    let mut list = Vec::with_capacity(40 * items.len());
    for item in items {
        let plain = kind_of(number_of(item.kind)) == item.kind;
        list.extend((u64::from(number_of(item.kind)) + if plain { 0 } else { 1 << 32 }).to_le_bytes());
        list.extend(item.hash);
    }
    list
}

/// The items of any list: a word from 2^32 on is an other item of the type that its low half is; a rest is no item.
pub fn listed(list: &[u8]) -> Vec<Item> {
    let item = |bytes: &[u8]| {
        let word = u64::from_le_bytes(bytes[..8].try_into().unwrap());
        let kind = if word >> 32 == 0 { kind_of(word as u32) } else { Kind::Other(word as u32) };
        Item { kind, hash: bytes[8..].try_into().unwrap() }
    };
    list.chunks_exact(40).map(item).collect()
}
