//! Lists that are given to a call, as bytes (docs/API.md, "Arguments and answers as bytes").

use alloc::vec::Vec;

use crate::{Connection, Entry, Item, Key, Txid, Wtxid};

/// A value as an element of a list that is given.
pub(crate) trait Listed {
    fn append(&self, list: &mut Vec<u8>);
}

/// The list as bytes.
pub(crate) fn listed<T: Listed>(values: &[T]) -> Vec<u8> {
    let mut list = Vec::new();
    values.iter().for_each(|value| value.append(&mut list));
    list
}

macro_rules! listed {
    ($($type:ty: |$value:ident| $bytes:expr),* $(,)?) => {$(
        impl Listed for $type {
            fn append(&self, list: &mut Vec<u8>) {
                let $value = self;
                list.extend($bytes);
            }
        }
    )*};
}

listed! {
    u64: |word| word.to_le_bytes(),
    Connection: |connection| connection.get().to_le_bytes(),
    Txid: |txid| txid.0,
    Wtxid: |wtxid| wtxid.0,
    [u8; 32]: |hash| hash,
    Key: |key| key.to_bytes(),
    Item: |item| item.to_bytes(),
    Entry: |entry| entry.to_bytes(),
}

/// Items with a priority each, as the two lists that a call takes.
pub(crate) fn offers(items: &[(Item, u64)]) -> (Vec<u8>, Vec<u8>) {
    let (mut list, mut priorities) = (Vec::new(), Vec::new());
    for (item, priority) in items {
        item.append(&mut list);
        priority.append(&mut priorities);
    }
    (list, priorities)
}
