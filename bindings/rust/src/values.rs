//! What calls are given and answer: identities, items, connections, announcements.

use core::cmp::Ordering;
use core::fmt;
use core::num::NonZeroU64;

use crate::Error;
use crate::answers::{KEY_BYTES, put};

macro_rules! ids {
    ($($(#[$doc:meta])* $name:ident),*) => {$(
        $(#[$doc])*
        ///
        /// 32 bytes as they stand on the wire, byte 31 the most significant; shown from there, as explorers do, and ordered by
        /// number, as the tracker does.
        #[derive(Clone, Copy, Eq, Hash, PartialEq)]
        #[repr(transparent)]
        pub struct $name(
            /// The bytes.
            pub [u8; 32],
        );

        impl Ord for $name {
            fn cmp(&self, other: &Self) -> Ordering {
                self.0.iter().rev().cmp(other.0.iter().rev())
            }
        }

        impl PartialOrd for $name {
            fn partial_cmp(&self, other: &Self) -> Option<Ordering> {
                Some(self.cmp(other))
            }
        }

        impl fmt::Display for $name {
            fn fmt(&self, f: &mut fmt::Formatter<'_>) -> fmt::Result {
                self.0.iter().rev().try_for_each(|byte| write!(f, "{byte:02x}"))
            }
        }

        impl fmt::Debug for $name {
            fn fmt(&self, f: &mut fmt::Formatter<'_>) -> fmt::Result {
                write!(f, concat!(stringify!($name), "({})"), self)
            }
        }

        impl From<[u8; 32]> for $name {
            fn from(bytes: [u8; 32]) -> Self {
                Self(bytes)
            }
        }

        impl AsRef<[u8; 32]> for $name {
            fn as_ref(&self) -> &[u8; 32] {
                &self.0
            }
        }
    )*};
}

ids! {
    /// The identity of a transaction without its witness.
    Txid,
    /// The identity of a transaction with its witness.
    Wtxid
}

/// A request's key. The two keys of one hash are two requests. Every Txid key is before every Wtxid key.
#[derive(Clone, Copy, Debug, Eq, Hash, Ord, PartialEq, PartialOrd)]
pub enum Key {
    /// Of a transaction whose witness may be any.
    Txid(Txid),
    /// Of a transaction with its witness.
    Wtxid(Wtxid),
}

impl Key {
    /// The number of its kind, 0 or 1, and its hash.
    pub const fn parts(&self) -> (u64, &[u8; 32]) {
        match self {
            Self::Txid(Txid(hash)) => (0, hash),
            Self::Wtxid(Wtxid(hash)) => (1, hash),
        }
    }

    /// The key of a kind and a hash: 0 is a txid, any other number a wtxid.
    pub const fn from_parts(kind: u64, hash: [u8; 32]) -> Self {
        if kind == 0 { Self::Txid(Txid(hash)) } else { Self::Wtxid(Wtxid(hash)) }
    }

    /// As an element of a list that is given.
    pub fn to_bytes(&self) -> [u8; KEY_BYTES] {
        let (kind, hash) = self.parts();
        element(kind, hash)
    }
}

impl From<Txid> for Key {
    fn from(txid: Txid) -> Self {
        Self::Txid(txid)
    }
}

impl From<Wtxid> for Key {
    fn from(wtxid: Wtxid) -> Self {
        Self::Wtxid(wtxid)
    }
}

/// A number and a hash, as a key and an item stand in a list.
fn element(number: u64, hash: &[u8; 32]) -> [u8; KEY_BYTES] {
    let mut bytes = [0; KEY_BYTES];
    put(&mut bytes, 0, number);
    bytes[8..].copy_from_slice(hash);
    bytes
}

/// An item of an inv, a getdata or a notfound.
#[derive(Clone, Copy, Debug, Eq, Hash, PartialEq)]
pub enum Item {
    /// MSG_TX, type 1.
    Tx(Txid),
    /// MSG_WITNESS_TX, type 0x40000001.
    WitnessTx(Txid),
    /// MSG_WTX, type 5.
    WTx(Wtxid),
    /// Any other type. Announced it is not kept; not found, type 6 is a package by its combined hash, type 7 the package
    /// info of a wtxid.
    Other(u32, [u8; 32]),
}

impl Item {
    /// Its type's number, and its hash.
    pub const fn parts(&self) -> (u32, &[u8; 32]) {
        match self {
            Self::Tx(Txid(hash)) => (1, hash),
            Self::WitnessTx(Txid(hash)) => (0x4000_0001, hash),
            Self::WTx(Wtxid(hash)) => (5, hash),
            Self::Other(number, hash) => (*number, hash),
        }
    }

    /// The item of a type's number and a hash.
    pub const fn from_parts(number: u32, hash: [u8; 32]) -> Self {
        match number {
            1 => Self::Tx(Txid(hash)),
            0x4000_0001 => Self::WitnessTx(Txid(hash)),
            5 => Self::WTx(Wtxid(hash)),
            _ => Self::Other(number, hash),
        }
    }

    /// The key of the request that it stands for.
    pub const fn key(&self) -> Option<Key> {
        match self.parts() {
            (1 | 0x4000_0001, hash) => Some(Key::Txid(Txid(*hash))),
            (5, hash) => Some(Key::Wtxid(Wtxid(*hash))),
            _ => None,
        }
    }

    /// As an element of a list that is given.
    pub fn to_bytes(&self) -> [u8; KEY_BYTES] {
        let (number, hash) = self.parts();
        element(number.into(), hash)
    }
}

/// A connection: any 64-bit number that the host has for it, but 0.
///
/// ```
/// use tracker::{Connection, Error};
///
/// assert_eq!(Connection::new(7).map(Connection::get), Some(7));
/// assert_eq!(Connection::try_from(0), Err(Error::NoConnection));
/// ```
#[derive(Clone, Copy, Debug, Eq, Hash, Ord, PartialEq, PartialOrd)]
#[repr(transparent)]
pub struct Connection(NonZeroU64);

impl Connection {
    /// The connection with that number, unless it is 0.
    pub const fn new(number: u64) -> Option<Self> {
        match NonZeroU64::new(number) {
            Some(number) => Some(Self(number)),
            None => None,
        }
    }

    /// Its number.
    pub const fn get(self) -> u64 {
        self.0.get()
    }
}

impl From<NonZeroU64> for Connection {
    fn from(number: NonZeroU64) -> Self {
        Self(number)
    }
}

impl TryFrom<u64> for Connection {
    type Error = Error;

    fn try_from(number: u64) -> Result<Self, Error> {
        Self::new(number).ok_or(Error::NoConnection)
    }
}

impl fmt::Display for Connection {
    fn fmt(&self, f: &mut fmt::Formatter<'_>) -> fmt::Result {
        self.0.fmt(f)
    }
}

/// That a connection can deliver an item: from when on, and how it ranks.
///
/// ```
/// use tracker::{Announcement, Connection, Item, Txid};
///
/// let peer = Connection::new(7).expect("not 0");
/// let announced = Announcement::new(peer, Item::Tx(Txid([1; 32]))).preferred().ready_at(1_000).priority(5);
/// assert_eq!((announced.ready, announced.preferred, announced.priority), (1_000, true, 5));
/// ```
#[derive(Clone, Copy, Debug, Eq, Hash, PartialEq)]
pub struct Announcement {
    /// Who can deliver.
    pub connection: Connection,
    /// What.
    pub item: Item,
    /// The time from which it may be asked.
    pub ready: u64,
    /// Whether it may evict unpreferred ones, and goes before them.
    pub preferred: bool,
    /// The smaller goes first. The host draws it.
    pub priority: u64,
}

impl Announcement {
    /// Ready at once, unpreferred, of priority 0.
    pub const fn new(connection: Connection, item: Item) -> Self {
        Self { connection, item, ready: 0, preferred: false, priority: 0 }
    }

    /// The same, preferred.
    pub const fn preferred(self) -> Self {
        Self { preferred: true, ..self }
    }

    /// The same, ready from that time on.
    pub const fn ready_at(self, ready: u64) -> Self {
        Self { ready, ..self }
    }

    /// The same with that priority.
    pub const fn priority(self, priority: u64) -> Self {
        Self { priority, ..self }
    }
}
