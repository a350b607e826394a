//! Document 01's calls and replies as plain data, and what its refusals ask of a call.

use std::cmp::Ordering;

use crate::fields::{Field, Fields};

/// 32 bytes, byte 31 the most significant, ordered by number.
#[derive(Clone, Copy, Debug, Eq, Hash, PartialEq)]
pub struct Hash(pub [u8; 32]);

impl Ord for Hash {
    fn cmp(&self, other: &Self) -> Ordering {
        self.0.iter().rev().cmp(other.0.iter().rev())
    }
}

impl PartialOrd for Hash {
    fn partial_cmp(&self, other: &Self) -> Option<Ordering> {
        Some(self.cmp(other))
    }
}

#[derive(Clone, Copy, Debug, Eq, Hash, Ord, PartialEq, PartialOrd)]
pub enum Kind {
    Txid,
    Wtxid,
}

#[derive(Clone, Copy, Debug, Eq, Hash, Ord, PartialEq, PartialOrd)]
pub struct Key {
    pub kind: Kind,
    pub hash: Hash,
}

impl Key {
    pub fn txid(hash: Hash) -> Self {
        Self { kind: Kind::Txid, hash }
    }

    pub fn wtxid(hash: Hash) -> Self {
        Self { kind: Kind::Wtxid, hash }
    }
}

pub const TYPE_TRANSACTION: u32 = 1;
pub const TYPE_WITNESS_TRANSACTION: u32 = 0x4000_0001;
pub const TYPE_WTX: u32 = 5;

#[derive(Clone, Copy, Debug, Eq, Hash, PartialEq)]
pub enum Item {
    Transaction(Hash),
    WitnessTransaction(Hash),
    WTx(Hash),
    /// Never one of the three types above.
    Other(u32, Hash),
}

impl Item {
    pub fn key(self) -> Option<Key> {
        match self {
            Self::Transaction(hash) | Self::WitnessTransaction(hash) => Some(Key::txid(hash)),
            Self::WTx(hash) => Some(Key::wtxid(hash)),
            Self::Other(..) => None,
        }
    }

    /// Its type number and its hash.
    pub fn parts(self) -> (u32, Hash) {
        match self {
            Self::Transaction(hash) => (TYPE_TRANSACTION, hash),
            Self::WitnessTransaction(hash) => (TYPE_WITNESS_TRANSACTION, hash),
            Self::WTx(hash) => (TYPE_WTX, hash),
            Self::Other(number, hash) => (number, hash),
        }
    }
}

#[derive(Clone, Copy, Debug, Eq, PartialEq)]
pub struct Candidate {
    pub connection: u64,
    pub item: Item,
    pub ready: u64,
    pub preferred: bool,
    pub priority: u64,
}

/// An entry of a plan, of a checked, a taken or an arranged list.
#[derive(Clone, Copy, Debug, Eq, PartialEq)]
pub struct Entry {
    pub key: Key,
    pub candidate: Candidate,
}

/// Whether a field names connection 0 (refusal 4). Entries of a checked or taken list are no such names.
macro_rules! names_0 {
    (connection $value:ident) => {
        *$value == 0
    };
    (candidate $value:ident) => {
        $value.connection == 0
    };
    (witness $value:ident) => {
        $value.contains(&0)
    };
    ($other:ident $value:ident) => {{
        let _ = $value;
        false
    }};
}

/// The clock, if a field is that.
macro_rules! clock {
    (now $value:ident) => {
        Some(*$value)
    };
    ($other:ident $value:ident) => {{
        let _ = $value;
        None
    }};
}

/// Of each call its word, its name, its arguments in the order in which a line has them.
macro_rules! calls {
    ($($(#[$about:meta])* $word:literal $call:ident $({ $($field:ident: $kind:ty),* $(,)? })?;)*) => {
        /// Every call but opening, with its arguments.
        #[derive(Clone, Debug, Eq, PartialEq)]
        pub enum Call {
            $($(#[$about])* $call $({ $($field: $kind),* })?,)*
        }

        impl Call {
            fn read_listed(word: &[u8], fields: &mut Fields) -> Option<Self> {
                $(if word == $word.as_bytes() {
                    return Some(Self::$call { $($($field: Field::read(fields)?),*)? });
                })*
                None
            }

            fn listed_line(&self) -> String {
                let fields = match self {
                    $(Self::$call { $($($field),*)? } => vec![$word.to_owned(), $($(Field::text($field)),*)?],)*
                };
                fields.join(",")
            }

            /// Refusal 4: a connection that the caller names is 0.
            pub fn names_connection_0(&self) -> bool {
                match self {
                    $(Self::$call { $($($field),*)? } => false $($(|| names_0!($field $field))*)?,)*
                }
            }

            /// The `now` of the call, the only time that refusal 5 tests.
            pub fn clock(&self) -> Option<u64> {
                match self {
                    $(Self::$call { $($($field),*)? } => None $($(.or(clock!($field $field)))*)?,)*
                }
            }
        }
    };
}

calls! {
    "ann" Announce { candidate: Candidate };
    "par" RequestParent { candidate: Candidate };
    "sol" SolicitPackageInfo { connection: u64, hash: Hash, now: u64, parents: Vec<Hash> };
    "bad" Failed { key: Key, connection: u64, now: u64 };
    "off" Unclaim { key: Key, connection: u64 };
    "clm" ClaimPackage { connection: u64, hash: Hash, combined: Hash, now: u64, wtxids: Vec<Hash> };
    "beg" BeginPackageResolution { connection: u64, hash: Hash, combined: Hash, now: u64, wtxids: Vec<Hash> };
    "rel" ReleasePackage { connection: u64, hash: Hash, now: u64 };
    "want" Plan { now: u64, keys: Option<Vec<Key>> };
    "grab" Claim { now: u64, checked: Vec<Entry> };
    "swp" Sweep;
    "gone" Disconnected { connection: u64, now: u64 };
    "sum" Sum;
    "kin" AnnounceParents { connection: u64, now: u64, parents: Vec<Hash> };
    "lost" FailedPackageClaims { connection: u64, now: u64, combined: Vec<Hash> };
    "tear" TeardownPackageClaims { now: u64 };
    "drop" Forget { key: Key };
    "known" ForgetKnown { key: Key, now: u64 };
    "fail" FailedWithParents { key: Key, connection: u64, now: u64 };
    "info" FailedPackageInfo { key: Key, connection: u64, now: u64 };
    "who" PackageInfoOwner { key: Key, now: u64 };
    "inv" AnnounceTransactions { connection: u64, now: u64, preferred: bool, wtxid_source: bool, items: Vec<(Item, u64)> };
    "done" TransactionResponseCompleted { connection: u64, txid: Hash, wtxid: Hash, now: u64 };
    "nfd" TransactionNotFound { connection: u64, now: u64, items: Vec<Item> };
    "poll" PollGate { now: u64 };
    "ship" Arrange { witness: Vec<u64>, taken: Vec<Entry> };
    /// Document 02, request e: no call of the Rust.
    "whose" OwnersOf { hashes: Vec<Hash> };
}

/// Who owns a hash: the key under which it is owned, the connection, the deadline.
#[derive(Clone, Copy, Debug, Eq, PartialEq)]
pub struct Holding {
    pub key: Key,
    pub connection: u64,
    pub deadline: u64,
}

#[derive(Clone, Debug, Eq, PartialEq)]
pub enum Reply {
    Refused(u8),
    /// 0, 1, a count, or a connection with 0 for none.
    Number(u64),
    Keys(Vec<Key>),
    /// The connection's own keys, then the parents' keys.
    Gone(Vec<Key>, Vec<Key>),
    /// The count of keys considered, the entries, and when to look again (document 02, request c).
    Planned(u64, Vec<Entry>, Option<u64>),
    Entries(Vec<Entry>),
    /// Held, free for unpreferred newcomers and for preferred ones, permille.
    Sum(u64, u64, u64, u64),
    /// The count of keys passed, then for each hash its owner, if it has one.
    Owners(u64, Vec<Option<Holding>>),
}

/// The last clock that refusal 5 lets pass: 2^64 - 60,001.
pub const LAST_CLOCK: u64 = u64::MAX - 60_000;
pub const MAX_PARENTS: usize = 100;
/// Hashes whose owners are asked for together.
pub const MAX_ASKED_HASHES: usize = 1_024;

impl Call {
    /// The call of a word, whose arguments stand on the line.
    pub fn read(word: &[u8], fields: &mut Fields) -> Option<Self> {
        match word {
            b"plan" => Some(Self::Plan { now: Field::read(fields)?, keys: None }),
            _ => Self::read_listed(word, fields),
        }
    }

    /// The line that asks for it.
    pub fn line(&self) -> String {
        match self {
            Self::Plan { now, keys: None } => format!("plan,{now}"),
            _ => self.listed_line(),
        }
    }

    /// How many parents are given, repeats counted (refusal 6).
    pub fn parents_given(&self) -> usize {
        match self {
            Self::SolicitPackageInfo { parents, .. } | Self::AnnounceParents { parents, .. } => parents.len(),
            _ => 0,
        }
    }

    /// Hashes that are too many or not in strictly ascending order (refusal 13).
    pub fn wrong_hashes(&self) -> bool {
        match self {
            Self::OwnersOf { hashes } => {
                hashes.len() > MAX_ASKED_HASHES || hashes.windows(2).any(|pair| pair[0] >= pair[1])
            }
            _ => false,
        }
    }
}
