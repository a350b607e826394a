//! What stands in for the crates and modules that the source uses, as document 01
//! names it, and for the values that a host supplies.

use std::cell::Cell;
use std::ops::Add;
use std::time::Duration;

/// Milliseconds, 64 bits.
#[derive(Clone, Copy, Debug, Eq, Hash, Ord, PartialEq, PartialOrd)]
pub struct Instant(pub u64);

impl Add<Duration> for Instant {
    type Output = Self;

    fn add(self, by: Duration) -> Self {
        let by = u64::try_from(by.as_millis()).expect("a span of seconds");
        Self(self.0.checked_add(by).expect("refusal 5 keeps clocks below the end"))
    }
}

thread_local! {
    static ANNOUNCEMENTS: Cell<usize> = const { Cell::new(0) };
    static CONSIDERED: Cell<u64> = const { Cell::new(0) };
    static COMBINED: Cell<Option<[u8; 32]>> = const { Cell::new(None) };
}

/// MAX_ANNOUNCEMENTS: the L of the tracker that is called.
pub fn max_announcements() -> usize {
    ANNOUNCEMENTS.get()
}

pub fn set_max_announcements(limit: usize) {
    ANNOUNCEMENTS.set(limit);
}

/// The plan's closure says so of every key that it considers.
pub fn note_considered() {
    CONSIDERED.set(CONSIDERED.get() + 1);
}

/// How many keys were considered since the last asking.
pub fn take_considered() -> u64 {
    CONSIDERED.take()
}

/// Gives `combined_package_hash` its answer for the next call.
pub fn supply_combined(combined: [u8; 32]) {
    COMBINED.set(Some(combined));
}

pub fn withdraw_combined() {
    COMBINED.set(None);
}

/// The random priorities of a batch, given by the caller, one an item.
pub struct Priorities<'a>(std::slice::Iter<'a, u64>);

impl<'a> Priorities<'a> {
    pub fn new(given: &'a [u64]) -> Self {
        Self(given.iter())
    }

    pub fn next_u64(&mut self) -> u64 {
        *self.0.next().expect("one priority an item")
    }
}

pub mod primitives {
    use std::cmp::Ordering;

    /// 32 bytes, byte 31 the most significant, ordered by number.
    #[derive(Clone, Copy, Debug, Eq, Hash, PartialEq)]
    pub struct Hash256([u8; 32]);

    impl Hash256 {
        pub fn from_le_bytes(bytes: &[u8; 32]) -> Self {
            Self(*bytes)
        }

        pub fn to_le_bytes(self) -> [u8; 32] {
            self.0
        }
    }

    impl Ord for Hash256 {
        fn cmp(&self, other: &Self) -> Ordering {
            self.0.iter().rev().cmp(other.0.iter().rev())
        }
    }

    impl PartialOrd for Hash256 {
        fn partial_cmp(&self, other: &Self) -> Option<Ordering> {
            Some(self.cmp(other))
        }
    }

    #[derive(Clone, Copy, Debug, Eq, Hash, Ord, PartialEq, PartialOrd)]
    pub struct Txid(pub Hash256);

    #[derive(Clone, Copy, Debug, Eq, Hash, Ord, PartialEq, PartialOrd)]
    pub struct Wtxid(pub Hash256);
}

pub mod bitcoin {
    #[derive(Clone, Copy, Debug, Eq, Hash, PartialEq)]
    pub struct Txid([u8; 32]);

    impl Txid {
        pub fn from_byte_array(bytes: [u8; 32]) -> Self {
            Self(bytes)
        }

        pub fn as_byte_array(&self) -> &[u8; 32] {
            &self.0
        }
    }

    #[derive(Clone, Copy, Debug, Eq, Hash, PartialEq)]
    pub struct Wtxid([u8; 32]);

    impl Wtxid {
        pub fn from_byte_array(bytes: [u8; 32]) -> Self {
            Self(bytes)
        }

        pub fn as_byte_array(&self) -> &[u8; 32] {
            &self.0
        }
    }

    /// Document 01's items. The crate has variants for blocks and errors too; the
    /// source treats them like an unknown type that is neither 6 nor 7.
    #[derive(Clone, Copy, Debug, Eq, PartialEq)]
    pub enum Inventory {
        Transaction(Txid),
        WitnessTransaction(Txid),
        WTx(Wtxid),
        Unknown { inv_type: u32, hash: [u8; 32] },
    }
}

pub mod packages {
    use super::COMBINED;
    use super::primitives::Wtxid;

    pub const MAX_GETPKGTXNS: usize = 100;
    /// BIP 331's type numbers.
    pub const MSG_ANCPKGINFO: u32 = 7;
    pub const MSG_PKGTXNS: u32 = 6;

    /// The bytes that the host supplied for this call.
    pub fn combined_package_hash(_wtxids: &[Wtxid]) -> [u8; 32] {
        COMBINED.get().expect("the host supplies the combined hash")
    }
}

pub mod wire {
    use super::primitives::Hash256;

    #[derive(Clone, Copy, Debug, Eq, Hash, Ord, PartialEq, PartialOrd)]
    pub struct ConnectionId(u64);

    impl ConnectionId {
        pub fn get(self) -> u64 {
            self.0
        }
    }

    /// 64 bits for the whole of it.
    #[derive(Clone, Copy, Debug, Eq, Hash, Ord, PartialEq, PartialOrd)]
    pub struct PeerSource(ConnectionId);

    impl PeerSource {
        pub fn new(connection: u64) -> Self {
            Self(ConnectionId(connection))
        }

        pub fn connection_id(self) -> ConnectionId {
            self.0
        }
    }

    /// Named by `Identity::known`, which no call here uses.
    pub trait TxInventory {
        fn have_tx(&self, hash: Hash256, witness: bool) -> bool;
    }
}
