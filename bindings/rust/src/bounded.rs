//! Values within the bounds that a call tests, so that no call refuses them.

use core::fmt;
use core::time::Duration;

use crate::{Error, Txid};

/// The time of a call, in milliseconds of any clock, which may go back: at most 2^64 − 60,001, so that a deadline fits.
///
/// ```
/// use std::time::{SystemTime, UNIX_EPOCH};
/// use tracker::{Error, Now};
///
/// assert_eq!(Now::new(1_000)?.millis(), 1_000);
/// assert_eq!(Now::new(u64::MAX), Err(Error::NowTooLate));
/// let now = Now::try_from(SystemTime::now().duration_since(UNIX_EPOCH).expect("after 1970"))?;
/// # assert!(now < Now::LATEST);
/// # Ok::<(), Error>(())
/// ```
#[derive(Clone, Copy, Debug, Default, Eq, Hash, Ord, PartialEq, PartialOrd)]
pub struct Now(u64);

impl Now {
    /// The latest time that a call takes.
    pub const LATEST: Self = Self(u64::MAX - 60_000);

    /// The time of so many milliseconds; [`Error::NowTooLate`] past the latest.
    pub const fn new(millis: u64) -> Result<Self, Error> {
        if millis > Self::LATEST.0 { Err(Error::NowTooLate) } else { Ok(Self(millis)) }
    }

    /// Its milliseconds.
    pub const fn millis(self) -> u64 {
        self.0
    }
}

impl From<u32> for Now {
    fn from(millis: u32) -> Self {
        Self(millis.into())
    }
}

impl TryFrom<u64> for Now {
    type Error = Error;

    fn try_from(millis: u64) -> Result<Self, Error> {
        Self::new(millis)
    }
}

impl TryFrom<Duration> for Now {
    type Error = Error;

    /// The time so long after the clock's zero.
    fn try_from(since: Duration) -> Result<Self, Error> {
        u64::try_from(since.as_millis()).map_or(Err(Error::NowTooLate), Self::new)
    }
}

impl fmt::Display for Now {
    fn fmt(&self, f: &mut fmt::Formatter<'_>) -> fmt::Result {
        self.0.fmt(f)
    }
}

/// Parents of a transaction, at most 100, repeats counted.
///
/// ```
/// use tracker::{Error, Parents, Txid};
///
/// let spent = vec![Txid([1; 32]), Txid([2; 32])];
/// assert_eq!(Parents::new(&spent)?.txids(), spent);
/// assert_eq!(Parents::new(&[Txid([0; 32]); 101]), Err(Error::TooManyParents));
/// # Ok::<(), Error>(())
/// ```
#[derive(Clone, Copy, Debug, Default, Eq, Hash, PartialEq)]
pub struct Parents<'a>(&'a [Txid]);

impl<'a> Parents<'a> {
    /// The most that a call takes.
    pub const MAX: usize = 100;

    /// These parents; [`Error::TooManyParents`] past 100.
    pub const fn new(txids: &'a [Txid]) -> Result<Self, Error> {
        if txids.len() > Self::MAX { Err(Error::TooManyParents) } else { Ok(Self(txids)) }
    }

    /// Those of an array, whose length is tested when the program is compiled.
    ///
    /// ```compile_fail,E0080
    /// let _ = tracker::Parents::of(&[tracker::Txid([0; 32]); 101]);
    /// ```
    pub const fn of<const N: usize>(txids: &'a [Txid; N]) -> Self {
        const { assert!(N <= Self::MAX, "a call takes at most 100 parents") };
        Self(txids)
    }

    /// The parents in their order.
    pub const fn txids(self) -> &'a [Txid] {
        self.0
    }
}

impl<'a> TryFrom<&'a [Txid]> for Parents<'a> {
    type Error = Error;

    fn try_from(txids: &'a [Txid]) -> Result<Self, Error> {
        Self::new(txids)
    }
}
