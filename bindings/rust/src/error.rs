//! Refusals.

use core::fmt;

/// Why a call was refused: a row of the table of refusals (docs/API.md), with its number. Nothing was changed.
#[derive(Clone, Copy, Debug, Eq, Hash, PartialEq)]
#[repr(u64)]
pub enum Error {
    /// Opening, reading a listing: the store is shorter than the need of its sizes.
    StoreTooShort = 1,
    /// Opening: L is not 1 to 100,000, or Q is not 1 to 4,096.
    SizesOutOfRange = 2,
    /// The bytes write no sound state.
    NotSound = 3,
    /// A connection is 0.
    NoConnection = 4,
    /// `now` is above 2^64 - 60,001.
    NowTooLate = 5,
    /// More than 100 parents are given.
    TooManyParents = 6,
    /// The answer buffer is shorter than its need.
    AnswerTooShort = 7,
    /// A solicitation would be taken, and all package places are held.
    NoPlace = 8,
    /// The bytes are no inventory payload, or the items make none.
    BadPayload = 10,
    /// Reading a listing: the text is none.
    NotAListing = 11,
    /// Reading a listing: the state that it lists is not sound.
    ListingNotSound = 12,
    /// Hashes are more than 1,024, or not in strictly ascending order.
    WrongHashes = 13,
}

impl Error {
    /// Every refusal, by its number.
    pub const ALL: [Self; 12] = [
        Self::StoreTooShort,
        Self::SizesOutOfRange,
        Self::NotSound,
        Self::NoConnection,
        Self::NowTooLate,
        Self::TooManyParents,
        Self::AnswerTooShort,
        Self::NoPlace,
        Self::BadPayload,
        Self::NotAListing,
        Self::ListingNotSound,
        Self::WrongHashes,
    ];

    /// Its number in the table.
    pub const fn number(self) -> u64 {
        self as u64
    }

    /// The refusal with that number, if there is one.
    pub fn from_number(number: u64) -> Option<Self> {
        Self::ALL.into_iter().find(|error| error.number() == number)
    }
}

impl fmt::Display for Error {
    fn fmt(&self, f: &mut fmt::Formatter<'_>) -> fmt::Result {
        f.write_str(match self {
            Self::StoreTooShort => "the store is shorter than its sizes need",
            Self::SizesOutOfRange => "L is not 1 to 100,000, or Q is not 1 to 4,096",
            Self::NotSound => "the bytes of the store write no sound state",
            Self::NoConnection => "0 is no connection",
            Self::NowTooLate => "now is above 2^64 - 60,001",
            Self::TooManyParents => "more than 100 parents are given",
            Self::AnswerTooShort => "the answer is shorter than its need",
            Self::NoPlace => "all package places are held",
            Self::BadPayload => "no inventory payload, or items that make none",
            Self::WrongHashes => "more than 1,024 hashes, or not in strictly ascending order",
            Self::NotAListing => "the text is no listing",
            Self::ListingNotSound => "the state that the text lists is not sound",
        })
    }
}

impl core::error::Error for Error {}

/// The value of a call that was carried out, else its refusal.
pub(crate) fn done<T>(status: u64, value: T) -> Result<T, Error> {
    match status {
        0 => Ok(value),
        _ => Err(Error::from_number(status).expect("a status of the table")),
    }
}
