//! The rules that a store's bytes keep, by name.

use std::fmt;

macro_rules! rules {
    ($($name:ident: $text:literal,)*) => {
        /// A broken rule, in the order in which `read` tests them.
        #[derive(Clone, Copy, Debug, Eq, Ord, PartialEq, PartialOrd)]
        pub enum Why {
            $($name,)*
        }

        impl Why {
            pub const ALL: &'static [Self] = &[$(Self::$name,)*];
        }

        impl fmt::Display for Why {
            fn fmt(&self, f: &mut fmt::Formatter<'_>) -> fmt::Result {
                f.pad(match self {
                    $(Self::$name => $text,)*
                })
            }
        }
    };
}

rules! {
    HeaderCut: "the store ends within the header",
    Format: "the format is not 1",
    LimitRange: "L is not 1 to 100,000",
    PlacesRange: "Q is not 1 to 4,096",
    Cut: "the store is shorter than its need",
    RowCount: "more rows than L",
    EntryCount: "more connections than L",
    PlaceCount: "more places than Q",
    PollTag: "next poll is neither 0 nor 1",
    PollTime: "a time without a next poll",
    KnownTag: "the known cursor is neither 0, 1 nor 2",
    KnownHash: "a hash without a known cursor",
    ReadyTag: "the ready cursor is neither 0, 1 nor 2",
    ReadyHash: "a hash without a ready cursor",
    HeaderSpare: "a spare word of the header is not zero",
    RowBits: "a row has a bit above 16",
    RowConnection: "a row has connection 0",
    RowDeadline: "a deadline without ownership",
    RowWitness: "item v under a Wtxid key",
    RowMark: "a mark under a Wtxid key",
    RowOrder: "the keys of the rows fall",
    MarkDiffers: "rows of one key differ in the mark",
    RowSpare: "a word behind the rows is not zero",
    TwoOwners: "two rows own one request",
    BothOwned: "both kinds of a hash are owned",
    TwiceAtKey: "a connection twice at a key",
    TwiceAtHash: "a connection under both kinds of a hash",
    Crowded: "more than eight rows of a hash",
    EntryOrder: "the connections do not ascend",
    EntryMissing: "a row's connection has no entry",
    EntryStray: "an entry of a connection without rows",
    EntryRows: "an entry's count of rows is wrong",
    EntryOwning: "an entry's count of owning rows is wrong",
    ManyRows: "more than 5,000 rows of a connection",
    ManyOwning: "more than 100 owning rows of a connection",
    EntrySpare: "a word behind the connections is not zero",
    PlaceOrder: "the hashes of the places do not ascend",
    Stage: "a stage is neither 1, 2 nor 3",
    FlagCombined: "a combined hash beside a package-info flag",
    FlagWtxids: "wtxids beside a package-info flag",
    NoWtxid: "a package of no wtxid",
    ManyWtxids: "more than 100 wtxids",
    WtxidSpare: "a word behind the wtxids is not zero",
    ManyParents: "more than 100 parents",
    ParentSpare: "a word behind the parents is not zero",
    ParentTwice: "a parent twice",
    Scratch: "a scratch word is not zero",
    PlaceStray: "a place without rows of its Wtxid key",
    PlaceIdle: "a place whose request has no owner",
    PlaceSpare: "a word behind the places is not zero",
}
