//! The public calls, a file each: how a call is drawn, what it hands out and may refuse, how the library is called.

use oracle::calls::{Call, Hash, Key, Kind, MAX_PARENTS, Reply};

use crate::ask::{Given, KEY, Lent};
use crate::draw::Draw;
use crate::reference::Reference;
use crate::tally::Tally;

macro_rules! in_group {
    (packages $name:ident) => {
        &$name::SPEC
    };
}

macro_rules! listed {
    ($($name:ident $(of $group:ident)?,)*) => {
        $(mod $name;)*

        pub static ALL: &[&Spec] = &[$(&$name::SPEC,)*];
        /// The calls that end a request or its owner's part in it, and those of packages.
        pub static PACKAGES: &[&Spec] = &[$($(in_group!($group $name),)?)*];
        pub static OPEN: &Spec = &open::SPEC;
        pub static PLANS: [&Spec; 2] = [&plan::SPEC, &plan_given::SPEC];
        pub static CLAIM: &Spec = &claim::SPEC;
    };
}

pub use counts::{case as counts_case, counted};

/// The call that tells the owners of many hashes.
pub static OWNERS: &[&Spec] = &[&owners_of::SPEC];

listed! {
    open,
    sum,
    counts,
    announce,
    request_parent,
    announce_parents,
    announce_transactions,
    failed of packages,
    unclaim of packages,
    forget of packages,
    forget_known of packages,
    failed_package_info of packages,
    package_info_owner of packages,
    failed_with_parents of packages,
    transaction_response_completed,
    transaction_not_found,
    disconnected of packages,
    solicit_package_info of packages,
    claim_package of packages,
    begin_package_resolution of packages,
    release_package of packages,
    failed_package_claims of packages,
    teardown_package_claims of packages,
    plan,
    plan_given,
    claim,
    arrange,
    owners_of,
    sweep,
    poll_gate,
}

/// What a call that is carried out hands to the caller.
#[derive(Clone, Copy, Debug, Eq, PartialEq)]
pub enum Hands {
    Nothing,
    Number,
    /// Keys in the answer buffer, and their count.
    Keys,
    /// The keys of a connection that left and those of the parents behind them, and both counts.
    Departure,
    /// Entries in the answer buffer, and their count.
    Entries,
    /// The count of keys considered, entries with theirs, and when to look again.
    Plan,
    Figures,
    /// The count of keys passed, and the owner of each hash in the answer buffer.
    Owners,
    /// The counts of a connection.
    Counts,
}

/// The call that is carried out in the place of this one, where a rule is mistaken.
pub type Mistake = fn(&Call) -> Option<Call>;

pub struct Spec {
    pub name: &'static str,
    /// How often it is drawn beside the others: in runs of announcements, in runs of packages.
    pub weights: [u64; 2],
    /// The numbers of the refusals that it can meet.
    pub refusals: &'static [u64],
    pub hands: Hands,
    /// Bytes that its answer buffer needs, at L and Q.
    pub need: fn(&Given, [u64; 2]) -> usize,
    pub draw: fn(&mut Draw, &Reference) -> Given,
    /// The exported function.
    pub link: fn(&Given, Lent) -> u64,
    /// The call on the reference; without it the reference is written anew from the Rust's state.
    pub follow: Option<fn(&mut Reference, &Call, &mut Tally) -> Reply>,
    /// Cases that a long run must meet, and which of them a call that is carried out on this state is.
    pub cases: &'static [&'static str],
    pub case: fn(&Call, &Reference, &Reply) -> &'static str,
    /// Further ones of them, of which a call can be several.
    pub also: fn(&Call, &Reference, &Reply) -> Vec<&'static str>,
    pub mistakes: &'static [(&'static str, Mistake)],
}

/// What most calls have in common.
const COMMON: Spec = Spec {
    name: "",
    weights: [1, 10],
    refusals: &[],
    hands: Hands::Number,
    need: |_, _| 0,
    draw: |_, _| unreachable!("every call is drawn its own way"),
    link: |_, _| unreachable!("every call is linked"),
    follow: None,
    cases: &[],
    case: |_, _, _| "",
    also: |_, _, _| Vec::new(),
    mistakes: &[],
};

/// Bytes of a list of keys that has no need of its own.
fn keys_need(_: &Given, _: [u64; 2]) -> usize {
    KEY * (MAX_PARENTS + 1)
}

/// Bytes of the keys that package claims list.
fn claims_need(_: &Given, [_, q]: [u64; 2]) -> usize {
    KEY * (MAX_PARENTS + 1) * q as usize
}

/// A key as C names it. Any number but 0 is a Wtxid's kind.
fn named(key: &Key) -> (u64, &[u8; 32]) {
    let Hash(hash) = &key.hash;
    match key.kind {
        Kind::Txid => (0, hash),
        Kind::Wtxid => (if hash[0] % 2 == 0 { 1 } else { 1 << (hash[1] % 64) }, hash),
    }
}

/// Whether a reply lists a key or is not 0.
fn some(reply: &Reply) -> bool {
    match reply {
        Reply::Number(number) => *number != 0,
        Reply::Keys(keys) => !keys.is_empty(),
        Reply::Gone(own, _) => !own.is_empty(),
        Reply::Entries(entries) | Reply::Planned(_, entries, _) => !entries.is_empty(),
        _ => true,
    }
}
