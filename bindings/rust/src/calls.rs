//! The checked calls.

use core::ops::Range;

use crate::bytes::{Candidate, Left, Plan};
use crate::error::done;
use crate::{Counts, Error, Figures, Key, abi};

// begin: written by bindings/generate out of crates/exports/src

/// Makes the store an empty tracker for l announcements and q package places.
pub fn open(store: &mut [u8], l: u64, q: u64) -> Result<(), Error> {
    // SAFETY: what is lent is lent for the call, and what it may write is lent to it alone.
    let status = unsafe {
        abi::tracker_open(store.as_mut_ptr(), store.len(), l, q)
    };
    done(status, ())
}

/// Whether the bytes, as far as their need, write a sound state: what a call tests first.
pub fn sound(store: &[u8]) -> bool {
    // SAFETY: what is lent is lent for the call, and what it may write is lent to it alone.
    unsafe {
        abi::tracker_sound(store.as_ptr(), store.len())
    }
}

/// How many announcements are held, how many more fit of unpreferred newcomers and of preferred ones, and
/// how full the tracker is in thousandths. Refused, it hands nothing out.
pub fn sum(store: &[u8]) -> Result<Figures, Error> {
    let mut held = 0;
    let mut room = 0;
    let mut preferred_room = 0;
    let mut permille = 0;
    // SAFETY: what is lent is lent for the call, and what it may write is lent to it alone.
    let status = unsafe {
        abi::tracker_sum(store.as_ptr(), store.len(), &mut held, &mut room, &mut preferred_room,
            &mut permille)
    };
    done(status, Figures { held, free: room, preferred_free: preferred_room, permille })
}

/// What a claim has taken, given in 112 bytes an entry, stands in the answer by ascending connection, then
/// claim order: so many as `count` says. A t item of a marked request turns v for a witness connection:
/// those of the list, which has 8 bytes for each, least first. The store is only read.
pub fn arrange(store: &[u8], witnesses: &[u8], taken: &[u8], answer: &mut [u8]) -> Result<usize, Error> {
    let mut count = 0;
    // SAFETY: what is lent is lent for the call, and what it may write is lent to it alone.
    let status = unsafe {
        abi::tracker_arrange(store.as_ptr(), store.len(), witnesses.as_ptr(), witnesses.len(), taken.as_ptr(),
            taken.len(), answer.as_mut_ptr(), answer.len(), &mut count)
    };
    done(status, count as usize)
}

/// One connection's part of an arranged list, which is given in 112 bytes an entry: `count` entries from the
/// entry `first` on. Of a list that is not arranged it is some part. It takes no store, and is never
/// refused.
pub fn part(list: &[u8], connection: u64) -> Result<Range<usize>, Error> {
    let mut first = 0;
    let mut count = 0;
    // SAFETY: what is lent is lent for the call, and what it may write is lent to it alone.
    let status = unsafe {
        abi::tracker_part(list.as_ptr(), list.len(), connection, &mut first, &mut count)
    };
    done(status, first as usize..(first + count) as usize)
}

/// A connection can deliver an item. The reply is 1 if it is kept.
pub fn announce(store: &mut [u8], candidate: &Candidate) -> Result<bool, Error> {
    let &Candidate { connection, item_type, ref hash, ready, preferred, priority } = candidate;
    let mut reply = 0;
    // SAFETY: what is lent is lent for the call, and what it may write is lent to it alone.
    let status = unsafe {
        abi::tracker_announce(store.as_mut_ptr(), store.len(), connection, item_type, hash, ready, preferred,
            priority, &mut reply)
    };
    done(status, reply == 1)
}

/// The same for a parent that is missing.
pub fn request_parent(store: &mut [u8], candidate: &Candidate) -> Result<bool, Error> {
    let &Candidate { connection, item_type, ref hash, ready, preferred, priority } = candidate;
    let mut reply = 0;
    // SAFETY: what is lent is lent for the call, and what it may write is lent to it alone.
    let status = unsafe {
        abi::tracker_request_parent(store.as_mut_ptr(), store.len(), connection, item_type, hash, ready,
            preferred, priority, &mut reply)
    };
    done(status, reply == 1)
}

/// Requests the parents of a transaction, 32 bytes each. The keys of those that are kept stand in the
/// answer: so many as `count` says.
pub fn announce_parents(
    store: &mut [u8],
    connection: u64,
    parents: &[[u8; 32]],
    now: u64,
    answer: &mut [u8],
) -> Result<usize, Error> {
    let parents = parents.as_flattened();
    let mut count = 0;
    // SAFETY: what is lent is lent for the call, and what it may write is lent to it alone.
    let status = unsafe {
        abi::tracker_announce_parents(store.as_mut_ptr(), store.len(), connection, parents.as_ptr(),
            parents.len(), now, answer.as_mut_ptr(), answer.len(), &mut count)
    };
    done(status, count as usize)
}

/// How many announcements the connection has, and how many requests it owns, deadlines over or not.
pub fn counts(store: &[u8], connection: u64) -> Result<Counts, Error> {
    let mut announced = 0;
    let mut owned = 0;
    // SAFETY: what is lent is lent for the call, and what it may write is lent to it alone.
    let status = unsafe {
        abi::tracker_counts(store.as_ptr(), store.len(), connection, &mut announced, &mut owned)
    };
    done(status, Counts { announced, owned })
}

/// The connection leaves every request that it is a candidate of. The keys of these stand in the answer, so
/// many as `own` says, and behind them the keys of parents that are announced for the candidates left, so
/// many as `parents` says.
pub fn disconnected(store: &mut [u8], connection: u64, now: u64, answer: &mut [u8]) -> Result<Left, Error> {
    let mut own = 0;
    let mut parents = 0;
    // SAFETY: what is lent is lent for the call, and what it may write is lent to it alone.
    let status = unsafe {
        abi::tracker_disconnected(store.as_mut_ptr(), store.len(), connection, now, answer.as_mut_ptr(),
            answer.len(), &mut own, &mut parents)
    };
    done(status, Left { own: own as usize, parents: parents as usize })
}

/// The owner of the request at the key failed to deliver. The reply is 0 unless the connection owns it and
/// its package is not Enqueued.
pub fn failed(store: &mut [u8], key: &Key, connection: u64, now: u64) -> Result<bool, Error> {
    let (kind, hash) = key.parts();
    let mut reply = 0;
    // SAFETY: what is lent is lent for the call, and what it may write is lent to it alone.
    let status = unsafe {
        abi::tracker_failed(store.as_mut_ptr(), store.len(), kind, hash, connection, now, &mut reply)
    };
    done(status, reply == 1)
}

/// failed, and the parents of the request are requested of the connection. The key and those of the parents
/// that are kept stand in the answer: so many as `count` says, and none where failed would reply 0.
pub fn failed_with_parents(
    store: &mut [u8],
    key: &Key,
    connection: u64,
    now: u64,
    answer: &mut [u8],
) -> Result<usize, Error> {
    let (kind, hash) = key.parts();
    let mut count = 0;
    // SAFETY: what is lent is lent for the call, and what it may write is lent to it alone.
    let status = unsafe {
        abi::tracker_failed_with_parents(store.as_mut_ptr(), store.len(), kind, hash, connection, now,
            answer.as_mut_ptr(), answer.len(), &mut count)
    };
    done(status, count as usize)
}

/// The owner gives the request back and stays a candidate. Carried out, it replies 1.
pub fn unclaim(store: &mut [u8], key: &Key, connection: u64) -> Result<(), Error> {
    let (kind, hash) = key.parts();
    // SAFETY: what is lent is lent for the call, and what it may write is lent to it alone.
    let status = unsafe {
        abi::tracker_unclaim(store.as_mut_ptr(), store.len(), kind, hash, connection)
    };
    done(status, ())
}

/// The request at the key goes. Carried out, it replies 1.
pub fn forget(store: &mut [u8], key: &Key) -> Result<(), Error> {
    let (kind, hash) = key.parts();
    // SAFETY: what is lent is lent for the call, and what it may write is lent to it alone.
    let status = unsafe {
        abi::tracker_forget(store.as_mut_ptr(), store.len(), kind, hash)
    };
    done(status, ())
}

/// The transaction of the request at the key is known: the request goes, and its parents are announced for
/// its owner. It stays if a package is still to come of it. Carried out, it replies 1.
pub fn forget_known(store: &mut [u8], key: &Key, now: u64) -> Result<(), Error> {
    let (kind, hash) = key.parts();
    // SAFETY: what is lent is lent for the call, and what it may write is lent to it alone.
    let status = unsafe {
        abi::tracker_forget_known(store.as_mut_ptr(), store.len(), kind, hash, now)
    };
    done(status, ())
}

/// failed, of a connection that is asked for package info. The reply is 0 unless it is.
pub fn failed_package_info(store: &mut [u8], key: &Key, connection: u64, now: u64) -> Result<bool, Error> {
    let (kind, hash) = key.parts();
    let mut reply = 0;
    // SAFETY: what is lent is lent for the call, and what it may write is lent to it alone.
    let status = unsafe {
        abi::tracker_failed_package_info(store.as_mut_ptr(), store.len(), kind, hash, connection, now,
            &mut reply)
    };
    done(status, reply == 1)
}

/// The connection that is asked for package info of the request at the key, and in time; 0, if there is
/// none.
pub fn package_info_owner(store: &[u8], key: &Key, now: u64) -> Result<Option<u64>, Error> {
    let (kind, hash) = key.parts();
    let mut owner = 0;
    // SAFETY: what is lent is lent for the call, and what it may write is lent to it alone.
    let status = unsafe {
        abi::tracker_package_info_owner(store.as_ptr(), store.len(), kind, hash, now, &mut owner)
    };
    done(status, (owner != 0).then_some(owner))
}

/// The listing of the tracker's state, in the answer: so many bytes as `written` says. The store is only
/// read.
pub fn save(store: &[u8], answer: &mut [u8]) -> Result<usize, Error> {
    let mut written = 0;
    // SAFETY: what is lent is lent for the call, and what it may write is lent to it alone.
    let status = unsafe {
        abi::tracker_save(store.as_ptr(), store.len(), answer.as_mut_ptr(), answer.len(), &mut written)
    };
    done(status, written as usize)
}

/// Makes the store the tracker that the text lists. It takes any store that is long enough, whose old bytes
/// are not looked at; bytes past the need stay.
pub fn restore(store: &mut [u8], text: &[u8]) -> Result<(), Error> {
    // SAFETY: what is lent is lent for the call, and what it may write is lent to it alone.
    let status = unsafe {
        abi::tracker_restore(store.as_mut_ptr(), store.len(), text.as_ptr(), text.len())
    };
    done(status, ())
}

/// Who owns each of up to 1,024 hashes, which are given in strictly ascending order, 32 bytes each: the kind
/// (0 nobody, 1 Txid, 2 Wtxid), the connection and the deadline stand in the answer, 8 bytes each, least
/// first. So many held keys as `passed` says have a hash that is not above the greatest of them. The store
/// is only read.
pub fn owners_of(store: &[u8], hashes: &[[u8; 32]], answer: &mut [u8]) -> Result<u64, Error> {
    let hashes = hashes.as_flattened();
    let mut passed = 0;
    // SAFETY: what is lent is lent for the call, and what it may write is lent to it alone.
    let status = unsafe {
        abi::tracker_owners_of(store.as_ptr(), store.len(), hashes.as_ptr(), hashes.len(),
            answer.as_mut_ptr(), answer.len(), &mut passed)
    };
    done(status, passed)
}

/// The connection is asked for the package info of the transaction with that wtxid, whose parents are given
/// in 32 bytes each. The reply is 0 if the hash is owned, if the connection owns 100 requests, or if it is
/// no candidate and is not kept as one.
pub fn solicit_package_info(
    store: &mut [u8],
    connection: u64,
    hash: &[u8; 32],
    parents: &[[u8; 32]],
    now: u64,
) -> Result<bool, Error> {
    let parents = parents.as_flattened();
    let mut reply = 0;
    // SAFETY: what is lent is lent for the call, and what it may write is lent to it alone.
    let status = unsafe {
        abi::tracker_solicit_package_info(store.as_mut_ptr(), store.len(), connection, hash, parents.as_ptr(),
            parents.len(), now, &mut reply)
    };
    done(status, reply == 1)
}

/// The package info of the request at the Wtxid key has come: its owner has until the deadline to get the
/// package, whose wtxids are given in 32 bytes each. The reply is 0 unless they are 1 to 100.
pub fn claim_package(
    store: &mut [u8],
    connection: u64,
    hash: &[u8; 32],
    combined: &[u8; 32],
    wtxids: &[[u8; 32]],
    now: u64,
) -> Result<bool, Error> {
    let wtxids = wtxids.as_flattened();
    let mut reply = 0;
    // SAFETY: what is lent is lent for the call, and what it may write is lent to it alone.
    let status = unsafe {
        abi::tracker_claim_package(store.as_mut_ptr(), store.len(), connection, hash, combined,
            wtxids.as_ptr(), wtxids.len(), now, &mut reply)
    };
    done(status, reply == 1)
}

/// The package itself has come: it waits in the queue from now on, and no deadline ends it. The reply is 0
/// unless combined hash and wtxids are those that were claimed, in their order.
pub fn begin_package_resolution(
    store: &mut [u8],
    connection: u64,
    hash: &[u8; 32],
    combined: &[u8; 32],
    wtxids: &[[u8; 32]],
    now: u64,
) -> Result<bool, Error> {
    let wtxids = wtxids.as_flattened();
    let mut reply = 0;
    // SAFETY: what is lent is lent for the call, and what it may write is lent to it alone.
    let status = unsafe {
        abi::tracker_begin_package_resolution(store.as_mut_ptr(), store.len(), connection, hash, combined,
            wtxids.as_ptr(), wtxids.len(), now, &mut reply)
    };
    done(status, reply == 1)
}

/// The package in the queue at the Wtxid key, if the connection owns it, is given up: the connection leaves,
/// and is asked for the parents. The key and those of the parents that are kept stand in the answer: so many
/// as `count` says, and none where there is no such package.
pub fn release_package(
    store: &mut [u8],
    connection: u64,
    hash: &[u8; 32],
    now: u64,
    answer: &mut [u8],
) -> Result<usize, Error> {
    let mut count = 0;
    // SAFETY: what is lent is lent for the call, and what it may write is lent to it alone.
    let status = unsafe {
        abi::tracker_release_package(store.as_mut_ptr(), store.len(), connection, hash, now,
            answer.as_mut_ptr(), answer.len(), &mut count)
    };
    done(status, count as usize)
}

/// The claims of the connection whose packages have one of the combined hashes, which are given in 32 bytes
/// each, have failed; of two with one hash, that at the greater key. Their keys stand in the answer, each
/// followed by those of its parents that are kept: so many as `count` says.
pub fn failed_package_claims(
    store: &mut [u8],
    connection: u64,
    combined: &[[u8; 32]],
    now: u64,
    answer: &mut [u8],
) -> Result<usize, Error> {
    let combined = combined.as_flattened();
    let mut count = 0;
    // SAFETY: what is lent is lent for the call, and what it may write is lent to it alone.
    let status = unsafe {
        abi::tracker_failed_package_claims(store.as_mut_ptr(), store.len(), connection, combined.as_ptr(),
            combined.len(), now, answer.as_mut_ptr(), answer.len(), &mut count)
    };
    done(status, count as usize)
}

/// Every package goes, whatever its phase, and its owner leaves the request. `count` says how many went.
pub fn teardown_package_claims(store: &mut [u8], now: u64) -> Result<usize, Error> {
    let mut count = 0;
    // SAFETY: what is lent is lent for the call, and what it may write is lent to it alone.
    let status = unsafe {
        abi::tracker_teardown_package_claims(store.as_mut_ptr(), store.len(), now, &mut count)
    };
    done(status, count as usize)
}

/// The items of a whole inv, getdata or notfound payload stand in the answer in 40 bytes each: so many as
/// `count` says. They can be given to tracker_announce_transactions and tracker_transaction_not_found as
/// they stand there. It takes no store.
pub fn read_payload(payload: &[u8], answer: &mut [u8]) -> Result<usize, Error> {
    let mut count = 0;
    // SAFETY: what is lent is lent for the call, and what it may write is lent to it alone.
    let status = unsafe {
        abi::tracker_read_payload(payload.as_ptr(), payload.len(), answer.as_mut_ptr(), answer.len(),
            &mut count)
    };
    done(status, count as usize)
}

/// The payload of the items, which are given in 40 bytes each, stands in the answer: so many bytes as
/// `written` says. An item whose type's word is 2^32 or more is an other item of the type that its low 32
/// bits are, and is refused if that is 1, 5 or 0x40000001. It takes no store.
pub fn write_payload(items: &[u8], answer: &mut [u8]) -> Result<usize, Error> {
    let mut written = 0;
    // SAFETY: what is lent is lent for the call, and what it may write is lent to it alone.
    let status = unsafe {
        abi::tracker_write_payload(items.as_ptr(), items.len(), answer.as_mut_ptr(), answer.len(),
            &mut written)
    };
    done(status, written as usize)
}

/// Takes, in order, each entry of the checked list, which is given in 112 bytes each, whose hash is unowned
/// and that is still what plan would choose for it. Those that are taken stand in the answer: so many as
/// `taken` says.
pub fn claim(store: &mut [u8], now: u64, checked: &[u8], answer: &mut [u8]) -> Result<usize, Error> {
    let mut taken = 0;
    // SAFETY: what is lent is lent for the call, and what it may write is lent to it alone.
    let status = unsafe {
        abi::tracker_claim(store.as_mut_ptr(), store.len(), now, checked.as_ptr(), checked.len(),
            answer.as_mut_ptr(), answer.len(), &mut taken)
    };
    done(status, taken as usize)
}

/// Plans over all keys after the ready cursor and round to it. What it selects stands in the answer in 112
/// bytes an entry: so many as `count` says, of as many keys as `considered` says. `next` is the least time
/// later than the clock at which a key that nobody owns may be ready or an owner be late, 0 if there is
/// none.
pub fn plan(store: &mut [u8], now: u64, answer: &mut [u8]) -> Result<Plan, Error> {
    let mut considered = 0;
    let mut count = 0;
    let mut next = 0;
    // SAFETY: what is lent is lent for the call, and what it may write is lent to it alone.
    let status = unsafe {
        abi::tracker_plan(store.as_mut_ptr(), store.len(), now, answer.as_mut_ptr(), answer.len(),
            &mut considered, &mut count, &mut next)
    };
    done(status, Plan { considered, count: count as usize, next: (next != 0).then_some(next) })
}

/// The same over the keys that are given in 40 bytes each; the ready cursor stays.
pub fn plan_given(store: &mut [u8], now: u64, given: &[u8], answer: &mut [u8]) -> Result<Plan, Error> {
    let mut considered = 0;
    let mut count = 0;
    let mut next = 0;
    // SAFETY: what is lent is lent for the call, and what it may write is lent to it alone.
    let status = unsafe {
        abi::tracker_plan_given(store.as_mut_ptr(), store.len(), now, given.as_ptr(), given.len(),
            answer.as_mut_ptr(), answer.len(), &mut considered, &mut count, &mut next)
    };
    done(status, Plan { considered, count: count as usize, next: (next != 0).then_some(next) })
}

/// The next keys after the known cursor, which becomes the last of them. They stand in the answer: so many
/// as `count` says.
pub fn sweep(store: &mut [u8], answer: &mut [u8]) -> Result<usize, Error> {
    let mut count = 0;
    // SAFETY: what is lent is lent for the call, and what it may write is lent to it alone.
    let status = unsafe {
        abi::tracker_sweep(store.as_mut_ptr(), store.len(), answer.as_mut_ptr(), answer.len(), &mut count)
    };
    done(status, count as usize)
}

/// Whether a poll is due. If the reply is 1, the next one is 100 milliseconds later.
pub fn poll_gate(store: &mut [u8], now: u64) -> Result<bool, Error> {
    let mut reply = 0;
    // SAFETY: what is lent is lent for the call, and what it may write is lent to it alone.
    let status = unsafe {
        abi::tracker_poll_gate(store.as_mut_ptr(), store.len(), now, &mut reply)
    };
    done(status, reply == 1)
}

/// The connection announces the items, which are given in 40 bytes each, with the priorities beside them in
/// 8; the shorter list decides. source: a wtxid source exists. Carried out, it replies 1.
pub fn announce_transactions(
    store: &mut [u8],
    connection: u64,
    now: u64,
    preferred: bool,
    source: bool,
    items: &[u8],
    priorities: &[u8],
) -> Result<(), Error> {
    // SAFETY: what is lent is lent for the call, and what it may write is lent to it alone.
    let status = unsafe {
        abi::tracker_announce_transactions(store.as_mut_ptr(), store.len(), connection, now, preferred,
            source, items.as_ptr(), items.len(), priorities.as_ptr(), priorities.len())
    };
    done(status, ())
}

/// A response of the connection is complete: what it still owns of this transaction, under either identity,
/// has failed. Carried out, it replies 1.
pub fn transaction_response_completed(
    store: &mut [u8],
    connection: u64,
    txid: &[u8; 32],
    wtxid: &[u8; 32],
    now: u64,
) -> Result<(), Error> {
    // SAFETY: what is lent is lent for the call, and what it may write is lent to it alone.
    let status = unsafe {
        abi::tracker_transaction_response_completed(store.as_mut_ptr(), store.len(), connection, txid, wtxid,
            now)
    };
    done(status, ())
}

/// The connection does not have the items, which are given in 40 bytes each: what it owns of them has
/// failed, and so have its claims to the packages among them. The keys of what failed stand in the answer,
/// followed by those of the parents that are kept where there are some: so many as `count` says.
pub fn transaction_not_found(
    store: &mut [u8],
    connection: u64,
    items: &[u8],
    now: u64,
    answer: &mut [u8],
) -> Result<usize, Error> {
    let mut count = 0;
    // SAFETY: what is lent is lent for the call, and what it may write is lent to it alone.
    let status = unsafe {
        abi::tracker_transaction_not_found(store.as_mut_ptr(), store.len(), connection, items.as_ptr(),
            items.len(), now, answer.as_mut_ptr(), answer.len(), &mut count)
    };
    done(status, count as usize)
}

// end: written by bindings/generate
