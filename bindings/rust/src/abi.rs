//! The C ABI as ../c/tracker.h declares it, for programs that call it as C does.

#[cfg(feature = "owned")]
pub mod owned;

/// A call that brings one candidate: store and its length, connection, item type, hash, ready time, preferred, priority,
/// reply; the status is returned.
pub type OfCandidate =
    unsafe extern "C" fn(*mut u8, usize, u64, u32, &[u8; 32], u64, bool, u64, &mut u64) -> u64;

#[rustfmt::skip]
unsafe extern "C" {
    // begin: written by bindings/generate out of crates/exports/src
    /// Makes the store an empty tracker for l announcements and q package places.
    pub fn tracker_open(store: *mut u8, length: usize, l: u64, q: u64) -> u64;
    /// Whether the bytes, as far as their need, write a sound state: what a call tests first.
    pub fn tracker_sound(store: *const u8, length: usize) -> bool;
    /// How many announcements are held, how many more fit of unpreferred newcomers and of preferred ones,
    /// and how full the tracker is in thousandths. Refused, it hands nothing out.
    pub fn tracker_sum(
        store: *const u8,
        length: usize,
        held: &mut u64,
        room: &mut u64,
        preferred_room: &mut u64,
        permille: &mut u64,
    ) -> u64;
    /// What a claim has taken, given in 112 bytes an entry, stands in the answer by ascending connection,
    /// then claim order: so many as `count` says. A t item of a marked request turns v for a witness
    /// connection: those of the list, which has 8 bytes for each, least first. The store is only read.
    pub fn tracker_arrange(
        store: *const u8,
        length: usize,
        witnesses: *const u8,
        witnesses_length: usize,
        taken: *const u8,
        taken_length: usize,
        answer: *mut u8,
        answer_length: usize,
        count: &mut u64,
    ) -> u64;
    /// One connection's part of an arranged list, which is given in 112 bytes an entry: `count` entries from
    /// the entry `first` on. Of a list that is not arranged it is some part. It takes no store, and is never
    /// refused.
    pub fn tracker_part(
        list: *const u8,
        length: usize,
        connection: u64,
        first: &mut u64,
        count: &mut u64,
    ) -> u64;
    /// A connection can deliver an item. The reply is 1 if it is kept.
    pub fn tracker_announce(
        store: *mut u8,
        length: usize,
        connection: u64,
        item_type: u32,
        hash: &[u8; 32],
        ready: u64,
        preferred: bool,
        priority: u64,
        reply: &mut u64,
    ) -> u64;
    /// The same for a parent that is missing.
    pub fn tracker_request_parent(
        store: *mut u8,
        length: usize,
        connection: u64,
        item_type: u32,
        hash: &[u8; 32],
        ready: u64,
        preferred: bool,
        priority: u64,
        reply: &mut u64,
    ) -> u64;
    /// Requests the parents of a transaction, 32 bytes each. The keys of those that are kept stand in the
    /// answer: so many as `count` says.
    pub fn tracker_announce_parents(
        store: *mut u8,
        length: usize,
        connection: u64,
        parents: *const u8,
        parents_length: usize,
        now: u64,
        answer: *mut u8,
        answer_length: usize,
        count: &mut u64,
    ) -> u64;
    /// How many announcements the connection has, and how many requests it owns, deadlines over or not.
    pub fn tracker_counts(
        store: *const u8,
        length: usize,
        connection: u64,
        announced: &mut u64,
        owned: &mut u64,
    ) -> u64;
    /// The connection leaves every request that it is a candidate of. The keys of these stand in the answer,
    /// so many as `own` says, and behind them the keys of parents that are announced for the candidates
    /// left, so many as `parents` says.
    pub fn tracker_disconnected(
        store: *mut u8,
        length: usize,
        connection: u64,
        now: u64,
        answer: *mut u8,
        answer_length: usize,
        own: &mut u64,
        parents: &mut u64,
    ) -> u64;
    /// The owner of the request at the key failed to deliver. The reply is 0 unless the connection owns it
    /// and its package is not Enqueued.
    pub fn tracker_failed(
        store: *mut u8,
        length: usize,
        kind: u64,
        hash: &[u8; 32],
        connection: u64,
        now: u64,
        reply: &mut u64,
    ) -> u64;
    /// failed, and the parents of the request are requested of the connection. The key and those of the
    /// parents that are kept stand in the answer: so many as `count` says, and none where failed would reply
    /// 0.
    pub fn tracker_failed_with_parents(
        store: *mut u8,
        length: usize,
        kind: u64,
        hash: &[u8; 32],
        connection: u64,
        now: u64,
        answer: *mut u8,
        answer_length: usize,
        count: &mut u64,
    ) -> u64;
    /// The owner gives the request back and stays a candidate. Carried out, it replies 1.
    pub fn tracker_unclaim(store: *mut u8, length: usize, kind: u64, hash: &[u8; 32], connection: u64) -> u64;
    /// The request at the key goes. Carried out, it replies 1.
    pub fn tracker_forget(store: *mut u8, length: usize, kind: u64, hash: &[u8; 32]) -> u64;
    /// The transaction of the request at the key is known: the request goes, and its parents are announced
    /// for its owner. It stays if a package is still to come of it. Carried out, it replies 1.
    pub fn tracker_forget_known(store: *mut u8, length: usize, kind: u64, hash: &[u8; 32], now: u64) -> u64;
    /// failed, of a connection that is asked for package info. The reply is 0 unless it is.
    pub fn tracker_failed_package_info(
        store: *mut u8,
        length: usize,
        kind: u64,
        hash: &[u8; 32],
        connection: u64,
        now: u64,
        reply: &mut u64,
    ) -> u64;
    /// The connection that is asked for package info of the request at the key, and in time; 0, if there is
    /// none.
    pub fn tracker_package_info_owner(
        store: *const u8,
        length: usize,
        kind: u64,
        hash: &[u8; 32],
        now: u64,
        owner: &mut u64,
    ) -> u64;
    /// The listing of the tracker's state, in the answer: so many bytes as `written` says. The store is only
    /// read.
    pub fn tracker_save(
        store: *const u8,
        length: usize,
        answer: *mut u8,
        answer_length: usize,
        written: &mut u64,
    ) -> u64;
    /// Makes the store the tracker that the text lists. It takes any store that is long enough, whose old
    /// bytes are not looked at; bytes past the need stay.
    pub fn tracker_restore(store: *mut u8, length: usize, text: *const u8, text_length: usize) -> u64;
    /// Who owns each of up to 1,024 hashes, which are given in strictly ascending order, 32 bytes each: the
    /// kind (0 nobody, 1 Txid, 2 Wtxid), the connection and the deadline stand in the answer, 8 bytes each,
    /// least first. So many held keys as `passed` says have a hash that is not above the greatest of them.
    /// The store is only read.
    pub fn tracker_owners_of(
        store: *const u8,
        length: usize,
        hashes: *const u8,
        hashes_length: usize,
        answer: *mut u8,
        answer_length: usize,
        passed: &mut u64,
    ) -> u64;
    /// The connection is asked for the package info of the transaction with that wtxid, whose parents are
    /// given in 32 bytes each. The reply is 0 if the hash is owned, if the connection owns 100 requests, or
    /// if it is no candidate and is not kept as one.
    pub fn tracker_solicit_package_info(
        store: *mut u8,
        length: usize,
        connection: u64,
        hash: &[u8; 32],
        parents: *const u8,
        parents_length: usize,
        now: u64,
        reply: &mut u64,
    ) -> u64;
    /// The package info of the request at the Wtxid key has come: its owner has until the deadline to get
    /// the package, whose wtxids are given in 32 bytes each. The reply is 0 unless they are 1 to 100.
    pub fn tracker_claim_package(
        store: *mut u8,
        length: usize,
        connection: u64,
        hash: &[u8; 32],
        combined: &[u8; 32],
        wtxids: *const u8,
        wtxids_length: usize,
        now: u64,
        reply: &mut u64,
    ) -> u64;
    /// The package itself has come: it waits in the queue from now on, and no deadline ends it. The reply is
    /// 0 unless combined hash and wtxids are those that were claimed, in their order.
    pub fn tracker_begin_package_resolution(
        store: *mut u8,
        length: usize,
        connection: u64,
        hash: &[u8; 32],
        combined: &[u8; 32],
        wtxids: *const u8,
        wtxids_length: usize,
        now: u64,
        reply: &mut u64,
    ) -> u64;
    /// The package in the queue at the Wtxid key, if the connection owns it, is given up: the connection
    /// leaves, and is asked for the parents. The key and those of the parents that are kept stand in the
    /// answer: so many as `count` says, and none where there is no such package.
    pub fn tracker_release_package(
        store: *mut u8,
        length: usize,
        connection: u64,
        hash: &[u8; 32],
        now: u64,
        answer: *mut u8,
        answer_length: usize,
        count: &mut u64,
    ) -> u64;
    /// The claims of the connection whose packages have one of the combined hashes, which are given in 32
    /// bytes each, have failed; of two with one hash, that at the greater key. Their keys stand in the
    /// answer, each followed by those of its parents that are kept: so many as `count` says.
    pub fn tracker_failed_package_claims(
        store: *mut u8,
        length: usize,
        connection: u64,
        combined: *const u8,
        combined_length: usize,
        now: u64,
        answer: *mut u8,
        answer_length: usize,
        count: &mut u64,
    ) -> u64;
    /// Every package goes, whatever its phase, and its owner leaves the request. `count` says how many went.
    pub fn tracker_teardown_package_claims(store: *mut u8, length: usize, now: u64, count: &mut u64) -> u64;
    /// The items of a whole inv, getdata or notfound payload stand in the answer in 40 bytes each: so many
    /// as `count` says. They can be given to tracker_announce_transactions and tracker_transaction_not_found
    /// as they stand there. It takes no store.
    pub fn tracker_read_payload(
        payload: *const u8,
        length: usize,
        answer: *mut u8,
        answer_length: usize,
        count: &mut u64,
    ) -> u64;
    /// The payload of the items, which are given in 40 bytes each, stands in the answer: so many bytes as
    /// `written` says. An item whose type's word is 2^32 or more is an other item of the type that its low
    /// 32 bits are, and is refused if that is 1, 5 or 0x40000001. It takes no store.
    pub fn tracker_write_payload(
        items: *const u8,
        length: usize,
        answer: *mut u8,
        answer_length: usize,
        written: &mut u64,
    ) -> u64;
    /// Takes, in order, each entry of the checked list, which is given in 112 bytes each, whose hash is
    /// unowned and that is still what plan would choose for it. Those that are taken stand in the answer: so
    /// many as `taken` says.
    pub fn tracker_claim(
        store: *mut u8,
        length: usize,
        now: u64,
        checked: *const u8,
        checked_length: usize,
        answer: *mut u8,
        answer_length: usize,
        taken: &mut u64,
    ) -> u64;
    /// Plans over all keys after the ready cursor and round to it. What it selects stands in the answer in
    /// 112 bytes an entry: so many as `count` says, of as many keys as `considered` says. `next` is the
    /// least time later than the clock at which a key that nobody owns may be ready or an owner be late, 0
    /// if there is none.
    pub fn tracker_plan(
        store: *mut u8,
        length: usize,
        now: u64,
        answer: *mut u8,
        answer_length: usize,
        considered: &mut u64,
        count: &mut u64,
        next: &mut u64,
    ) -> u64;
    /// The same over the keys that are given in 40 bytes each; the ready cursor stays.
    pub fn tracker_plan_given(
        store: *mut u8,
        length: usize,
        now: u64,
        given: *const u8,
        given_length: usize,
        answer: *mut u8,
        answer_length: usize,
        considered: &mut u64,
        count: &mut u64,
        next: &mut u64,
    ) -> u64;
    /// The next keys after the known cursor, which becomes the last of them. They stand in the answer: so
    /// many as `count` says.
    pub fn tracker_sweep(
        store: *mut u8,
        length: usize,
        answer: *mut u8,
        answer_length: usize,
        count: &mut u64,
    ) -> u64;
    /// Whether a poll is due. If the reply is 1, the next one is 100 milliseconds later.
    pub fn tracker_poll_gate(store: *mut u8, length: usize, now: u64, reply: &mut u64) -> u64;
    /// The connection announces the items, which are given in 40 bytes each, with the priorities beside them
    /// in 8; the shorter list decides. source: a wtxid source exists. Carried out, it replies 1.
    pub fn tracker_announce_transactions(
        store: *mut u8,
        length: usize,
        connection: u64,
        now: u64,
        preferred: bool,
        source: bool,
        items: *const u8,
        items_length: usize,
        priorities: *const u8,
        priorities_length: usize,
    ) -> u64;
    /// A response of the connection is complete: what it still owns of this transaction, under either
    /// identity, has failed. Carried out, it replies 1.
    pub fn tracker_transaction_response_completed(
        store: *mut u8,
        length: usize,
        connection: u64,
        txid: &[u8; 32],
        wtxid: &[u8; 32],
        now: u64,
    ) -> u64;
    /// The connection does not have the items, which are given in 40 bytes each: what it owns of them has
    /// failed, and so have its claims to the packages among them. The keys of what failed stand in the
    /// answer, followed by those of the parents that are kept where there are some: so many as `count` says.
    pub fn tracker_transaction_not_found(
        store: *mut u8,
        length: usize,
        connection: u64,
        items: *const u8,
        items_length: usize,
        now: u64,
        answer: *mut u8,
        answer_length: usize,
        count: &mut u64,
    ) -> u64;
    // end: written by bindings/generate
}
