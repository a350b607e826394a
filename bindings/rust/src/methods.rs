//! The calls of a tracker that may change its store.

use crate::abi::owned as abi;
use crate::error::done;
use crate::lists::{listed, offers};
use crate::owner::settled;
use crate::{
    Announcement, Connection, Departed, Entries, Entry, Error, Item, Key, Keys, Now, Parents, Planned, StoreMut, Tracker,
    Txid, Wtxid, bytes,
};

impl<S: StoreMut> Tracker<S> {
    // begin: written by bindings/generate out of crates/owned/src

    /// A connection can deliver an item. Whether it is kept.
    pub fn announce(&mut self, announcement: &Announcement) -> bool {
        let &Announcement { connection, ref item, ready, preferred, priority } = announcement;
        let (item_type, hash) = item.parts();
        let mut reply = 0;
        let store = self.store.bytes_mut();
        // SAFETY: the store is sound and nobody else can write it; what the call may write is lent to it alone.
        let status = unsafe {
            abi::tracker_owned_announce(store.as_mut_ptr(), store.len(), connection.get(), item_type, hash,
                ready, preferred, priority, &mut reply)
        };
        settled(status, reply == 1)
    }

    /// announce, of a parent that is missing: a connection that is a candidate at the hash already turns
    /// preferred, with the smaller ready time and the smaller priority.
    pub fn request_parent(&mut self, announcement: &Announcement) -> bool {
        let &Announcement { connection, ref item, ready, preferred, priority } = announcement;
        let (item_type, hash) = item.parts();
        let mut reply = 0;
        let store = self.store.bytes_mut();
        // SAFETY: the store is sound and nobody else can write it; what the call may write is lent to it alone.
        let status = unsafe {
            abi::tracker_owned_request_parent(store.as_mut_ptr(), store.len(), connection.get(), item_type,
                hash, ready, preferred, priority, &mut reply)
        };
        settled(status, reply == 1)
    }

    /// Requests the parents of a transaction. The answer has the keys of those that are kept.
    pub fn announce_parents(&mut self, connection: Connection, parents: Parents<'_>, now: Now) -> Keys<'_> {
        self.room(bytes::KEYS_NEED);
        let parents = listed(parents.txids());
        let mut count = 0;
        let store = self.store.bytes_mut();
        // SAFETY: the store is sound and nobody else can write it; what the call may write is lent to it alone.
        let status = unsafe {
            abi::tracker_owned_announce_parents(store.as_mut_ptr(), store.len(), connection.get(),
                parents.as_ptr(), parents.len(), now.millis(), self.answer.as_mut_ptr(), self.answer.len(),
                &mut count)
        };
        settled(status, Keys::new(&self.answer, count as usize))
    }

    /// The connection leaves every request that it is a candidate of.
    pub fn disconnected(&mut self, connection: Connection, now: Now) -> Departed<'_> {
        self.room(self.sizes.disconnected_need());
        let mut own = 0;
        let mut parents = 0;
        let store = self.store.bytes_mut();
        // SAFETY: the store is sound and nobody else can write it; what the call may write is lent to it alone.
        let status = unsafe {
            abi::tracker_owned_disconnected(store.as_mut_ptr(), store.len(), connection.get(), now.millis(),
                self.answer.as_mut_ptr(), self.answer.len(), &mut own, &mut parents)
        };
        settled(status, Departed::new(&self.answer, own as usize, parents as usize))
    }

    /// The owner of the request at the key failed to deliver. False unless the connection owns it and its
    /// package is not Enqueued.
    pub fn failed(&mut self, key: Key, connection: Connection, now: Now) -> bool {
        let (kind, hash) = key.parts();
        let mut reply = 0;
        let store = self.store.bytes_mut();
        // SAFETY: the store is sound and nobody else can write it; what the call may write is lent to it alone.
        let status = unsafe {
            abi::tracker_owned_failed(store.as_mut_ptr(), store.len(), kind, hash, connection.get(),
                now.millis(), &mut reply)
        };
        settled(status, reply == 1)
    }

    /// failed, and the parents of the request are requested of the connection. The answer has the key and
    /// those of the parents that are kept; none where failed would be false.
    pub fn failed_with_parents(&mut self, key: Key, connection: Connection, now: Now) -> Keys<'_> {
        self.room(bytes::KEYS_NEED);
        let (kind, hash) = key.parts();
        let mut count = 0;
        let store = self.store.bytes_mut();
        // SAFETY: the store is sound and nobody else can write it; what the call may write is lent to it alone.
        let status = unsafe {
            abi::tracker_owned_failed_with_parents(store.as_mut_ptr(), store.len(), kind, hash,
                connection.get(), now.millis(), self.answer.as_mut_ptr(), self.answer.len(), &mut count)
        };
        settled(status, Keys::new(&self.answer, count as usize))
    }

    /// The owner gives the request back and stays a candidate.
    pub fn unclaim(&mut self, key: Key, connection: Connection) {
        let (kind, hash) = key.parts();
        let store = self.store.bytes_mut();
        // SAFETY: the store is sound and nobody else can write it; what the call may write is lent to it alone.
        let status = unsafe {
            abi::tracker_owned_unclaim(store.as_mut_ptr(), store.len(), kind, hash, connection.get())
        };
        settled(status, ())
    }

    /// The request at the key goes.
    pub fn forget(&mut self, key: Key) {
        let (kind, hash) = key.parts();
        let store = self.store.bytes_mut();
        // SAFETY: the store is sound and nobody else can write it; what the call may write is lent to it alone.
        let status = unsafe {
            abi::tracker_owned_forget(store.as_mut_ptr(), store.len(), kind, hash)
        };
        settled(status, ())
    }

    /// The transaction of the request at the key is known: the request goes, and its parents are announced
    /// for its owner. It stays if a package is still to come of it.
    pub fn forget_known(&mut self, key: Key, now: Now) {
        let (kind, hash) = key.parts();
        let store = self.store.bytes_mut();
        // SAFETY: the store is sound and nobody else can write it; what the call may write is lent to it alone.
        let status = unsafe {
            abi::tracker_owned_forget_known(store.as_mut_ptr(), store.len(), kind, hash, now.millis())
        };
        settled(status, ())
    }

    /// failed, of a connection that is asked for package info. False unless it is.
    pub fn failed_package_info(&mut self, key: Key, connection: Connection, now: Now) -> bool {
        let (kind, hash) = key.parts();
        let mut reply = 0;
        let store = self.store.bytes_mut();
        // SAFETY: the store is sound and nobody else can write it; what the call may write is lent to it alone.
        let status = unsafe {
            abi::tracker_owned_failed_package_info(store.as_mut_ptr(), store.len(), kind, hash,
                connection.get(), now.millis(), &mut reply)
        };
        settled(status, reply == 1)
    }

    /// The connection is asked for the package info of the transaction, whose parents are given. False if
    /// the hash is owned, if the connection owns 100 requests, or if it is no candidate and is not kept as
    /// one. [`Error::NoPlace`] if it would be true, and all package places are held.
    ///
    /// ```
    /// use tracker::{Connection, Key, Now, Parents, Tracker, Txid, Wtxid};
    ///
    /// let mut tracker = Tracker::new(100, 2)?;
    /// let (now, peer) = (Now::new(0)?, Connection::new(7).expect("not 0"));
    /// let (child, parents, combined) = (Wtxid([9; 32]), [Txid([1; 32])], [5; 32]);
    /// assert!(tracker.solicit_package_info(peer, child, Parents::of(&parents), now)?);
    /// assert_eq!(tracker.package_info_owner(Key::Wtxid(child), now), Some(peer));
    ///
    /// // The info has come: the package is asked for, and comes in time.
    /// let wtxids = [Wtxid([2; 32]), child];
    /// assert!(tracker.claim_package(peer, child, &combined, &wtxids, now));
    /// assert!(tracker.begin_package_resolution(peer, child, &combined, &wtxids, now));
    ///
    /// // It is of no use: the connection is asked for the parents one by one.
    /// assert!(tracker.release_package(peer, child, now).eq([Key::Wtxid(child), Key::Txid(parents[0])]));
    /// # Ok::<(), tracker::Error>(())
    /// ```
    pub fn solicit_package_info(
        &mut self,
        connection: Connection,
        wtxid: Wtxid,
        parents: Parents<'_>,
        now: Now,
    ) -> Result<bool, Error> {
        let parents = listed(parents.txids());
        let mut reply = 0;
        let store = self.store.bytes_mut();
        // SAFETY: the store is sound and nobody else can write it; what the call may write is lent to it alone.
        let status = unsafe {
            abi::tracker_owned_solicit_package_info(store.as_mut_ptr(), store.len(), connection.get(),
                &wtxid.0, parents.as_ptr(), parents.len(), now.millis(), &mut reply)
        };
        done(status, reply == 1)
    }

    /// The package info of the request has come: its owner has until the deadline to get the package, whose
    /// wtxids are given. False unless they are 1 to 100.
    pub fn claim_package(
        &mut self,
        connection: Connection,
        wtxid: Wtxid,
        combined: &[u8; 32],
        wtxids: &[Wtxid],
        now: Now,
    ) -> bool {
        let wtxids = listed(wtxids);
        let mut reply = 0;
        let store = self.store.bytes_mut();
        // SAFETY: the store is sound and nobody else can write it; what the call may write is lent to it alone.
        let status = unsafe {
            abi::tracker_owned_claim_package(store.as_mut_ptr(), store.len(), connection.get(), &wtxid.0,
                combined, wtxids.as_ptr(), wtxids.len(), now.millis(), &mut reply)
        };
        settled(status, reply == 1)
    }

    /// The package itself has come: it waits in the queue from now on, and no deadline ends it. False unless
    /// combined hash and wtxids are those that were claimed, in their order.
    pub fn begin_package_resolution(
        &mut self,
        connection: Connection,
        wtxid: Wtxid,
        combined: &[u8; 32],
        wtxids: &[Wtxid],
        now: Now,
    ) -> bool {
        let wtxids = listed(wtxids);
        let mut reply = 0;
        let store = self.store.bytes_mut();
        // SAFETY: the store is sound and nobody else can write it; what the call may write is lent to it alone.
        let status = unsafe {
            abi::tracker_owned_begin_package_resolution(store.as_mut_ptr(), store.len(), connection.get(),
                &wtxid.0, combined, wtxids.as_ptr(), wtxids.len(), now.millis(), &mut reply)
        };
        settled(status, reply == 1)
    }

    /// The package in the queue, if the connection owns it, is given up: the connection leaves, and is asked
    /// for the parents. The answer has the key and those of the parents that are kept; none where there is
    /// no such package.
    pub fn release_package(&mut self, connection: Connection, wtxid: Wtxid, now: Now) -> Keys<'_> {
        self.room(bytes::KEYS_NEED);
        let mut count = 0;
        let store = self.store.bytes_mut();
        // SAFETY: the store is sound and nobody else can write it; what the call may write is lent to it alone.
        let status = unsafe {
            abi::tracker_owned_release_package(store.as_mut_ptr(), store.len(), connection.get(), &wtxid.0,
                now.millis(), self.answer.as_mut_ptr(), self.answer.len(), &mut count)
        };
        settled(status, Keys::new(&self.answer, count as usize))
    }

    /// The claims of the connection whose packages have one of the combined hashes have failed; of two with
    /// one hash, that at the greater key. The answer has their keys, each followed by those of its parents
    /// that are kept.
    pub fn failed_package_claims(
        &mut self,
        connection: Connection,
        combined: &[[u8; 32]],
        now: Now,
    ) -> Keys<'_> {
        self.room(self.sizes.failed_package_claims_need());
        let combined = listed(combined);
        let mut count = 0;
        let store = self.store.bytes_mut();
        // SAFETY: the store is sound and nobody else can write it; what the call may write is lent to it alone.
        let status = unsafe {
            abi::tracker_owned_failed_package_claims(store.as_mut_ptr(), store.len(), connection.get(),
                combined.as_ptr(), combined.len(), now.millis(), self.answer.as_mut_ptr(), self.answer.len(),
                &mut count)
        };
        settled(status, Keys::new(&self.answer, count as usize))
    }

    /// Every package goes, whatever its phase, and its owner leaves the request. How many went.
    pub fn teardown_package_claims(&mut self, now: Now) -> u64 {
        let mut count = 0;
        let store = self.store.bytes_mut();
        // SAFETY: the store is sound and nobody else can write it; what the call may write is lent to it alone.
        let status = unsafe {
            abi::tracker_owned_teardown_package_claims(store.as_mut_ptr(), store.len(), now.millis(),
                &mut count)
        };
        settled(status, count)
    }

    /// Takes, in order, each entry of the list whose hash is unowned and that is still what plan would
    /// choose for it. The answer has those that are taken.
    pub fn claim(&mut self, now: Now, checked: &[Entry]) -> Entries<'_> {
        self.room(checked.len() * bytes::ENTRY_BYTES);
        let checked = listed(checked);
        let mut taken = 0;
        let store = self.store.bytes_mut();
        // SAFETY: the store is sound and nobody else can write it; what the call may write is lent to it alone.
        let status = unsafe {
            abi::tracker_owned_claim(store.as_mut_ptr(), store.len(), now.millis(), checked.as_ptr(),
                checked.len(), self.answer.as_mut_ptr(), self.answer.len(), &mut taken)
        };
        settled(status, Entries::new(&self.answer, taken as usize))
    }

    /// Which candidate is to be asked for what, by priority: at most 1,025 entries. Owners whose deadline
    /// has come fail first.
    pub fn plan(&mut self, now: Now) -> Planned<'_> {
        self.room(self.sizes.plan_need());
        let mut considered = 0;
        let mut count = 0;
        let mut next = 0;
        let store = self.store.bytes_mut();
        // SAFETY: the store is sound and nobody else can write it; what the call may write is lent to it alone.
        let status = unsafe {
            abi::tracker_owned_plan(store.as_mut_ptr(), store.len(), now.millis(), self.answer.as_mut_ptr(),
                self.answer.len(), &mut considered, &mut count, &mut next)
        };
        settled(status, Planned { considered, entries: Entries::new(&self.answer, count as usize), next: (next != 0).then_some(next) })
    }

    /// plan over these keys alone; the ready cursor stays.
    pub fn plan_given(&mut self, now: Now, given: &[Key]) -> Planned<'_> {
        self.room(self.sizes.plan_need());
        let given = listed(given);
        let mut considered = 0;
        let mut count = 0;
        let mut next = 0;
        let store = self.store.bytes_mut();
        // SAFETY: the store is sound and nobody else can write it; what the call may write is lent to it alone.
        let status = unsafe {
            abi::tracker_owned_plan_given(store.as_mut_ptr(), store.len(), now.millis(), given.as_ptr(),
                given.len(), self.answer.as_mut_ptr(), self.answer.len(), &mut considered, &mut count,
                &mut next)
        };
        settled(status, Planned { considered, entries: Entries::new(&self.answer, count as usize), next: (next != 0).then_some(next) })
    }

    /// The next keys after the known cursor, at most 1,024; the cursor becomes the last of them.
    pub fn sweep(&mut self) -> Keys<'_> {
        self.room(self.sizes.sweep_need());
        let mut count = 0;
        let store = self.store.bytes_mut();
        // SAFETY: the store is sound and nobody else can write it; what the call may write is lent to it alone.
        let status = unsafe {
            abi::tracker_owned_sweep(store.as_mut_ptr(), store.len(), self.answer.as_mut_ptr(),
                self.answer.len(), &mut count)
        };
        settled(status, Keys::new(&self.answer, count as usize))
    }

    /// Whether a poll is due. If it is, the next one is 100 milliseconds later.
    pub fn poll_gate(&mut self, now: Now) -> bool {
        let mut reply = 0;
        let store = self.store.bytes_mut();
        // SAFETY: the store is sound and nobody else can write it; what the call may write is lent to it alone.
        let status = unsafe {
            abi::tracker_owned_poll_gate(store.as_mut_ptr(), store.len(), now.millis(), &mut reply)
        };
        settled(status, reply == 1)
    }

    /// The connection announces the items, with a priority each. source: a wtxid source exists.
    pub fn announce_transactions(
        &mut self,
        connection: Connection,
        now: Now,
        preferred: bool,
        source: bool,
        items: &[(Item, u64)],
    ) {
        let (items, priorities) = offers(items);
        let store = self.store.bytes_mut();
        // SAFETY: the store is sound and nobody else can write it; what the call may write is lent to it alone.
        let status = unsafe {
            abi::tracker_owned_announce_transactions(store.as_mut_ptr(), store.len(), connection.get(),
                now.millis(), preferred, source, items.as_ptr(), items.len(), priorities.as_ptr(),
                priorities.len())
        };
        settled(status, ())
    }

    /// A response of the connection is complete: what it still owns of this transaction, under either
    /// identity, has failed.
    pub fn transaction_response_completed(
        &mut self,
        connection: Connection,
        txid: Txid,
        wtxid: Wtxid,
        now: Now,
    ) {
        let store = self.store.bytes_mut();
        // SAFETY: the store is sound and nobody else can write it; what the call may write is lent to it alone.
        let status = unsafe {
            abi::tracker_owned_transaction_response_completed(store.as_mut_ptr(), store.len(),
                connection.get(), &txid.0, &wtxid.0, now.millis())
        };
        settled(status, ())
    }

    /// The connection does not have the items: what it owns of them has failed, and so have its claims to
    /// the packages among them. The answer has the keys of what failed, followed by those of the parents
    /// that are kept.
    pub fn transaction_not_found(&mut self, connection: Connection, items: &[Item], now: Now) -> Keys<'_> {
        self.room(self.sizes.not_found_need(items.len()));
        let items = listed(items);
        let mut count = 0;
        let store = self.store.bytes_mut();
        // SAFETY: the store is sound and nobody else can write it; what the call may write is lent to it alone.
        let status = unsafe {
            abi::tracker_owned_transaction_not_found(store.as_mut_ptr(), store.len(), connection.get(),
                items.as_ptr(), items.len(), now.millis(), self.answer.as_mut_ptr(), self.answer.len(),
                &mut count)
        };
        settled(status, Keys::new(&self.answer, count as usize))
    }

    // end: written by bindings/generate
}
