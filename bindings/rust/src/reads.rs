//! The calls of a tracker that leave its store as it is.

use crate::abi::owned as abi;
use crate::error::done;
use crate::lists::listed;
use crate::owner::settled;
use crate::{Connection, Counts, Entries, Entry, Error, Figures, Key, Now, Owned, Owners, Store, Tracker, bytes};

impl<S: Store> Tracker<S> {
    // begin: written by bindings/generate out of crates/owned/src

    /// How many announcements are held, how many more fit of unpreferred newcomers and of preferred ones,
    /// and how full the tracker is in thousandths.
    pub fn sum(&self) -> Figures {
        let mut held = 0;
        let mut room = 0;
        let mut preferred_room = 0;
        let mut permille = 0;
        let store = self.store.bytes();
        // SAFETY: the store is sound and nobody else can write it; what the call may write is lent to it alone.
        let status = unsafe {
            abi::tracker_owned_sum(store.as_ptr(), store.len(), &mut held, &mut room, &mut preferred_room,
                &mut permille)
        };
        settled(status, Figures { held, free: room, preferred_free: preferred_room, permille })
    }

    /// What a claim has taken, by ascending connection, then in claim order. A t item of a marked request
    /// turns v for a witness connection.
    ///
    /// ```
    /// use tracker::{Connection, Entry, Item, Now, Parents, Tracker, Txid};
    ///
    /// let mut tracker = Tracker::new(100, 2)?;
    /// let (now, peer) = (Now::new(0)?, Connection::new(7).expect("not 0"));
    /// tracker.announce_parents(peer, Parents::of(&[Txid([1; 32])]), now); // a request with the mark
    /// let planned: Vec<Entry> = tracker.plan(now).entries.collect();
    /// let taken: Vec<Entry> = tracker.claim(now, &planned).collect();
    ///
    /// let list = tracker.arrange(&[peer], &taken); // 7 takes witnesses
    /// let getdata = list.part(peer).map(|entry| entry.candidate.item);
    /// assert!(getdata.eq([Item::WitnessTx(Txid([1; 32]))]));
    /// # Ok::<(), tracker::Error>(())
    /// ```
    pub fn arrange(&mut self, witnesses: &[Connection], taken: &[Entry]) -> Entries<'_> {
        self.room(taken.len() * bytes::ENTRY_BYTES);
        let witnesses = listed(witnesses);
        let taken = listed(taken);
        let mut count = 0;
        let store = self.store.bytes();
        // SAFETY: the store is sound and nobody else can write it; what the call may write is lent to it alone.
        let status = unsafe {
            abi::tracker_owned_arrange(store.as_ptr(), store.len(), witnesses.as_ptr(), witnesses.len(),
                taken.as_ptr(), taken.len(), self.answer.as_mut_ptr(), self.answer.len(), &mut count)
        };
        settled(status, Entries::new(&self.answer, count as usize))
    }

    /// How many announcements the connection has, and how many requests it owns, deadlines over or not.
    ///
    /// ```
    /// use tracker::{Announcement, Connection, Counts, Entry, Item, Now, Tracker, Txid};
    ///
    /// let mut tracker = Tracker::new(100, 2)?;
    /// let (now, peer) = (Now::new(0)?, Connection::new(7).expect("not 0"));
    /// for byte in [1, 2] {
    ///     tracker.announce(&Announcement::new(peer, Item::Tx(Txid([byte; 32]))));
    /// }
    /// let planned: Vec<Entry> = tracker.plan(now).entries.collect();
    /// tracker.claim(now, &planned[..1]); // it is asked for one of the two
    /// assert_eq!(tracker.counts(peer), Counts { announced: 2, owned: 1 });
    /// # Ok::<(), tracker::Error>(())
    /// ```
    pub fn counts(&self, connection: Connection) -> Counts {
        let mut announced = 0;
        let mut owned = 0;
        let store = self.store.bytes();
        // SAFETY: the store is sound and nobody else can write it; what the call may write is lent to it alone.
        let status = unsafe {
            abi::tracker_owned_counts(store.as_ptr(), store.len(), connection.get(), &mut announced,
                &mut owned)
        };
        settled(status, Counts { announced, owned })
    }

    /// The connection that is asked for package info of the request at the key, and in time.
    pub fn package_info_owner(&self, key: Key, now: Now) -> Option<Connection> {
        let (kind, hash) = key.parts();
        let mut owner = 0;
        let store = self.store.bytes();
        // SAFETY: the store is sound and nobody else can write it; what the call may write is lent to it alone.
        let status = unsafe {
            abi::tracker_owned_package_info_owner(store.as_ptr(), store.len(), kind, hash, now.millis(),
                &mut owner)
        };
        settled(status, Connection::new(owner))
    }

    /// The listing of the tracker's state: text, a line feed after each line.
    ///
    /// ```
    /// use tracker::{Announcement, Connection, Item, Tracker, Wtxid};
    ///
    /// let mut tracker = Tracker::new(4, 1)?;
    /// let mut hash = [0; 32];
    /// hash[0] = 10;
    /// let peer = Connection::new(7).expect("not 0");
    /// tracker.announce(&Announcement::new(peer, Item::WTx(Wtxid(hash))).priority(5));
    /// assert_eq!(tracker.save(), b"4,1,none,none,none\nwa,none,0,none,0,0\n7,wa,0,0,5\n");
    /// # Ok::<(), tracker::Error>(())
    /// ```
    pub fn save(&mut self) -> &[u8] {
        self.room(self.sizes.listing_need());
        let mut written = 0;
        let store = self.store.bytes();
        // SAFETY: the store is sound and nobody else can write it; what the call may write is lent to it alone.
        let status = unsafe {
            abi::tracker_owned_save(store.as_ptr(), store.len(), self.answer.as_mut_ptr(), self.answer.len(),
                &mut written)
        };
        settled(status, &self.answer[..written as usize])
    }

    /// Who owns each of the hashes, deadlines over or not, and how many keys were passed.
    /// [`Error::WrongHashes`] if they are more than 1,024 or not in strictly ascending order, byte 31 being
    /// the most significant.
    ///
    /// ```
    /// use tracker::{Announcement, Connection, Entry, Error, Item, Now, Owner, Tracker, Wtxid};
    ///
    /// let mut tracker = Tracker::new(100, 2)?;
    /// let (now, peer) = (Now::new(0)?, Connection::new(7).expect("not 0"));
    /// tracker.announce(&Announcement::new(peer, Item::WTx(Wtxid([2; 32]))));
    /// let planned: Vec<Entry> = tracker.plan(now).entries.collect();
    /// tracker.claim(now, &planned);
    ///
    /// let mut answer = tracker.owners_of(&[[1; 32], [2; 32]])?;
    /// assert_eq!(answer.passed, 1); // the one key that is held
    /// assert_eq!(answer.owners.next(), Some(None));
    /// assert_eq!(answer.owners.next(), Some(Some(Owner { wtxid: true, connection: peer, deadline: 60_000 })));
    /// assert_eq!(tracker.owners_of(&[[2; 32], [1; 32]]).err(), Some(Error::WrongHashes));
    /// # Ok::<(), tracker::Error>(())
    /// ```
    pub fn owners_of(&mut self, hashes: &[[u8; 32]]) -> Result<Owned<'_>, Error> {
        self.room(hashes.len() * bytes::OWNER_BYTES);
        let hashes = listed(hashes);
        let mut passed = 0;
        let store = self.store.bytes();
        // SAFETY: the store is sound and nobody else can write it; what the call may write is lent to it alone.
        let status = unsafe {
            abi::tracker_owned_owners_of(store.as_ptr(), store.len(), hashes.as_ptr(), hashes.len(),
                self.answer.as_mut_ptr(), self.answer.len(), &mut passed)
        };
        done(status, Owned { passed, owners: Owners::new(&self.answer, hashes.len() / 32) })
    }

    // end: written by bindings/generate
}
