//! Every call of `Tracker` beside the checked call on lent bytes: the same answers, and the same bytes after it. Arguments are
//! different from each other, and what they leave is looked up in the bytes (docs/STORE.md), so that none can stand in another's place.

use std::fmt::Debug;

use tracker::{
    Announcement, Connection, Counts, Entry, Error, Figures, Item, Key, Now, Owner, Owners, Parents, Sizes,
    Tracker, Txid, Wtxid, bytes,
};

const A: Wtxid = Wtxid([0xa; 32]);
const B: Txid = Txid([0xb; 32]);
const C: Wtxid = Wtxid([0xc; 32]);
const PARENTS: [Txid; 2] = [Txid([1; 32]), Txid([2; 32])];
const PACKAGE: [u8; 32] = [0xd; 32];

fn peer(number: u64) -> Connection {
    Connection::new(number).expect("not 0")
}

fn at(millis: u64) -> Now {
    Now::new(millis).expect("not too late")
}

fn keys(answer: &[u8], count: usize) -> Vec<Key> {
    bytes::keys(answer, count).collect()
}

fn entries(answer: &[u8], count: usize) -> Vec<Entry> {
    bytes::entries(answer, count).collect()
}

fn listed<const N: usize>(elements: &[[u8; N]]) -> Vec<u8> {
    elements.concat()
}

/// A tracker and a lent store in one state.
struct Pair {
    tracker: Tracker,
    store: Vec<u8>,
    answer: Vec<u8>,
}

impl Pair {
    fn new() -> Self {
        let sizes = Sizes::new(100, 2).unwrap();
        let mut store = vec![0; sizes.need()];
        bytes::open(&mut store, 100, 2).unwrap();
        Self { tracker: Tracker::with_sizes(sizes), store, answer: vec![0; 2_000 * bytes::KEY_BYTES] }
    }

    /// The call in both forms: what both answer.
    fn both<T: PartialEq + Debug>(
        &mut self,
        typed: impl FnOnce(&mut Tracker) -> T,
        checked: impl FnOnce(&mut [u8], &mut [u8]) -> Result<T, Error>,
    ) -> T {
        let (ours, theirs) = (typed(&mut self.tracker), checked(&mut self.store, &mut self.answer));
        assert_eq!(Ok(&ours), theirs.as_ref());
        assert_eq!(self.tracker.as_bytes(), self.store);
        ours
    }

    /// The words of the n-th row but its hash: connection, ready time, priority, deadline, bits.
    fn row(&self, n: usize) -> [u64; 5] {
        let word = |at: usize| u64::from_le_bytes(self.store[8 * at..8 * at + 8].try_into().unwrap());
        std::array::from_fn(|i| word(24 + 9 * n + 4 + i))
    }

    fn announce(&mut self, connection: u64, item: Item, ready: u64, preferred: bool, priority: u64) -> bool {
        let mut announcement = Announcement::new(peer(connection), item).ready_at(ready).priority(priority);
        announcement.preferred = preferred;
        let (item_type, hash) = (item.parts().0, *item.parts().1);
        let candidate = bytes::Candidate { connection, item_type, hash, ready, preferred, priority };
        self.both(|t| t.announce(&announcement), |s, _| bytes::announce(s, &candidate))
    }

    /// Plans and claims: who is asked.
    fn ask(&mut self, now: u64) -> Vec<Entry> {
        let (considered, next, planned) = self.both(
            |t| {
                let planned = t.plan(at(now));
                (planned.considered, planned.next, planned.entries.collect::<Vec<_>>())
            },
            |s, a| bytes::plan(s, now, a).map(|plan| (plan.considered, plan.next, entries(a, plan.count))),
        );
        assert!(considered >= planned.len() as u64);
        assert!(next.is_none_or(|time| time > now));
        let checked: Vec<_> = planned.iter().map(Entry::to_bytes).collect();
        let taken = self.both(
            |t| t.claim(at(now), &planned).collect::<Vec<_>>(),
            |s, a| bytes::claim(s, now, &listed(&checked), a).map(|count| entries(a, count)),
        );
        assert_eq!(taken, planned);
        taken
    }

    fn solicit(&mut self, connection: u64, id: Wtxid, now: u64) -> bool {
        let typed = |t: &mut Tracker| {
            t.solicit_package_info(peer(connection), id, Parents::of(&PARENTS), at(now)).unwrap()
        };
        let parents = PARENTS.map(|parent| parent.0);
        self.both(typed, |s, _| bytes::solicit_package_info(s, connection, &id.0, &parents, now))
    }

    fn claim_package(&mut self, connection: u64, id: Wtxid, now: u64) -> bool {
        let wtxids = [id, C];
        self.both(
            |t| t.claim_package(peer(connection), id, &PACKAGE, &wtxids, at(now)),
            |s, _| bytes::claim_package(s, connection, &id.0, &PACKAGE, &wtxids.map(|id| id.0), now),
        )
    }

    fn begin(&mut self, connection: u64, id: Wtxid, now: u64) -> bool {
        let wtxids = [id, C];
        self.both(
            |t| t.begin_package_resolution(peer(connection), id, &PACKAGE, &wtxids, at(now)),
            |s, _| {
                bytes::begin_package_resolution(s, connection, &id.0, &PACKAGE, &wtxids.map(|id| id.0), now)
            },
        )
    }

    fn held(&mut self) -> u64 {
        let Figures { held, free, preferred_free, permille } = self.both(|t| t.sum(), |s, _| bytes::sum(s));
        assert_eq!((free, permille), (100 - held, 10 * held));
        assert!((free..=100).contains(&preferred_free));
        held
    }

    /// Announcements and owned requests of a connection.
    fn counts(&mut self, connection: u64) -> (u64, u64) {
        let Counts { announced, owned } =
            self.both(|t| t.counts(peer(connection)), |s, _| bytes::counts(s, connection));
        (announced, owned)
    }

    /// Keys passed, and who owns each of the hashes.
    fn owners(&mut self, hashes: &[[u8; 32]]) -> (u64, Vec<Option<Owner>>) {
        let told = |passed, owners: Owners<'_>| (passed, owners.collect());
        self.both(
            |t| t.owners_of(hashes).map(|owned| told(owned.passed, owned.owners)).unwrap(),
            |s, a| bytes::owners_of(s, hashes, a).map(|passed| told(passed, bytes::owners(a, hashes.len()))),
        )
    }
}

#[test]
fn announced() {
    let mut pair = Pair::new();
    assert!(pair.announce(7, Item::WTx(A), 5, true, 9));
    assert_eq!(pair.row(0), [7, 5, 9, 0, 1 + 4]);
    let parent = Announcement::new(peer(8), Item::WitnessTx(B)).ready_at(6).priority(3);
    let candidate = bytes::Candidate {
        connection: 8,
        item_type: 0x4000_0001,
        hash: B.0,
        ready: 6,
        preferred: false,
        priority: 3,
    };
    assert!(pair.both(|t| t.request_parent(&parent), |s, _| bytes::request_parent(s, &candidate)));
    assert_eq!(pair.row(0), [8, 6, 3, 0, 2]);

    let parents = PARENTS.map(|parent| parent.0);
    let kept = pair.both(
        |t| t.announce_parents(peer(9), Parents::of(&PARENTS), at(1_000)).collect::<Vec<_>>(),
        |s, a| bytes::announce_parents(s, 9, &parents, 1_000, a).map(|count| keys(a, count)),
    );
    assert_eq!(kept, PARENTS.map(Key::Txid));
    assert_eq!((pair.row(0), pair.row(1)), ([9, 1_000, 0, 0, 4 + 16], [9, 1_000, 1, 0, 4 + 16]));

    let offered: [(Item, u64); 3] =
        [(Item::WTx(C), 5), (Item::Tx(Txid(C.0)), 6), (Item::Tx(Txid([7; 32])), 4)];
    let (items, priorities) =
        (offered.map(|(item, _)| item.to_bytes()), offered.map(|(_, p)| p.to_le_bytes()));
    pair.both(
        |t| t.announce_transactions(peer(10), at(2_000), true, true, &offered),
        |s, _| bytes::announce_transactions(s, 10, 2_000, true, true, &listed(&items), &listed(&priorities)),
    );
    assert_eq!((pair.row(2), pair.row(5)), ([10, 4_000, 4, 0, 4], [10, 2_000, 5, 0, 1 + 4]));
    pair.both(
        |t| t.announce_transactions(peer(11), at(3_000), false, false, &offered),
        |s, _| {
            bytes::announce_transactions(s, 11, 3_000, false, false, &listed(&items), &listed(&priorities))
        },
    );
    assert_eq!(pair.row(3), [11, 5_000, 4, 0, 0]);
    assert_eq!(pair.held(), 8);
}

#[test]
fn asked_and_failed() {
    let mut pair = Pair::new();
    for (connection, priority) in [(7, 1), (8, 2), (9, 3)] {
        assert!(pair.announce(connection, Item::WTx(A), 5, false, priority));
    }
    assert!(pair.announce(7, Item::Tx(B), 5, true, 4));
    let taken = pair.ask(1_000);
    assert_eq!(
        taken.iter().map(|e| (e.key, e.candidate.connection.get())).collect::<Vec<_>>(),
        [(Key::Wtxid(A), 7), (Key::Txid(B), 7)]
    );
    assert_eq!(pair.row(1), [7, 5, 1, 61_000, 1 + 8]);

    pair.both(|t| t.unclaim(Key::Txid(B), peer(7)), |s, _| bytes::unclaim(s, &Key::Txid(B), 7));
    assert_eq!(pair.row(0), [7, 5, 4, 0, 4]);
    assert_eq!([7, 8, 10].map(|connection| pair.counts(connection)), [(2, 1), (1, 0), (0, 0)]);
    let owner = Owner { wtxid: true, connection: peer(7), deadline: 61_000 };
    assert_eq!(pair.owners(&[A.0, B.0, C.0]), (2, vec![Some(owner), None, None]));
    assert_eq!(pair.owners(&[A.0]), (1, vec![Some(owner)]));
    assert_eq!(pair.owners(&[]), (0, vec![]));
    assert_eq!(pair.tracker.owners_of(&[B.0, A.0]).err(), Some(Error::WrongHashes));
    for owned in [true, false] {
        let failed = pair.both(
            |t| t.failed(Key::Wtxid(A), peer(7), at(1_001)),
            |s, _| bytes::failed(s, &Key::Wtxid(A), 7, 1_001),
        );
        assert_eq!((failed, pair.row(1)), (owned, [8, 1_001, 2, 0, 1]));
    }
    let given = [Key::Wtxid(A), Key::Wtxid(C)];
    let planned = pair.both(
        |t| t.plan_given(at(1_002), &given).entries.collect::<Vec<_>>(),
        |s, a| {
            bytes::plan_given(s, 1_002, &listed(&given.map(|key| key.to_bytes())), a)
                .map(|p| entries(a, p.count))
        },
    );
    assert_eq!(planned.iter().map(|entry| entry.candidate.connection.get()).collect::<Vec<_>>(), [8]);
    assert_eq!(pair.ask(1_002).len(), 2);
    pair.both(
        |t| t.transaction_response_completed(peer(8), B, A, at(1_003)),
        |s, _| bytes::transaction_response_completed(s, 8, &B.0, &A.0, 1_003),
    );
    assert_eq!(pair.row(1), [9, 1_003, 3, 0, 1]);
    pair.both(|t| t.forget(Key::Txid(B)), |s, _| bytes::forget(s, &Key::Txid(B)));
    assert_eq!(pair.held(), 1);
    pair.both(
        |t| t.forget_known(Key::Wtxid(A), at(1_004)),
        |s, _| bytes::forget_known(s, &Key::Wtxid(A), 1_004),
    );
    assert_eq!(pair.held(), 0);
}

#[test]
fn arranged() {
    let mut pair = Pair::new();
    let parents = PARENTS.map(|parent| parent.0);
    pair.both(
        |t| t.announce_parents(peer(9), Parents::of(&PARENTS), at(0)).count(),
        |s, a| bytes::announce_parents(s, 9, &parents, 0, a),
    );
    pair.announce(7, Item::WTx(A), 0, false, 5);
    let taken = pair.ask(0);
    let given: Vec<_> = taken.iter().map(Entry::to_bytes).collect();
    let witnesses = [peer(8), peer(9)];
    let arranged = pair.both(
        |t| t.arrange(&witnesses, &taken).collect::<Vec<_>>(),
        |s, a| {
            let witnesses = listed(&[8_u64.to_le_bytes(), 9_u64.to_le_bytes()]);
            bytes::arrange(s, &witnesses, &listed(&given), a).map(|count| entries(a, count))
        },
    );
    assert_eq!(
        arranged.iter().map(|entry| entry.candidate.item).collect::<Vec<_>>(),
        [Item::WTx(A), Item::WitnessTx(PARENTS[0]), Item::WitnessTx(PARENTS[1])]
    );
    let list = pair.tracker.arrange(&witnesses, &taken);
    let part = |connection| list.part(peer(connection)).collect::<Vec<_>>();
    assert_eq!((part(7), part(8), part(9)), (arranged[..1].to_vec(), vec![], arranged[1..].to_vec()));
    let bytes: Vec<_> = arranged.iter().map(Entry::to_bytes).collect();
    assert_eq!(bytes::part(&listed(&bytes), 9), Ok(1..3));
}

#[test]
fn packages() {
    let mut pair = Pair::new();
    let listing = [Key::Wtxid(A), Key::Txid(PARENTS[0]), Key::Txid(PARENTS[1])];
    assert!(pair.solicit(7, A, 1_000));
    assert_eq!(pair.row(0), [7, 1_000, 0, 61_000, 1 + 4 + 8]);
    for (now, owner) in [(60_999, Some(7)), (61_000, None)] {
        let found = pair.both(
            |t| t.package_info_owner(Key::Wtxid(A), at(now)).map(Connection::get),
            |s, _| bytes::package_info_owner(s, &Key::Wtxid(A), now),
        );
        assert_eq!(found, owner);
    }
    let failed = pair.both(
        |t| t.failed_with_parents(Key::Wtxid(A), peer(7), at(1_001)).collect::<Vec<_>>(),
        |s, a| bytes::failed_with_parents(s, &Key::Wtxid(A), 7, 1_001, a).map(|count| keys(a, count)),
    );
    assert_eq!((failed.as_slice(), pair.row(1)), (&listing[..], [7, 1_001, 1, 0, 4 + 16]));

    assert!(pair.solicit(8, A, 1_002));
    let failed = |pair: &mut Pair| {
        pair.both(
            |t| t.failed_package_info(Key::Wtxid(A), peer(8), at(1_003)),
            |s, _| bytes::failed_package_info(s, &Key::Wtxid(A), 8, 1_003),
        )
    };
    assert_eq!((failed(&mut pair), failed(&mut pair)), (true, false));

    assert!(pair.solicit(9, A, 1_004) && pair.claim_package(9, A, 1_005) && !pair.begin(8, A, 1_006));
    let failed = pair.both(
        |t| t.failed_package_claims(peer(9), &[[0; 32], PACKAGE], at(1_007)).collect::<Vec<_>>(),
        |s, a| bytes::failed_package_claims(s, 9, &[[0; 32], PACKAGE], 1_007, a).map(|count| keys(a, count)),
    );
    assert_eq!(failed, listing);

    assert!(pair.solicit(10, A, 1_008) && pair.claim_package(10, A, 1_009) && pair.begin(10, A, 1_010));
    let released = pair.both(
        |t| t.release_package(peer(10), A, at(1_011)).collect::<Vec<_>>(),
        |s, a| bytes::release_package(s, 10, &A.0, 1_011, a).map(|count| keys(a, count)),
    );
    assert_eq!(released, listing);
    assert!(pair.solicit(11, A, 1_012) && pair.claim_package(11, A, 1_013));
    let torn = pair.both(
        |t| t.teardown_package_claims(at(1_014)) as usize,
        |s, _| bytes::teardown_package_claims(s, 1_014),
    );
    assert_eq!(torn, 1);
}

#[test]
fn places_run_out() {
    let mut pair = Pair::new();
    assert!(pair.solicit(7, A, 0) && pair.solicit(7, C, 0));
    let third = pair.tracker.solicit_package_info(peer(7), Wtxid([0xe; 32]), Parents::default(), at(0));
    assert_eq!(third, Err(Error::NoPlace));
    assert_eq!(pair.tracker.as_bytes(), pair.store);
}

#[test]
fn not_found_and_gone() {
    let mut pair = Pair::new();
    assert!(pair.solicit(7, A, 1_000) && pair.solicit(7, C, 1_000) && pair.claim_package(7, C, 1_000));
    let items = [Item::Other(7, A.0), Item::Other(6, PACKAGE), Item::Tx(B)];
    let failed = pair.both(
        |t| t.transaction_not_found(peer(7), &items, at(1_001)).collect::<Vec<_>>(),
        |s, a| {
            let items = listed(&items.map(|item| item.to_bytes()));
            bytes::transaction_not_found(s, 7, &items, 1_001, a).map(|count| keys(a, count))
        },
    );
    assert_eq!(failed[0], Key::Wtxid(A));
    assert!(failed.contains(&Key::Wtxid(C)));

    assert!(pair.solicit(8, A, 1_002) && pair.announce(9, Item::WTx(A), 0, true, 1));
    let (own, parents) = pair.both(
        |t| {
            let departed = t.disconnected(peer(8), at(1_003));
            (departed.own.collect::<Vec<_>>(), departed.parents.collect::<Vec<_>>())
        },
        |s, a| {
            bytes::disconnected(s, 8, 1_003, a)
                .map(|left| (keys(a, left.own), keys(&a[left.own * bytes::KEY_BYTES..], left.parents)))
        },
    );
    assert_eq!((own, parents), (vec![Key::Wtxid(A)], PARENTS.map(Key::Txid).to_vec()));
    assert_eq!(pair.row(0)[1], 1_001);
}

#[test]
fn swept_and_polled() {
    let mut pair = Pair::new();
    pair.announce(7, Item::WTx(A), 0, false, 0);
    pair.announce(7, Item::Tx(B), 0, false, 0);
    let swept =
        pair.both(|t| t.sweep().collect::<Vec<_>>(), |s, a| bytes::sweep(s, a).map(|count| keys(a, count)));
    assert_eq!(swept, [Key::Txid(B), Key::Wtxid(A)]);
    assert_eq!(pair.tracker.sweep().len(), 2);
    let saved =
        pair.both(|t| t.save().to_vec(), |s, a| bytes::save(s, a).map(|written| a[..written].to_vec()));
    assert!(saved.starts_with(b"100,2,none,") && saved.ends_with(b",0,0,0\n"), "{saved:?}");
    let mut pair = Pair::new();
    for (now, due) in [(1_000, true), (1_099, false), (1_100, true)] {
        assert_eq!(pair.both(|t| t.poll_gate(at(now)), |s, _| bytes::poll_gate(s, now)), due);
    }
}
