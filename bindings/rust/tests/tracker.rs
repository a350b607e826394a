//! The types of the package: what they take, what they refuse, what they say.

use std::error::Error as _;
use std::time::Duration;

use tracker::{
    Announcement, Connection, Counts, Error, Item, Key, Now, Parents, Sizes, Tracker, TrackerMut, TrackerRef,
    Txid, Wtxid, bytes, payloads,
};

fn peer(number: u64) -> Connection {
    Connection::new(number).expect("not 0")
}

#[test]
fn refusals_have_numbers_and_words() {
    assert_eq!(Error::ALL.map(Error::number), [1, 2, 3, 4, 5, 6, 7, 8, 10, 11, 12, 13]);
    assert!(Error::ALL.iter().all(|error| Error::from_number(error.number()) == Some(*error)));
    assert_eq!((Error::from_number(0), Error::from_number(9)), (None, None));
    assert_eq!(Error::NoPlace.to_string(), "all package places are held");
    assert!(Error::NoPlace.source().is_none());
}

/// Each refusal of the checked calls, by the library itself.
#[test]
fn refusals_are_the_librarys() {
    let mut store = vec![0; Sizes::new(10, 1).unwrap().need()];
    assert_eq!(bytes::open(&mut store[1..], 10, 1), Err(Error::StoreTooShort));
    assert_eq!(bytes::open(&mut store, 10, 0), Err(Error::SizesOutOfRange));
    assert_eq!(bytes::sum(&store), Err(Error::NotSound));
    bytes::open(&mut store, 10, 1).unwrap();
    let key = Key::Txid(Txid([1; 32]));
    assert_eq!(bytes::unclaim(&mut store, &key, 0), Err(Error::NoConnection));
    assert_eq!(bytes::failed(&mut store, &key, 7, Now::LATEST.millis()), Ok(false));
    assert_eq!(bytes::failed(&mut store, &key, 7, Now::LATEST.millis() + 1), Err(Error::NowTooLate));
    let mut answer = [0; bytes::KEYS_NEED];
    let parents = [[1; 32]; Parents::MAX + 1];
    assert_eq!(bytes::announce_parents(&mut store, 7, &parents, 0, &mut answer), Err(Error::TooManyParents));
    assert_eq!(bytes::announce_parents(&mut store, 7, &parents[1..], 0, &mut answer), Ok(1));
    assert_eq!(bytes::sweep(&mut store, &mut answer[..399]), Err(Error::AnswerTooShort));
    assert_eq!(bytes::solicit_package_info(&mut store, 7, &[2; 32], &[], 0), Ok(true));
    assert_eq!(bytes::solicit_package_info(&mut store, 7, &[3; 32], &[], 0), Err(Error::NoPlace));
    let mut hashes = vec![[0; 32]; bytes::MAX_HASHES + 1];
    hashes.iter_mut().zip(0u16..).for_each(|(hash, i)| hash[30..].copy_from_slice(&i.to_le_bytes()));
    let mut answer = vec![0; bytes::MAX_HASHES * bytes::OWNER_BYTES];
    assert_eq!(bytes::owners_of(&store, &hashes, &mut []), Err(Error::WrongHashes));
    assert_eq!(bytes::owners_of(&store, &hashes[1..], &mut answer[1..]), Err(Error::AnswerTooShort));
    assert_eq!(bytes::owners_of(&store, &hashes[1..], &mut answer), Ok(2));
    assert_eq!(bytes::owners_of(&store, &[hashes[1], hashes[1]], &mut answer), Err(Error::WrongHashes));
}

#[test]
fn sizes_are_in_range() {
    for (l, q) in [(0, 1), (100_001, 1), (1, 0), (1, 4_097)] {
        assert_eq!(Tracker::new(l, q), Err(Error::SizesOutOfRange));
    }
    let largest = Sizes::new(100_000, 4_096).unwrap();
    assert_eq!((largest.announcements(), largest.places(), largest.need()), (100_000, 4_096, 36_601_024));
    assert_eq!((largest.sweep_need(), largest.plan_need()), (bytes::SWEEP_NEED, bytes::PLAN_NEED));
    assert_eq!(largest.disconnected_need(), (5_000 + 100 * 4_096) * bytes::KEY_BYTES);
    assert_eq!(Tracker::new(100, 2).map(|tracker| tracker.as_bytes().len()), Ok(22_976));
    assert_eq!((Sizes::of(&[0; 23]), Sizes::of(&[0; 24])), (None, None));
}

/// A need is the least length that is no refusal 7.
#[test]
fn needs_are_the_librarys() {
    let sizes = Sizes::new(60, 2).unwrap();
    let mut store = vec![0; sizes.need()];
    bytes::open(&mut store, 60, 2).unwrap();
    let item = Item::Tx(Txid([1; 32])).to_bytes();
    let mut tried = |need: usize, call: &dyn Fn(&mut [u8], &mut [u8]) -> Result<(), Error>| {
        assert_eq!(call(&mut store, &mut vec![0; need - 1]), Err(Error::AnswerTooShort));
        assert_eq!(call(&mut store, &mut vec![0; need]), Ok(()));
    };
    tried(sizes.sweep_need(), &|s, a| bytes::sweep(s, a).map(drop));
    tried(sizes.plan_need(), &|s, a| bytes::plan(s, 0, a).map(drop));
    tried(sizes.disconnected_need(), &|s, a| bytes::disconnected(s, 7, 0, a).map(drop));
    tried(sizes.failed_package_claims_need(), &|s, a| {
        bytes::failed_package_claims(s, 7, &[], 0, a).map(drop)
    });
    tried(sizes.not_found_need(1), &|s, a| bytes::transaction_not_found(s, 7, &item, 0, a).map(drop));
    tried(bytes::KEYS_NEED, &|s, a| bytes::announce_parents(s, 7, &[], 0, a).map(drop));
    tried(bytes::ENTRY_BYTES, &|s, a| bytes::claim(s, 0, &[0; bytes::ENTRY_BYTES], a).map(drop));
}

#[test]
fn bytes_are_tested_and_cut() {
    let mut tracker = Tracker::new(10, 1).unwrap();
    tracker.announce(&Announcement::new(peer(7), Item::Tx(Txid([1; 32]))));
    let mut longer = tracker.as_bytes().to_vec();
    longer.extend([9; 100]);
    let again = Tracker::from_bytes(longer).unwrap();
    assert_eq!((&again, again.sizes()), (&tracker, tracker.sizes()));
    let mut damaged = again.into_bytes();
    *damaged.last_mut().unwrap() ^= 1;
    assert_eq!(Tracker::from_bytes(damaged), Err(Error::NotSound));
}

#[test]
fn bytes_are_lent() {
    let sizes = Sizes::new(10, 1).unwrap();
    let mut lent = vec![9; sizes.need() + 5];
    assert_eq!(TrackerMut::open(&mut lent[..sizes.need() - 1], sizes), Err(Error::StoreTooShort));
    let announcement = Announcement::new(peer(7), Item::WTx(Wtxid([1; 32])));
    let mut opened = TrackerMut::open(&mut lent, sizes).unwrap();
    assert!(opened.announce(&announcement));
    assert_eq!(opened.into_bytes().len(), sizes.need());
    assert_eq!(lent[sizes.need()..], [9; 5]);

    let read = TrackerRef::from_bytes(&lent).unwrap();
    assert_eq!(
        (read.sum().held, read.package_info_owner(Key::Wtxid(Wtxid([1; 32])), Now::from(0))),
        (1, None)
    );
    assert_eq!(read.counts(peer(7)), Counts { announced: 1, owned: 0 });
    let mut own = Tracker::new(10, 1).unwrap();
    own.announce(&announcement);
    assert_eq!(read, own);

    let mut tracker = TrackerMut::from_bytes(&mut lent).unwrap();
    assert!(tracker.sweep().eq([Key::Wtxid(Wtxid([1; 32]))]));
    lent[0] ^= 1;
    assert_eq!(TrackerRef::from_bytes(&lent), Err(Error::NotSound));
    assert_eq!(TrackerMut::from_bytes(&mut lent[..7]), Err(Error::NotSound));
}

#[test]
fn values_are_within_bounds() {
    assert_eq!(Now::new(u64::MAX - 60_000), Ok(Now::LATEST));
    assert_eq!(Now::new(u64::MAX - 59_999), Err(Error::NowTooLate));
    assert_eq!(Now::try_from(Duration::from_millis(1_500)), Ok(Now::from(1_500)));
    assert_eq!(Now::try_from(Duration::MAX), Err(Error::NowTooLate));
    assert_eq!(Parents::new(&[Txid([1; 32]); 100]).map(|parents| parents.txids().len()), Ok(100));
    assert_eq!(Parents::new(&[Txid([1; 32]); 101]), Err(Error::TooManyParents));
    assert_eq!((Connection::new(0), Connection::try_from(7)), (None, Ok(peer(7))));
}

/// The order of keys is the tracker's: a sweep hands them out by it.
#[test]
fn keys_are_ordered_by_number() {
    let hash = |low, high| {
        let mut hash = [0; 32];
        (hash[0], hash[31]) = (low, high);
        hash
    };
    let hashes = [hash(3, 0), hash(9, 1), hash(1, 2)];
    let mut keys: Vec<Key> = hashes.map(|hash| Key::from(Wtxid(hash))).to_vec();
    keys.extend(hashes.map(|hash| Key::from(Txid(hash))));
    let mut tracker = Tracker::new(10, 1).unwrap();
    for (key, connection) in keys.iter().rev().zip(1..) {
        let item = match *key {
            Key::Txid(id) => Item::Tx(id),
            Key::Wtxid(id) => Item::WTx(id),
        };
        assert!(tracker.announce(&Announcement::new(peer(connection), item)));
    }
    keys.sort();
    assert!(tracker.sweep().eq(keys));
}

#[test]
fn items_have_numbers_and_keys() {
    let (id, wtxid) = (Txid([1; 32]), Wtxid([1; 32]));
    let items = [Item::Tx(id), Item::WitnessTx(id), Item::WTx(wtxid), Item::Other(6, id.0)];
    assert_eq!(items.map(|item| item.parts().0), [1, 0x4000_0001, 5, 6]);
    assert_eq!(
        items.map(|item| item.key()),
        [Some(Key::Txid(id)), Some(Key::Txid(id)), Some(Key::Wtxid(wtxid)), None]
    );
    for item in items {
        assert_eq!(Item::from_parts(item.parts().0, *item.parts().1), item);
        let mut tracker = Tracker::new(1, 1).unwrap();
        assert_eq!(tracker.announce(&Announcement::new(peer(7), item)), item.key().is_some());
        assert!(tracker.sweep().eq(item.key()));
    }
}

#[test]
fn payloads_there_and_back() {
    for n in [0, 1, 252, 253, 50_000, 50_001] {
        let items: Vec<Item> = (0..n).map(|i| Item::from_parts(i as u32 % 9, [i as u8; 32])).collect();
        let payload = payloads::write(&items);
        if n > bytes::MAX_ITEMS {
            assert_eq!(payload, Err(Error::BadPayload));
            continue;
        }
        let payload = payload.unwrap();
        assert_eq!(payload.len(), bytes::write_payload_need(n));
        assert_eq!(payloads::read(&payload), Ok(items));
        // The needs, by the calls' own test of them.
        let need = bytes::read_payload_need(payload.len());
        let mut answer = vec![7; need];
        assert_eq!(bytes::read_payload(&payload, &mut answer), Ok(n));
        if n > 0 {
            assert_eq!(bytes::read_payload(&payload, &mut answer[1..]), Err(Error::AnswerTooShort));
        }
        let mut again = vec![7; payload.len()];
        assert_eq!(bytes::write_payload(&answer, &mut again[1..]), Err(Error::AnswerTooShort));
        assert_eq!(bytes::write_payload(&answer, &mut again), Ok(payload.len()));
        assert_eq!(again, payload);
        assert_eq!(payloads::read(&payload[1..]), Err(Error::BadPayload));
    }
    for number in [1, 5, 0x4000_0001] {
        assert_eq!(payloads::write(&[Item::Other(number, [1; 32])]), Err(Error::BadPayload));
    }
}

#[test]
fn what_is_shown() {
    let mut tracker = Tracker::new(100, 1).unwrap();
    tracker.announce(&Announcement::new(peer(7), Item::Tx(Txid([1; 32]))));
    let shown = "Tracker { sizes: Sizes { announcements: 100, places: 1 }, held: 1, .. }";
    assert_eq!(format!("{tracker:?}"), shown);
    let mut bytes = [0xab; 32];
    bytes[31] = 1;
    assert_eq!(Txid(bytes).to_string(), format!("01{}", "ab".repeat(31)));
    assert_eq!(format!("{:?}", Wtxid([0; 32])), format!("Wtxid({})", "0".repeat(64)));
    assert_eq!((peer(7).to_string(), Now::from(9).to_string()), ("7".into(), "9".into()));
}
