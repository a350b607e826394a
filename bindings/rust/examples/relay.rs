//! Three connections announce two transactions; one delivers, one stays silent, one leaves. Prints who is asked when.

use tracker::{Announcement, Connection, Counts, Entry, Error, Item, Key, Now, Tracker, Txid, Wtxid};

/// Asks, at that time, whom the tracker selects.
fn ask(tracker: &mut Tracker, now: Now) {
    let planned: Vec<Entry> = tracker.plan(now).entries.collect();
    for Entry { key, candidate } in tracker.claim(now, &planned) {
        println!("{now}: {} is asked for {}", candidate.connection, named(key));
    }
}

fn named(key: Key) -> String {
    match key {
        Key::Txid(id) => format!("txid {:.4}..", id.to_string()),
        Key::Wtxid(id) => format!("wtxid {:.4}..", id.to_string()),
    }
}

fn main() -> Result<(), Error> {
    let mut tracker = Tracker::new(1_000, 16)?;
    let peer = |number| Connection::new(number).expect("not 0");
    let (a, b) = (Wtxid([0xaa; 32]), Txid([0xbb; 32]));

    tracker.announce(&Announcement::new(peer(7), Item::WTx(a)).ready_at(1_000).priority(1).preferred());
    tracker.announce(&Announcement::new(peer(8), Item::WTx(a)).ready_at(1_000).priority(2));
    tracker.announce(&Announcement::new(peer(9), Item::WTx(a)).ready_at(1_000).priority(3));
    tracker.announce(&Announcement::new(peer(9), Item::Tx(b)).ready_at(1_000).priority(4));
    ask(&mut tracker, Now::new(1_000)?);
    let Counts { announced, owned } = tracker.counts(peer(9));
    println!("1000: 9 has {announced} announcements and owns {owned}");

    println!("1500: {} has come from 9", named(Key::Txid(b)));
    tracker.forget_known(Key::Txid(b), Now::new(1_500)?);
    ask(&mut tracker, Now::new(60_999)?); // nothing: 7 has until 61000
    ask(&mut tracker, Now::new(61_000)?); // 7 stayed silent
    for key in tracker.disconnected(peer(8), Now::new(62_000)?).own {
        println!("62000: 8 leaves {}", named(key));
    }
    ask(&mut tracker, Now::new(62_000)?);
    println!("62500: {} has come from 9", named(Key::Wtxid(a)));
    tracker.forget_known(Key::Wtxid(a), Now::new(62_500)?);
    println!("{} announcements are held", tracker.sum().held);
    Ok(())
}
