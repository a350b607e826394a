//! A program without std and without memory to take: it does not compile if the package wants the one, nor if it wants the other.
#![no_std]
#![no_main]

use core::ffi::c_int;
use core::panic::PanicInfo;

use tracker::{Announcement, Connection, Entry, Item, Key, Now, Sizes, Txid, bytes};

const SIZES: Sizes = match Sizes::new(4, 1) {
    Ok(sizes) => sizes,
    Err(_) => panic!("in range"),
};

#[link(name = "c")]
unsafe extern "C" {
    fn abort() -> !;
}

#[panic_handler]
fn panicked(_: &PanicInfo) -> ! {
    // SAFETY: it may be called anywhere.
    unsafe { abort() }
}

/// What core's own object files name, and nobody calls where a panic ends the program.
#[unsafe(no_mangle)]
extern "C" fn rust_eh_personality() {}

/// Announces, plans and claims on bytes that stand in the program.
fn asked() -> Option<Entry> {
    let (mut store, mut answer, mut taken) =
        ([0; SIZES.need()], [0; 4 * bytes::ENTRY_BYTES], [0; 4 * bytes::ENTRY_BYTES]);
    let now = Now::from(1_000).millis();
    bytes::open(&mut store, SIZES.announcements(), SIZES.places()).ok()?;
    let candidate = bytes::Candidate {
        connection: 7,
        item_type: 1,
        hash: [9; 32],
        ready: now,
        preferred: true,
        priority: 5,
    };
    bytes::announce(&mut store, &candidate).ok()?;
    let count = bytes::plan(&mut store, now, &mut answer).ok()?.count;
    let checked = &answer[..count * bytes::ENTRY_BYTES];
    let count = bytes::claim(&mut store, now, checked, &mut taken).ok()?;
    bytes::entries(&taken, count).next()
}

#[unsafe(no_mangle)]
extern "C" fn main(_: c_int, _: *const *const u8) -> c_int {
    let connection = Connection::new(7).expect("not 0");
    let candidate =
        Announcement::new(connection, Item::Tx(Txid([9; 32]))).preferred().ready_at(1_000).priority(5);
    c_int::from(asked() != Some(Entry { key: Key::Txid(Txid([9; 32])), candidate }))
}
