//! A tracker whose bytes nobody else writes.

use alloc::vec;
use alloc::vec::Vec;
use core::fmt;

use crate::store::{Store, StoreMut};
use crate::{Error, Figures, Sizes, bytes};

/// A tracker with its store, which it owns unless it is a [`TrackerMut`] or a [`TrackerRef`].
///
/// Nobody else can write the bytes while it has them, so that they are tested once, when they come from elsewhere, and its calls
/// make no test of them. Types leave one refusal, that of a package for which there is no place. Answers are iterators over a
/// buffer that the tracker owns, and uses again in its next call. Two trackers are equal if they are in one state: a state has one
/// image at its sizes.
///
/// ```
/// use tracker::{Announcement, Connection, Entry, Item, Key, Now, Tracker, Wtxid};
///
/// let mut tracker = Tracker::new(1_000, 16)?;
/// let (silent, next) = (Connection::new(7).expect("not 0"), Connection::new(8).expect("not 0"));
/// let item = Item::WTx(Wtxid([0xaa; 32]));
/// tracker.announce(&Announcement::new(silent, item).preferred());
/// tracker.announce(&Announcement::new(next, item));
///
/// let planned: Vec<Entry> = tracker.plan(Now::new(1_000)?).entries.collect(); // who is to be asked for what
/// let asked = tracker.claim(Now::new(1_000)?, &planned).map(|entry| entry.candidate.connection);
/// assert!(asked.eq([silent])); // a getdata goes out: it has a minute
/// let planned: Vec<Entry> = tracker.plan(Now::new(61_000)?).entries.collect();
/// assert_eq!(planned[0].candidate.connection, next); // it has not come: the other one is asked
/// # Ok::<(), tracker::Error>(())
/// ```
#[derive(Clone)]
pub struct Tracker<S = Vec<u8>> {
    /// A sound store, of its need: opened or tested, and written by calls alone.
    pub(crate) store: S,
    pub(crate) sizes: Sizes,
    /// Where calls answer.
    pub(crate) answer: Vec<u8>,
}

/// A tracker over bytes that are lent to it and that nobody else writes meanwhile: a static array, a part of a larger buffer.
///
/// ```
/// use tracker::{Announcement, Connection, Item, Sizes, TrackerMut, TrackerRef, Txid};
///
/// let mut bytes = vec![0; 30_000]; // the host's
/// let mut tracker = TrackerMut::open(&mut bytes, Sizes::new(100, 2)?)?;
/// let peer = Connection::new(7).expect("not 0");
/// assert!(tracker.announce(&Announcement::new(peer, Item::Tx(Txid([1; 32])))));
///
/// assert_eq!(TrackerRef::from_bytes(&bytes)?.sum().held, 1); // tested anew: the host had them
/// # Ok::<(), tracker::Error>(())
/// ```
pub type TrackerMut<'a> = Tracker<&'a mut [u8]>;

/// A tracker over bytes that are lent to it to be read: the calls that leave them as they are.
pub type TrackerRef<'a> = Tracker<&'a [u8]>;

impl Tracker {
    /// An empty tracker with room for L announcements, 1 to 100,000, and Q packages under way, 1 to 4,096;
    /// [`Error::SizesOutOfRange`] for others.
    pub fn new(l: u64, q: u64) -> Result<Self, Error> {
        Sizes::new(l, q).map(Self::with_sizes)
    }

    /// An empty tracker of these sizes.
    pub fn with_sizes(sizes: Sizes) -> Self {
        opened(vec![0; sizes.need()], sizes).expect("a store of their need")
    }

    /// The tracker that [`save`](Self::save) listed, here or elsewhere; [`Error::NotAListing`] if the text is none,
    /// [`Error::ListingNotSound`] if no tracker can be in the state that it lists.
    ///
    /// ```
    /// use tracker::{Error, Tracker};
    ///
    /// let mut tracker = Tracker::restore(b"4,1,none,none,none\nwa,none,0,none,0,0\n7,wa,0,0,5\n")?;
    /// assert_eq!(tracker.sum().held, 1);
    /// let text = tracker.save().to_vec();
    /// assert_eq!(Tracker::restore(&text)?, tracker);
    /// assert_eq!(Tracker::restore(b"4,1"), Err(Error::NotAListing));
    /// assert_eq!(Tracker::restore(b"0,1,none,none,none\n"), Err(Error::ListingNotSound)); // no room for one announcement
    /// # Ok::<(), Error>(())
    /// ```
    pub fn restore(text: &[u8]) -> Result<Self, Error> {
        restored(vec![0; Sizes::listed(text).map_or(0, Sizes::need)], text)
    }
}

impl<'a> TrackerMut<'a> {
    /// Makes the bytes an empty tracker of these sizes, whatever they were; [`Error::StoreTooShort`] below their need. Bytes past
    /// the need stay.
    pub fn open(store: &'a mut [u8], sizes: Sizes) -> Result<Self, Error> {
        opened(store, sizes)
    }

    /// Makes the bytes the tracker that a listing lists, whatever they were; [`Error::StoreTooShort`] below the need of its sizes,
    /// which is tested last. Bytes past the need stay.
    pub fn restore_in(store: &'a mut [u8], text: &[u8]) -> Result<Self, Error> {
        restored(store, text)
    }
}

/// An empty tracker of these sizes on that store.
fn opened<S: StoreMut>(mut store: S, sizes: Sizes) -> Result<Tracker<S>, Error> {
    bytes::open(store.bytes_mut(), sizes.announcements(), sizes.places())?;
    Ok(Tracker { store: store.cut(sizes.need()), sizes, answer: Vec::new() })
}

/// The tracker that a listing lists, on that store.
fn restored<S: StoreMut>(mut store: S, text: &[u8]) -> Result<Tracker<S>, Error> {
    bytes::restore(store.bytes_mut(), text)?;
    let sizes = Sizes::of(store.bytes()).expect("a sound store has sizes in range");
    Ok(Tracker { store: store.cut(sizes.need()), sizes, answer: Vec::new() })
}

impl<S: Store> Tracker<S> {
    /// A tracker of bytes that [`as_bytes`](Self::as_bytes) gave, here or elsewhere: they are tested, and [`Error::NotSound`] if
    /// they write no sound state. Those past the need are no part of it.
    ///
    /// ```
    /// use tracker::{Error, Tracker};
    ///
    /// let tracker = Tracker::new(100, 2)?;
    /// let kept = tracker.as_bytes().to_vec();
    /// assert_eq!(Tracker::from_bytes(kept)?, tracker);
    /// assert_eq!(Tracker::from_bytes(vec![1; 99]), Err(Error::NotSound));
    /// # Ok::<(), Error>(())
    /// ```
    pub fn from_bytes(store: S) -> Result<Self, Error> {
        if !bytes::sound(store.bytes()) {
            return Err(Error::NotSound);
        }
        let sizes = Sizes::of(store.bytes()).expect("a sound store has sizes in range");
        Ok(Self { store: store.cut(sizes.need()), sizes, answer: Vec::new() })
    }

    /// The store: the image of the tracker's state.
    pub fn as_bytes(&self) -> &[u8] {
        self.store.bytes()
    }

    /// The same, given up.
    pub fn into_bytes(self) -> S {
        self.store
    }

    /// What it has room for.
    pub const fn sizes(&self) -> Sizes {
        self.sizes
    }

    /// Room for an answer of that need.
    pub(crate) fn room(&mut self, need: usize) {
        if self.answer.len() < need {
            self.answer.resize(need, 0);
        }
    }
}

impl<S: Store, T: Store> PartialEq<Tracker<T>> for Tracker<S> {
    fn eq(&self, other: &Tracker<T>) -> bool {
        self.as_bytes() == other.as_bytes()
    }
}

impl<S: Store> Eq for Tracker<S> {}

impl<S: Store> fmt::Debug for Tracker<S> {
    fn fmt(&self, f: &mut fmt::Formatter<'_>) -> fmt::Result {
        let Figures { held, .. } = self.sum();
        f.debug_struct("Tracker").field("sizes", &self.sizes).field("held", &held).finish_non_exhaustive()
    }
}

/// The value of a call that nothing can refuse, by the types of its arguments.
pub(crate) fn settled<T>(status: u64, value: T) -> T {
    assert_eq!(status, 0, "a call that nothing refuses");
    value
}
