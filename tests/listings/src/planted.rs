//! The program tested: the oracle in the library's place with a planted error, which must be told at the very call.

use oracle::image::image;
use oracle::listing::{self, UNREADABLE, UNSOUND};
use oracle::random::Rng;

use crate::damage::{KINDS, Tally};
use crate::hand::{self, Case};
use crate::library::{Library, NOT_SOUND, SHORT_ANSWER, SHORT_STORE, StandIn};
use crate::run;

/// A reading as it was carried out, rightly.
struct Reading<'a> {
    before: &'a [u8],
    store: &'a mut [u8],
    text: &'a [u8],
    status: &'a mut u64,
}

/// A saving as it was carried out, rightly.
struct Saving<'a> {
    answer: &'a mut [u8],
    written: &'a mut u64,
    status: &'a mut u64,
}

/// Plants the error and says so, or does nothing if the call has no room for it.
enum Fault {
    Reading(fn(&mut Reading, &mut Rng) -> bool),
    Saving(fn(&mut Saving, &mut Rng) -> bool),
}

fn flip(rng: &mut Rng, bytes: &mut [u8]) -> bool {
    if !bytes.is_empty() {
        bytes[rng.index(bytes.len())] ^= 1 << rng.below(8);
    }
    !bytes.is_empty()
}

/// Puts one status in the place of another.
fn told(status: &mut u64, old: u64, new: u64) -> bool {
    let was = *status == old;
    *status = if was { new } else { *status };
    was
}

impl Reading<'_> {
    /// The image's bytes and those past them, of a store that was written.
    fn parts(&mut self) -> Option<(&mut [u8], &mut [u8])> {
        let state = listing::read(self.text).ok().filter(|_| *self.status == 0)?;
        Some(self.store.split_at_mut(image(&state).len()))
    }

    /// Whether a request line has the key of the request line before it.
    fn has_a_key_twice(&self) -> bool {
        let keys =
            self.text.split(|byte| *byte == b'\n').filter(|line| matches!(line.first(), Some(b't' | b'w')));
        let keys: Vec<&[u8]> = keys.filter_map(|line| line.split(|byte| *byte == b',').next()).collect();
        keys.windows(2).any(|pair| pair[0] == pair[1])
    }
}

const FAULTS: &[(&str, Fault)] = &[
    ("12 taken", Fault::Reading(|call, _| told(call.status, UNSOUND, 0))),
    ("11 taken", Fault::Reading(|call, _| told(call.status, UNREADABLE, 0))),
    ("11 for 12", Fault::Reading(|call, _| told(call.status, UNSOUND, UNREADABLE))),
    ("12 for 11", Fault::Reading(|call, _| told(call.status, UNREADABLE, UNSOUND))),
    (
        "1 before 12",
        Fault::Reading(|call, _| call.store.is_empty() && told(call.status, UNSOUND, SHORT_STORE)),
    ),
    (
        "1 before 11",
        Fault::Reading(|call, _| call.store.is_empty() && told(call.status, UNREADABLE, SHORT_STORE)),
    ),
    ("a short store taken", Fault::Reading(|call, _| told(call.status, SHORT_STORE, 0))),
    ("12 for a sound one", Fault::Reading(|call, _| told(call.status, 0, UNSOUND))),
    (
        "11 for a key twice",
        Fault::Reading(|call, _| call.has_a_key_twice() && told(call.status, UNSOUND, UNREADABLE)),
    ),
    ("a refused store's byte", Fault::Reading(|call, rng| *call.status != 0 && flip(rng, call.store))),
    (
        "a byte of the image",
        Fault::Reading(|call, rng| call.parts().is_some_and(|(image, _)| flip(rng, image))),
    ),
    (
        "a byte past the need",
        Fault::Reading(|call, rng| call.parts().is_some_and(|(_, rest)| flip(rng, rest))),
    ),
    (
        "nothing written",
        Fault::Reading(|call, _| {
            call.store.copy_from_slice(call.before);
            *call.status == 0
        }),
    ),
    (
        "old bytes left where nothing stands",
        Fault::Reading(|call, _| {
            let before = call.before;
            let Some((image, _)) = call.parts() else { return false };
            let mut left = false;
            for (byte, old) in image.iter_mut().zip(before).filter(|(byte, old)| **byte == 0 && **old != 0) {
                (*byte, left) = (*old, true);
            }
            left
        }),
    ),
    (
        "what fits of a store that is too short",
        Fault::Reading(|call, _| {
            let Some(state) = listing::read(call.text).ok().filter(|_| *call.status == SHORT_STORE) else {
                return false;
            };
            call.store.copy_from_slice(&image(&state)[..call.store.len()]);
            !call.store.is_empty()
        }),
    ),
    (
        "a byte of the text",
        Fault::Saving(|call, rng| {
            let length = *call.written as usize;
            *call.status == 0 && flip(rng, &mut call.answer[..length])
        }),
    ),
    (
        "a byte past the text",
        Fault::Saving(|call, rng| {
            let length = *call.written as usize;
            *call.status == 0 && flip(rng, &mut call.answer[length..])
        }),
    ),
    (
        "another length",
        Fault::Saving(|call, _| {
            *call.written -= u64::from(*call.status == 0);
            *call.status == 0
        }),
    ),
    ("a refused answer's byte", Fault::Saving(|call, rng| *call.status != 0 && flip(rng, call.answer))),
    (
        "a length of a refused call",
        Fault::Saving(|call, _| {
            *call.written += u64::from(*call.status != 0);
            *call.status != 0
        }),
    ),
    ("3 passed over", Fault::Saving(|call, _| told(call.status, NOT_SOUND, 0))),
    ("7 before 3", Fault::Saving(|call, _| told(call.status, NOT_SOUND, SHORT_ANSWER))),
    ("7 passed over", Fault::Saving(|call, _| told(call.status, SHORT_ANSWER, 0))),
    ("7 with room", Fault::Saving(|call, _| told(call.status, 0, SHORT_ANSWER))),
];

/// The oracle, with the error at a call from a certain one on.
struct Planted<'a> {
    fault: &'a Fault,
    rng: Rng,
    from: u64,
    calls: u64,
    at: Option<u64>,
}

impl Planted<'_> {
    fn due(&mut self) -> bool {
        self.calls += 1;
        self.at.is_none() && self.calls >= self.from
    }
}

impl Library for Planted<'_> {
    fn save(&mut self, store: &[u8], answer: &mut [u8], written: &mut u64) -> u64 {
        let mut status = StandIn.save(store, answer, written);
        if let (true, Fault::Saving(plant)) = (self.due(), self.fault) {
            let mut call = Saving { answer, written, status: &mut status };
            if plant(&mut call, &mut self.rng) {
                self.at = Some(self.calls);
            }
        }
        status
    }

    fn restore(&mut self, store: &mut [u8], text: &[u8]) -> u64 {
        let before = store.to_vec();
        let mut status = StandIn.restore(store, text);
        if let (true, Fault::Reading(plant)) = (self.due(), self.fault) {
            let mut call = Reading { before: &before, store, text, status: &mut status };
            if plant(&mut call, &mut self.rng) {
                self.at = Some(self.calls);
            } else if status == 0 {
                StandIn.restore(store, text);
            }
        }
        status
    }
}

/// Runs for each error, states of each, and the call that an error waits for at most.
const TRIALS: u64 = 3;
const STATES: u64 = 80;
const LATEST: u64 = 150;

fn found(name: &str, fault: &Fault) -> Result<(), String> {
    let mut found = 0;
    for seed in 0..TRIALS {
        let mut rng = Rng::new(seed);
        let from = rng.below(LATEST);
        let mut planted = Planted { fault, rng, from, calls: 0, at: None };
        let result = run::all(&mut planted, STATES, seed).map(drop);
        match (planted.at, &result) {
            (None, Ok(())) => {}
            (Some(at), Err(_)) if at == planted.calls => found += 1,
            (at, _) => {
                return Err(format!("{name}: planted at {at:?}, told at {}: {result:?}", planted.calls));
            }
        }
    }
    if found == 0 { Err(format!("{name}: never planted")) } else { Ok(()) }
}

/// What keeps a run from passing that met too little or a verdict that cannot be.
fn tallies() -> Result<(), String> {
    let met = run::all(&mut StandIn, 2, 1)?;
    let falling = KINDS.iter().position(|kind| kind.name == "falling keys").ok_or("no falling keys")?;
    if met.damaged.missing().is_empty()
        || Tally::new().met(falling, UNSOUND).is_ok()
        || Tally::new().met(falling, UNREADABLE).is_err()
    {
        return Err("a run of two states met all, or falling keys may get 12".to_owned());
    }
    Ok(())
}

/// No error is found where there is none, and each planted one is.
pub fn all(cases: &[Case]) -> Result<String, String> {
    hand::all(&mut StandIn, cases)?;
    for seed in 0..TRIALS {
        run::all(&mut StandIn, STATES, seed)?;
    }
    tallies()?;
    for (name, fault) in FAULTS {
        found(name, fault)?;
    }
    let changed = cases.iter().filter(|case| hand::all(&mut StandIn, &[case.mistaken()]).is_ok()).count();
    if changed > 0 {
        return Err(format!("{changed} cases by hand with another verdict are not told"));
    }
    Ok(format!("{} planted errors and {} changed cases told", FAULTS.len(), cases.len()))
}
