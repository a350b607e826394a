//! Named profiles: the sizes, states and values that a run draws from.

use oracle::calls::{Hash, Kind};
use oracle::random::{self, Rng, Shape};
use oracle::sound::MAX_OF_CONNECTION;
use oracle::state::State;

/// Hashes of a run: any, or equal in all words but one.
#[derive(Clone, Copy)]
pub enum Hashes {
    Any,
    HighWord,
    LowWord,
}

/// What the store holds before the first call.
#[derive(Clone, Copy)]
pub enum Start {
    /// Any bytes, which the run opens first.
    Opened,
    /// Any sound state, owners, marks and packages among it.
    Any,
    /// L held, or a few less.
    Full,
    /// L held, all unpreferred and unowned, every Txid request marked.
    Marked,
    /// One connection with 5,000, or as many as fit, or a few less.
    OneConnection,
    /// Every request owned, all places held, a quarter of L free.
    AllPlaces,
    /// One or two connections that own 100 requests, or as many as there are.
    Owning,
    /// One or two connections that own nothing and can deliver at any time.
    Unowned,
    /// Packages of one to three connections, most of them Awaiting, half of them with one of two combined hashes.
    Awaiting,
    /// Half of L held by many connections, few of them owners; every place a package with 100 parents.
    Parents,
    /// Reached by calls.
    Walked,
}

/// Which calls are frequent.
#[derive(Clone, Copy, PartialEq)]
pub enum Theme {
    Announcements,
    Packages,
}

/// Calls that are drawn more often than by their weights.
#[derive(Clone, Copy, PartialEq)]
pub enum Often {
    None,
    /// Every second call is a plan.
    Plans,
    /// Two draws in three are among the package calls, the third among all: four calls in five are of them.
    Packages,
    /// Three calls in four tell owners.
    Owners,
}

#[derive(Clone, Copy)]
pub struct Profile {
    pub name: &'static str,
    pub theme: Theme,
    pub often: Often,
    pub sizes: &'static [(u64, u64)],
    pub start: Start,
    pub hashes: Hashes,
    /// How many hashes and connections there are to draw from beside those of the state.
    pub width: usize,
    pub connections: usize,
    /// Priorities are below this; any 64 bits if it is 0.
    pub priorities: u64,
    pub calls: u64,
    /// Stores at which a call takes long: one run of each size in a round.
    pub large: bool,
}

const SMALL: Profile = Profile {
    name: "few of each, L reached",
    theme: Theme::Announcements,
    often: Often::None,
    sizes: &[(1, 1), (2, 1), (3, 2), (8, 1), (9, 1)],
    start: Start::Opened,
    hashes: Hashes::Any,
    width: 6,
    connections: 5,
    priorities: 3,
    calls: 150,
    large: false,
};

const MARKED: Profile = Profile {
    name: "the first calls on few of each, marked",
    sizes: &[(1, 1), (2, 1), (3, 1)],
    start: Start::Marked,
    width: 1,
    connections: 3,
    calls: 8,
    ..SMALL
};

const CROWDED: Profile = Profile {
    name: "more than eight connections at two hashes",
    sizes: &[(9, 1), (40, 1), (100, 2)],
    width: 2,
    connections: 14,
    calls: 300,
    ..SMALL
};

const LARGE: Profile = Profile {
    name: "L = 100,000",
    theme: Theme::Announcements,
    often: Often::None,
    sizes: &[(100_000, 1), (100_000, 16)],
    start: Start::Full,
    hashes: Hashes::Any,
    width: 20,
    connections: 20,
    priorities: 0,
    calls: 30,
    large: true,
};

const PACKAGES: Profile = Profile {
    name: "packages, any state",
    theme: Theme::Packages,
    sizes: &[(6, 1), (9, 2), (30, 2), (60, 16)],
    start: Start::Any,
    calls: 75,
    ..SMALL
};

/// Calls of a run of package calls: they end more requests than others begin.
const SHORT: u64 = 24;

/// The profiles: as they stand, with plans or questions for owners, or those that package calls find enough in.
pub fn in_use(often: Often) -> Vec<Profile> {
    let all = PROFILES.iter();
    match often {
        Often::None => PROFILES.to_vec(),
        Often::Plans | Often::Owners => all.map(|profile| Profile { often, ..*profile }).collect(),
        Often::Packages => all.filter_map(Profile::with_package_calls).collect(),
    }
}

const PROFILES: &[Profile] = &[
    SMALL,
    Profile { name: "few of each, any state", start: Start::Any, ..SMALL },
    MARKED,
    Profile { name: "the first calls on two hashes, marked", width: 2, ..MARKED },
    CROWDED,
    Profile { name: "more than eight connections at a hash", width: 1, ..CROWDED },
    Profile {
        name: "hashes that differ in the lowest word",
        sizes: &[(8, 1), (9, 2), (30, 1)],
        hashes: Hashes::LowWord,
        priorities: 2,
        ..SMALL
    },
    Profile {
        name: "hashes that differ in the highest word",
        sizes: &[(8, 1), (9, 2), (30, 1)],
        hashes: Hashes::HighWord,
        priorities: 1,
        ..SMALL
    },
    Profile {
        name: "any values",
        sizes: &[(6, 1), (30, 2), (100, 3)],
        start: Start::Any,
        width: 30,
        connections: 10,
        priorities: 0,
        ..SMALL
    },
    Profile {
        name: "full, any values",
        sizes: &[(9, 1), (60, 1), (100, 2)],
        start: Start::Full,
        width: 12,
        connections: 12,
        ..SMALL
    },
    PACKAGES,
    Profile { name: "packages, opened", start: Start::Opened, ..PACKAGES },
    Profile { name: "packages, reached by calls", start: Start::Walked, ..PACKAGES },
    Profile {
        name: "all places held",
        sizes: &[(6, 1), (12, 2), (40, 16), (100, 16)],
        start: Start::AllPlaces,
        ..PACKAGES
    },
    Profile {
        name: "packages, full, any values",
        sizes: &[(9, 1), (30, 2), (60, 16)],
        start: Start::Full,
        priorities: 0,
        ..PACKAGES
    },
    Profile {
        name: "packages of one combined hash",
        sizes: &[(30, 6), (80, 16), (80, 16)],
        start: Start::Awaiting,
        connections: 2,
        calls: 30,
        ..PACKAGES
    },
    Profile {
        name: "connections that own 100",
        sizes: &[(140, 2), (280, 16)],
        start: Start::Owning,
        connections: 1,
        ..PACKAGES
    },
    Profile {
        name: "connections that own nothing of 150",
        sizes: &[(150, 1), (280, 2)],
        start: Start::Unowned,
        connections: 1,
        calls: 60,
        ..PACKAGES
    },
    Profile {
        name: "plans, any state",
        often: Often::Plans,
        sizes: &[(9, 1), (30, 2), (60, 16)],
        calls: 40,
        ..PACKAGES
    },
    Profile {
        name: "plans of connections that own 100",
        often: Often::Plans,
        sizes: &[(150, 1), (280, 2)],
        start: Start::Unowned,
        connections: 1,
        calls: 40,
        ..PACKAGES
    },
    Profile {
        name: "plans, hundreds of parents",
        often: Often::Plans,
        sizes: &[(600, 6), (900, 16)],
        start: Start::Parents,
        calls: 20,
        ..PACKAGES
    },
    Profile {
        name: "plans, more than 1,024 parents",
        often: Often::Plans,
        sizes: &[(4_000, 16), (5_000, 20), (6_000, 30)],
        start: Start::Parents,
        calls: 24,
        large: true,
        ..PACKAGES
    },
    Profile {
        name: "Q = 4,096, all held",
        sizes: &[(6_000, 4_096)],
        start: Start::AllPlaces,
        calls: 12,
        large: true,
        ..PACKAGES
    },
    Profile { name: "Q = 4,096", sizes: &[(500, 4_096)], calls: 12, large: true, ..PACKAGES },
    LARGE,
    Profile { name: "L = 10,000", sizes: &[(10_000, 1), (10_000, 3)], priorities: 3, calls: 150, ..LARGE },
    Profile {
        name: "one connection, L = 10,000",
        sizes: &[(10_000, 1)],
        start: Start::OneConnection,
        calls: 100,
        ..LARGE
    },
    Profile {
        name: "one connection, L = 4,999 to 5,001",
        sizes: &[(4_999, 1), (5_000, 1), (5_001, 2)],
        start: Start::OneConnection,
        connections: 10,
        priorities: 3,
        calls: 150,
        ..LARGE
    },
];

impl Profile {
    /// Short runs of package calls, if it is a profile of packages or one of a connection that can leave 5,000 requests.
    fn with_package_calls(&self) -> Option<Self> {
        let (often, theme, calls) = (Often::Packages, Theme::Packages, SHORT);
        let fit = self.theme == theme || matches!(self.start, Start::OneConnection);
        fit.then_some(Self { often, theme, calls, ..*self })
    }

    pub fn state(&self, rng: &mut Rng, l: u64, q: u64) -> State {
        let less = rng.below(4);
        let shape = Shape {
            l,
            q,
            held: l.saturating_sub(less),
            places: rng.below(q + 1),
            connections: rng.pick(&[12, 60, 600]),
            spread: 4,
            owned: 3,
            list: None,
        };
        let shape = match self.start {
            Start::Opened => Shape { held: 0, ..shape },
            Start::Any => Shape::any(rng, l, q),
            Start::Full => shape,
            Start::Marked => Shape { held: l, places: 0, ..shape },
            Start::OneConnection => {
                let less = rng.pick(&[0, less, 100 - less, 100 - less]);
                Shape { held: l.min(MAX_OF_CONNECTION) - less, connections: 1, spread: 1, ..shape }
            }
            Start::AllPlaces => {
                Shape { held: l - l / 4, places: q, connections: 90, spread: 1, owned: 1, ..shape }
            }
            Start::Owning => {
                let shape = Shape { held: l - l / 4, connections: 1 + rng.index(2), ..shape };
                Shape { places: if rng.one_in(2) { q } else { shape.places }, spread: 1, owned: 1, ..shape }
            }
            Start::Unowned => {
                Shape { held: l, connections: 1 + rng.index(2), spread: 1, owned: u64::MAX, ..shape }
            }
            Start::Awaiting => {
                Shape { held: l - l / 4, connections: 1 + rng.index(3), places: q, owned: 1, ..shape }
            }
            Start::Parents => Shape {
                held: l / 2,
                connections: 60,
                places: q,
                spread: 1,
                owned: 30,
                list: Some(100),
                ..shape
            },
            Start::Walked => return random::walk(rng, l, q, 40 + less as usize * 40),
        };
        let mut state = random::state(rng, shape);
        match self.start {
            Start::Marked => mark(&mut state),
            Start::Unowned => ready(&mut state),
            Start::Awaiting => alike(&mut state, rng),
            Start::Parents => soon_due(&mut state),
            _ => {}
        }
        state
    }

    pub fn hash(&self, rng: &mut Rng) -> Hash {
        let mut hash = Hash([0x77; 32]);
        let word = match self.hashes {
            Hashes::Any => return rng.hash(),
            Hashes::HighWord => &mut hash.0[24..],
            Hashes::LowWord => &mut hash.0[..8],
        };
        word.copy_from_slice(&rng.word().to_le_bytes());
        hash
    }
}

fn ready(state: &mut State) {
    state.requests.iter_mut().flat_map(|request| &mut request.candidates).for_each(|one| one.ready %= 2);
}

/// Owners whose time comes within minutes of the clock's start.
fn soon_due(state: &mut State) {
    let owners = state.requests.iter_mut().filter_map(|request| request.owner.as_mut());
    owners.for_each(|owner| owner.deadline %= 1 << 20);
}

/// Packages that are alike.
fn alike(state: &mut State, rng: &mut Rng) {
    let combined = [rng.hash(), rng.hash()];
    for package in state.requests.iter_mut().filter_map(|request| request.package.as_mut()) {
        package.enqueued = rng.one_in(5);
        if rng.one_in(2) {
            package.combined = rng.pick(&combined);
        }
    }
}

fn mark(state: &mut State) {
    for request in &mut state.requests {
        request.owner = None;
        request.fallback = request.key.kind == Kind::Txid;
        request.candidates.iter_mut().for_each(|candidate| candidate.preferred = false);
    }
}
