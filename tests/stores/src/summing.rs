//! What `sum` tells of a store: the figures of the state that is read from it, or refusal 3.

use oracle::image::read;
use oracle::sound::evictable;
use tracker::{Error, Figures};

/// Whether `sum` takes the store. Figures or a refusal other than those that the reading gives stop the run.
pub fn takes(bytes: &[u8]) -> bool {
    match (tracker::bytes::sum(bytes), read(bytes)) {
        (Ok(figures), Ok(state)) => {
            let held = state.held();
            let free = state.l - held;
            let preferred_free = free + evictable(&state).len() as u64;
            let expected = Figures { held, free, preferred_free, permille: held * 1000 / state.l };
            assert_eq!(figures, expected, "sum of a store of L {}", state.l);
            true
        }
        (Err(Error::NotSound), _) => false,
        (Ok(_), Err(_)) => true,
        (Err(refusal), _) => panic!("sum refuses with {refusal}"),
    }
}
