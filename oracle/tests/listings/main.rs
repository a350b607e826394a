//! Listings written and read back, and texts that are refused.

use oracle::calls::Hash;
use oracle::listing::{UNREADABLE, UNSOUND, read, write};
use oracle::random::{Rng, Shape, state};

#[test]
fn random_states_are_read_back() {
    let mut rng = Rng::new(1);
    for _ in 0..500 {
        let (l, q) = (1 + rng.below(60), 1 + rng.below(3));
        let shape = Shape::any(&mut rng, l, q);
        let state = state(&mut rng, shape);
        let text = write(&state);
        assert_eq!(read(text.as_bytes()).as_ref(), Ok(&state), "{text}");
    }
}

#[test]
fn refusals() {
    let head = "4,1,none,none,none\n";
    let plain = format!("{head}wa,none,0,none,0,0\n7,wa,0,0,5\n");
    assert_eq!(
        read(plain.as_bytes()).map(|state| state.requests[0].key.hash),
        Ok(Hash(std::array::from_fn(|at| if at == 0 { 10 } else { 0 })))
    );
    for text in [
        "",
        "\n",
        "4,1,none,none,none",
        "04,1,none,none,none\n",
        "4,1,none,none\n",
        "4,1,none,none,none,none\n",
    ] {
        assert_eq!(read(text.as_bytes()), Err(UNREADABLE), "{text}");
    }
    assert_eq!(read(format!("{head}{head}").as_bytes()), Err(UNREADABLE));
    assert_eq!(read(format!("{head}7,wa,0,0,5\n").as_bytes()), Err(UNREADABLE));
    assert_eq!(read(format!("{plain}wa,none,0,none,0,0\n8,wa,0,0,5\n").as_bytes()), Err(UNSOUND));
    assert_eq!(read(format!("{plain}ta,none,0,none,0,0\n8,ta,0,0,5\n").as_bytes()), Err(UNREADABLE));
    assert_eq!(read(b"0,1,none,none,none\n"), Err(UNSOUND));
}
