//! Payloads and lists written out, with what is wanted of each.

use oracle::random::Rng;

use crate::calls::Calls;
use crate::compare;

fn items(count: &[u8], n: usize) -> Vec<u8> {
    [count, &[7; 36].repeat(n)].concat()
}

/// Payloads: accepted, or refused by 10.
fn payloads() -> Vec<(Vec<u8>, bool)> {
    let mut found = vec![
        (vec![], false),
        (vec![0], true),
        (vec![0, 0], false),
        (vec![1], false),
        (items(&[1], 1), true),
        (items(&[1], 1)[..36].to_vec(), false),
        ([items(&[1], 1), vec![0]].concat(), false),
        (vec![0xfd], false),
        (vec![0xfd, 0xfd], false),
        (vec![0xfd, 0, 0], false),
        (items(&[0xfc], 252), true),
        (items(&[0xfd, 0xfc, 0], 252), false),
        (items(&[0xfd, 0xfd, 0], 253), true),
        (items(&[0xfd, 0x50, 0xc3], 50_000), true),
        (items(&[0xfd, 0x51, 0xc3], 50_001), false),
        (items(&[0xfe, 0x50, 0xc3, 0, 0], 50_000), false),
        (items(&[0xff, 1, 0, 0, 0, 0, 0, 0, 0], 1), false),
    ];
    let types = [[1, 0, 0, 0], [1, 0, 0, 0x40], [5, 0, 0, 0], [0; 4], [7, 0, 0, 0], [0xff; 4]];
    found.extend(types.map(|number| ([&[1][..], &number, &[9; 32]].concat(), true)));
    found
}

/// Lists by their words: written, or refused by 10.
const WORDS: [(u64, bool); 9] = [
    (1, true),
    (0x4000_0001, true),
    (5, true),
    (7, true),
    (1 << 32, true),
    ((1 << 32) + 7, true),
    ((1 << 32) + 1, false),
    ((1 << 32) + 5, false),
    (u64::MAX << 32 | 0x4000_0001, false),
];

fn wanted(status: u64, taken: bool, what: &[u8]) -> Result<(), String> {
    match (status, taken) {
        (0 | 7, true) | (10, false) => Ok(()),
        _ => Err(format!("{status} of {} bytes, {:02x?} ..", what.len(), &what[..what.len().min(50)])),
    }
}

pub fn check(calls: Calls) -> Result<usize, String> {
    let mut rng = Rng::new(1);
    let mut lists: Vec<(Vec<u8>, bool)> =
        WORDS.map(|(word, taken)| ([&word.to_le_bytes()[..], &[9; 32]].concat(), taken)).to_vec();
    lists.extend([
        (vec![], true),
        (vec![7; 79], true),
        (vec![7; 40 * 50_000], true),
        (vec![7; 40 * 50_001], false),
    ]);
    // With buffers of all lengths.
    for _ in 0..32 {
        for (payload, taken) in payloads() {
            wanted(compare::payload(&mut rng, calls, &payload)?, taken, &payload)?;
        }
        for (list, taken) in &lists {
            wanted(compare::list(&mut rng, calls, list)?, *taken, list)?;
        }
    }
    Ok(payloads().len() + lists.len())
}
