//! One connection's part of a list of entries: a call that takes no store. It is tried on what `arrange` gave and was given.

use std::collections::BTreeSet;

use oracle::calls::Entry;
use tracker::abi;

use crate::ask::entry_bytes;

/// What is wrong with the parts of an arranged list and of the list before, if anything is.
pub fn wrong(taken: &[Entry], arranged: &[Entry]) -> Option<String> {
    let bytes = |list: &[Entry]| list.iter().flat_map(entry_bytes).collect::<Vec<u8>>();
    let (before, after) = (bytes(taken), bytes(arranged));
    for connection in asked(arranged) {
        let mine = |entry: &&Entry| entry.candidate.connection == connection;
        let wanted: Vec<Entry> = arranged.iter().filter(mine).copied().collect();
        let (status, first, count) = part(&after, connection);
        if status != 0 || arranged.get(first..first + count) != Some(&wanted) {
            return Some(format!("part of {connection}: status {status}, {count} from {first} on"));
        }
        let (status, first, count) = part(&before, connection);
        if status != 0 || first + count > taken.len() {
            return Some(format!(
                "part of {connection} of a list that is not arranged: {count} from {first} on"
            ));
        }
    }
    None
}

/// The connections of the list, and numbers beside them.
fn asked(list: &[Entry]) -> BTreeSet<u64> {
    let connections = list.iter().map(|entry| entry.candidate.connection);
    let beside = connections.flat_map(|n| [n.saturating_sub(1), n, n.saturating_add(1)]);
    beside.chain([u64::MAX]).filter(|n| *n != 0).collect()
}

fn part(list: &[u8], connection: u64) -> (u64, usize, usize) {
    let (mut first, mut count) = (0, 0);
    // SAFETY: the list is only read, the numbers are lent to this call alone.
    let status = unsafe { abi::tracker_part(list.as_ptr(), list.len(), connection, &mut first, &mut count) };
    (status, first as usize, count as usize)
}
