//! One payload or list, given to calls and to the text: status, number handed out and every byte of the buffer.

use oracle::random::Rng;

use crate::calls::{Call, Calls, TEXT};
use crate::text;

/// A buffer with other bytes in it, shorter than the need, just as long, or longer.
fn buffer(rng: &mut Rng, need: usize) -> Vec<u8> {
    let length = match rng.below(8) {
        0 => need.saturating_sub(1),
        1 => 0,
        2 => need + rng.index(100),
        _ => need,
    };
    vec![rng.next() as u8; length]
}

fn same(
    what: &str,
    ours: Call,
    theirs: Call,
    given: &[u8],
    before: &[u8],
    was: u64,
) -> Result<(u64, Vec<u8>), String> {
    let (mut a, mut b, mut m, mut n) = (before.to_vec(), before.to_vec(), was, was);
    let (status, wanted) = (ours(given, &mut a, &mut m), theirs(given, &mut b, &mut n));
    let front = &given[..given.len().min(80)];
    if status != wanted {
        return Err(format!("{what}: {status} and not {wanted}, of {} bytes, {front:02x?} ..", given.len()));
    }
    if m != n {
        return Err(format!("{what}: hands out {m} and not {n}, of {} bytes, {front:02x?} ..", given.len()));
    }
    if a != b {
        return Err(format!("{what}: another buffer, of {} bytes, {front:02x?} ..", given.len()));
    }
    Ok((status, a))
}

/// Reads the payload; one that is accepted is written again. Whether it was accepted.
pub fn payload(rng: &mut Rng, calls: Calls, payload: &[u8]) -> Result<u64, String> {
    let need = payload.len() / 36 * 40;
    let before = buffer(rng, need);
    let was = rng.next();
    let (status, after) = same("read", calls.read, TEXT.read, payload, &before, was)?;
    if status == 0 {
        let before = buffer(rng, payload.len());
        let (status, again) =
            same("write what was read", calls.write, TEXT.write, &after[..need], &before, was)?;
        if status == 0 && !again.starts_with(payload) {
            return Err("what was read is not written as the payload".into());
        }
    }
    Ok(status)
}

/// Writes the list; what was written is read again.
pub fn list(rng: &mut Rng, calls: Calls, list: &[u8]) -> Result<u64, String> {
    let n = list.len() / 40;
    let need = text::shortest(n as u64).len() + 36 * n;
    let before = buffer(rng, need);
    let was = rng.next();
    let (status, after) = same("write", calls.write, TEXT.write, list, &before, was)?;
    if status == 0 {
        let before = buffer(rng, 40 * n);
        let (status, again) =
            same("read what was written", calls.read, TEXT.read, &after[..need], &before, was)?;
        if status == 0 && text::listed(&again[..40 * n]) != text::listed(list) {
            return Err("what was written is not read as the list".into());
        }
    }
    Ok(status)
}
