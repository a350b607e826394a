//! The two calls: those of the library, and wrong ones that the comparison must tell.

use tracker::abi;

use crate::text;

/// A call on a payload or a list, with its answer buffer and the number that it hands out: its status.
pub type Call = fn(&[u8], &mut [u8], &mut u64) -> u64;

#[derive(Clone, Copy)]
pub struct Calls {
    pub read: Call,
    pub write: Call,
}

fn read(payload: &[u8], answer: &mut [u8], count: &mut u64) -> u64 {
    // SAFETY: what is lent is lent for the call, and what it may write is lent to it alone.
    unsafe {
        abi::tracker_read_payload(payload.as_ptr(), payload.len(), answer.as_mut_ptr(), answer.len(), count)
    }
}

fn write(items: &[u8], answer: &mut [u8], written: &mut u64) -> u64 {
    // SAFETY: the same.
    unsafe {
        abi::tracker_write_payload(items.as_ptr(), items.len(), answer.as_mut_ptr(), answer.len(), written)
    }
}

pub const LIBRARY: Calls = Calls { read, write };

/// What the text says of a call: its status, and the answer over the front of the buffer.
pub fn by_text(made: Option<(Vec<u8>, usize)>, answer: &mut [u8], number: &mut u64) -> u64 {
    let Some((bytes, n)) = made else {
        return 10;
    };
    if answer.len() < bytes.len() {
        return 7;
    }
    answer[..bytes.len()].copy_from_slice(&bytes);
    *number = n as u64;
    0
}

pub fn text_read(payload: &[u8], answer: &mut [u8], count: &mut u64) -> u64 {
    by_text(text::read(payload).map(|items| (text::list(&items), items.len())), answer, count)
}

pub fn text_write(items: &[u8], answer: &mut [u8], written: &mut u64) -> u64 {
    by_text(
        text::write(&text::listed(items)).map(|payload| (payload.clone(), payload.len())),
        answer,
        written,
    )
}

pub const TEXT: Calls = Calls { read: text_read, write: text_write };

/// Wrong versions, each with what is wrong in it.
pub fn planted() -> Vec<(&'static str, Calls)> {
    vec![
        ("a count of 252 in three bytes", Calls { read: |p, a, n| long_form(p, a, n, 252), ..TEXT }),
        ("a count of 0 in three bytes", Calls { read: |p, a, n| long_form(p, a, n, 0), ..TEXT }),
        ("bytes behind the last item", Calls { read: trailing, ..TEXT }),
        ("50,001 items", Calls { read: fifty_thousand_and_one, ..TEXT }),
        ("7 before 10", Calls { read: short_first, ..TEXT }),
        ("a byte written before a refusal", Calls { read: writes_first, ..TEXT }),
        ("a count handed out with a refusal", Calls { read: counts_first, ..TEXT }),
        ("a type's bytes turned round", Calls { read: turned_type, ..TEXT }),
        ("an other item of type 5 written", Calls { write: takes_other_five, ..TEXT }),
        ("a rest of a list written", Calls { write: takes_rest, ..TEXT }),
        ("bytes behind the payload", Calls { write: clears_rest, ..TEXT }),
    ]
}

fn long_form(p: &[u8], a: &mut [u8], n: &mut u64, count: u16) -> u64 {
    let [low, high] = count.to_le_bytes();
    match p {
        [0xfd, l, h, rest @ ..] if (*l, *h) == (low, high) => text_read(&[&[low], rest].concat(), a, n),
        _ => text_read(p, a, n),
    }
}

fn trailing(p: &[u8], a: &mut [u8], n: &mut u64) -> u64 {
    let whole = p.first().filter(|c| **c < 0xfd).map_or(p.len(), |c| p.len().min(1 + 36 * usize::from(*c)));
    text_read(&p[..whole], a, n)
}

fn fifty_thousand_and_one(p: &[u8], a: &mut [u8], n: &mut u64) -> u64 {
    if p.len() == 3 + 36 * 50_001 && p[..3] == [0xfd, 0x51, 0xc3] {
        *n = 50_001;
        return 0;
    }
    text_read(p, a, n)
}

fn short_first(p: &[u8], a: &mut [u8], n: &mut u64) -> u64 {
    if a.len() < p.len() / 36 * 40 { 7 } else { text_read(p, a, n) }
}

fn writes_first(p: &[u8], a: &mut [u8], n: &mut u64) -> u64 {
    if let (Some(first), Some(byte)) = (a.first_mut(), p.get(1)) {
        *first = *byte;
    }
    text_read(p, a, n)
}

fn counts_first(p: &[u8], a: &mut [u8], n: &mut u64) -> u64 {
    *n = p.first().map_or(0, |byte| u64::from(*byte));
    text_read(p, a, n)
}

fn turned_type(p: &[u8], a: &mut [u8], n: &mut u64) -> u64 {
    let status = text_read(p, a, n);
    if status == 0 && *n > 0 {
        a[..4].reverse();
    }
    status
}

fn takes_other_five(items: &[u8], a: &mut [u8], n: &mut u64) -> u64 {
    let mut items = items.to_vec();
    items
        .chunks_exact_mut(40)
        .filter(|item| item[0] == 5 && item[1..4] == [0; 3])
        .for_each(|item| item[4..8].fill(0));
    text_write(&items, a, n)
}

fn takes_rest(items: &[u8], a: &mut [u8], n: &mut u64) -> u64 {
    let mut items = items.to_vec();
    items.resize(items.len().div_ceil(40) * 40, 0);
    text_write(&items, a, n)
}

fn clears_rest(items: &[u8], a: &mut [u8], n: &mut u64) -> u64 {
    let status = text_write(items, a, n);
    if status == 0 {
        a[*n as usize..].fill(0);
    }
    status
}
