//! The words of a store by name, for the report of a difference.

use oracle::image::{ENTRY, HEADER, PLACE, ROW, WORD, entries_at, header, need, place, places_at, row};

/// What stands at a byte of a store for L and Q.
pub fn name(l: u64, q: u64, byte: usize) -> String {
    let word = byte / WORD;
    let (entries, places) = (entries_at(l), places_at(l));
    if byte >= need(l, q) {
        "past the need".to_owned()
    } else if word < HEADER {
        format!("header, {}", header_name(word))
    } else if word < entries {
        let (i, field) = ((word - HEADER) / ROW, (word - HEADER) % ROW);
        format!("row {i}, {}", row_name(field))
    } else if word < places {
        let (i, field) = ((word - entries) / ENTRY, (word - entries) % ENTRY);
        format!("connection's entry {i}, {}", ["connection", "rows", "owning rows"][field])
    } else {
        let (i, field) = ((word - places) / PLACE, (word - places) % PLACE);
        format!("place {i}, {}", place_name(field))
    }
}

fn header_name(word: usize) -> &'static str {
    match word {
        header::FORMAT => "format",
        header::L => "L",
        header::Q => "Q",
        header::ROWS => "rows in use",
        header::ENTRIES => "connections in use",
        header::PLACES => "places in use",
        header::SPARE.. => "spare word",
        header::READY_CURSOR.. => "ready cursor",
        header::KNOWN_CURSOR.. => "known cursor",
        _ => "next poll",
    }
}

fn row_name(field: usize) -> &'static str {
    match field {
        row::CONNECTION => "connection",
        row::READY => "ready time",
        row::PRIORITY => "priority",
        row::DEADLINE => "deadline",
        row::BITS => "bits",
        _ => "hash",
    }
}

fn place_name(field: usize) -> &'static str {
    match field {
        place::STAGE => "stage",
        place::WTXID_COUNT => "count of wtxids",
        place::PARENT_COUNT => "count of parents",
        place::SCRATCH.. => "scratch",
        place::PARENTS.. => "parents",
        place::WTXIDS.. => "wtxids",
        place::COMBINED.. => "combined hash",
        _ => "hash",
    }
}

/// The first byte in which two stores of one length differ, with its word on both sides.
pub fn first(l: u64, q: u64, got: &[u8], wanted: &[u8]) -> String {
    let Some(byte) = got.iter().zip(wanted).position(|(one, other)| one != other) else {
        return format!("{} bytes, not {}", got.len(), wanted.len());
    };
    let word = |bytes: &[u8]| {
        let from = byte / WORD * WORD;
        let end = bytes.len().min(from + WORD);
        bytes[from..end].iter().rev().map(|byte| format!("{byte:02x}")).collect::<String>()
    };
    format!("byte {byte} ({}): word {}, not {}", name(l, q, byte), word(got), word(wanted))
}
