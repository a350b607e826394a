//! Plain data to the source's types and back.

use super::*;
use crate::calls::{self, Candidate, Entry, Item, Key, Kind};
use crate::state;

pub fn source_of(connection: u64) -> PeerSource {
    PeerSource::new(connection)
}

pub fn connection_of(source: PeerSource) -> u64 {
    source.connection_id().get()
}

pub fn hash_in(hash: calls::Hash) -> Hash256 {
    Hash256::from_le_bytes(&hash.0)
}

pub fn hash_out(hash: Hash256) -> calls::Hash {
    calls::Hash(hash.to_le_bytes())
}

pub fn txids_in(hashes: &[calls::Hash]) -> Vec<Txid> {
    hashes.iter().map(|hash| Txid(hash_in(*hash))).collect()
}

pub fn wtxid_in(hash: calls::Hash) -> Wtxid {
    Wtxid(hash_in(hash))
}

pub fn wtxids_in(hashes: &[calls::Hash]) -> Vec<Wtxid> {
    hashes.iter().copied().map(wtxid_in).collect()
}

pub fn key_in(key: Key) -> Identity {
    match key.kind {
        Kind::Txid => Identity::Txid(hash_in(key.hash)),
        Kind::Wtxid => Identity::Wtxid(hash_in(key.hash)),
    }
}

pub fn key_out(key: Identity) -> Key {
    match key {
        Identity::Txid(hash) => Key::txid(hash_out(hash)),
        Identity::Wtxid(hash) => Key::wtxid(hash_out(hash)),
    }
}

pub fn keys_out(keys: &[Identity]) -> Vec<Key> {
    keys.iter().copied().map(key_out).collect()
}

pub fn item_in(item: Item) -> Inventory {
    match item {
        Item::Transaction(hash) => Inventory::Transaction(bitcoin::Txid::from_byte_array(hash.0)),
        Item::WitnessTransaction(hash) => {
            Inventory::WitnessTransaction(bitcoin::Txid::from_byte_array(hash.0))
        }
        Item::WTx(hash) => Inventory::WTx(bitcoin::Wtxid::from_byte_array(hash.0)),
        Item::Other(inv_type, hash) => Inventory::Unknown { inv_type, hash: hash.0 },
    }
}

pub fn item_out(item: Inventory) -> Item {
    match item {
        Inventory::Transaction(id) => Item::Transaction(calls::Hash(*id.as_byte_array())),
        Inventory::WitnessTransaction(id) => Item::WitnessTransaction(calls::Hash(*id.as_byte_array())),
        Inventory::WTx(id) => Item::WTx(calls::Hash(*id.as_byte_array())),
        Inventory::Unknown { inv_type, hash } => Item::Other(inv_type, calls::Hash(hash)),
    }
}

pub fn announcement_in(candidate: Candidate) -> Announcement {
    Announcement {
        source: source_of(candidate.connection),
        item: item_in(candidate.item),
        ready: Instant(candidate.ready),
        preferred: candidate.preferred,
        priority: candidate.priority,
    }
}

pub fn announcement_out(announcement: &Announcement) -> Candidate {
    Candidate {
        connection: connection_of(announcement.source),
        item: item_out(announcement.item),
        ready: announcement.ready.0,
        preferred: announcement.preferred,
        priority: announcement.priority,
    }
}

pub fn entries_in(entries: &[Entry]) -> Vec<(Identity, Announcement)> {
    entries.iter().map(|entry| (key_in(entry.key), announcement_in(entry.candidate))).collect()
}

pub fn entries_out(entries: &[(Identity, Announcement)]) -> Vec<Entry> {
    entries
        .iter()
        .map(|(key, announcement)| Entry { key: key_out(*key), candidate: announcement_out(announcement) })
        .collect()
}

pub fn request_in(request: &state::Request) -> Request {
    Request {
        candidates: request.candidates.iter().copied().map(announcement_in).collect(),
        owner: request.owner.map(|owner| (source_of(owner.connection), Instant(owner.deadline))),
        package: request.package.as_ref().map(|package| PackageClaim {
            combined: package.combined.0,
            wtxids: wtxids_in(&package.wtxids),
            state: if package.enqueued { PackagePhase::Enqueued } else { PackagePhase::Awaiting },
        }),
        package_info: request.package_info,
        package_parents: txids_in(&request.parents),
        fallback_parent: request.fallback,
    }
}

pub fn request_out(key: Identity, request: &Request) -> state::Request {
    state::Request {
        key: key_out(key),
        candidates: request.candidates.iter().map(announcement_out).collect(),
        owner: request.owner.map(|(source, deadline)| state::Owner {
            connection: connection_of(source),
            deadline: deadline.0,
        }),
        package_info: request.package_info,
        package: request.package.as_ref().map(|claim| state::Package {
            combined: calls::Hash(claim.combined),
            wtxids: claim.wtxids.iter().map(|wtxid| hash_out(wtxid.0)).collect(),
            enqueued: claim.state == PackagePhase::Enqueued,
        }),
        parents: request.package_parents.iter().map(|txid| hash_out(txid.0)).collect(),
        fallback: request.fallback_parent,
    }
}
