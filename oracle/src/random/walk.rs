//! A state reached by calls.

use super::Rng;
use crate::Machine;
use crate::calls::{Call, Candidate, Entry, Hash, Item, Key, Reply};
use crate::state::{Request, State};

/// The state after so many random calls on a tracker opened at L and Q.
pub fn walk(rng: &mut Rng, l: u64, q: u64, calls: usize) -> State {
    let mut machine = Machine::open(l, q).expect("L and Q such as opening takes");
    let hashes = (0..4 + rng.index(40)).map(|_| rng.hash()).collect();
    let connections = (0..1 + rng.index(12)).map(|_| rng.word().max(1)).collect();
    let mut walk = Walk { rng, hashes, connections, now: 1_000, planned: Vec::new() };
    for _ in 0..calls {
        walk.now += walk.rng.below(40) * 500;
        let call = walk.call(&machine);
        if let Reply::Planned(_, entries, _) = machine.call(&call) {
            walk.planned = entries;
        }
    }
    machine.state()
}

struct Walk<'a> {
    rng: &'a mut Rng,
    hashes: Vec<Hash>,
    connections: Vec<u64>,
    now: u64,
    planned: Vec<Entry>,
}

impl Walk<'_> {
    fn hash(&mut self) -> Hash {
        self.rng.pick(&self.hashes)
    }

    fn connection(&mut self) -> u64 {
        self.rng.pick(&self.connections)
    }

    fn hash_list(&mut self, least: usize, most: usize) -> Vec<Hash> {
        let length = least + self.rng.index(most - least + 1);
        let known = self.rng.one_in(2);
        (0..length).map(|_| if known { self.hash() } else { self.rng.hash() }).collect()
    }

    fn key(&mut self) -> Key {
        let hash = self.hash();
        if self.rng.one_in(2) { Key::txid(hash) } else { Key::wtxid(hash) }
    }

    fn candidate(&mut self) -> Candidate {
        let hash = self.hash();
        let item = match self.rng.below(4) {
            0 => Item::Transaction(hash),
            1 => Item::WitnessTransaction(hash),
            _ => Item::WTx(hash),
        };
        let ready = self.now + self.rng.below(3) * 2_000;
        let (connection, preferred) = (self.connection(), self.rng.one_in(2));
        Candidate { connection, item, ready, preferred, priority: self.rng.below(50) }
    }

    /// A call on what stands at a place, if there is a place that it can move.
    fn package_call(&mut self, machine: &Machine) -> Option<Call> {
        let now = self.now;
        let held: Vec<Request> = machine.state().requests.into_iter().filter(Request::holds_place).collect();
        let request = held.get(self.rng.index(held.len().max(1)))?;
        let (connection, hash) = (request.owner?.connection, request.key.hash);
        Some(match &request.package {
            None => {
                let (combined, wtxids) = (self.hash(), self.hash_list(1, 100));
                Call::ClaimPackage { connection, hash, combined, now, wtxids }
            }
            Some(package) if !package.enqueued => {
                let (combined, wtxids) = (package.combined, package.wtxids.clone());
                Call::BeginPackageResolution { connection, hash, combined, now, wtxids }
            }
            Some(_) => Call::ReleasePackage { connection, hash, now },
        })
    }

    fn call(&mut self, machine: &Machine) -> Call {
        let now = self.now;
        match self.rng.below(40) {
            0..=15 => Call::Announce { candidate: self.candidate() },
            16..=18 => Call::RequestParent { candidate: self.candidate() },
            19..=21 => {
                let (connection, hash, parents) = (self.connection(), self.hash(), self.hash_list(0, 100));
                Call::SolicitPackageInfo { connection, hash, now, parents }
            }
            22..=26 => self.package_call(machine).unwrap_or(Call::Sweep),
            27..=28 => Call::Plan { now, keys: None },
            29..=32 => Call::Claim { now, checked: std::mem::take(&mut self.planned) },
            33 => Call::Failed { key: self.key(), connection: self.connection(), now },
            34 => Call::Unclaim { key: self.key(), connection: self.connection() },
            35 => Call::Forget { key: self.key() },
            36 => {
                Call::AnnounceParents { connection: self.connection(), now, parents: self.hash_list(0, 10) }
            }
            37 => Call::PollGate { now },
            38 => Call::Sweep,
            _ if self.rng.one_in(4) => Call::Disconnected { connection: self.connection(), now },
            _ => Call::ForgetKnown { key: self.key(), now },
        }
    }
}
