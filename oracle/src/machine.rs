//! Document 01's calls on the source's tracker, its refusals before them.

use super::convert::*;
use super::*;
use crate::calls::{Call, Candidate, Entry, Hash, Holding, Key, LAST_CLOCK, MAX_PARENTS, Reply};
use crate::sound;
use crate::standins;
use crate::state::State;

/// An opened tracker. Refusals 1 and 7 cannot occur: there is no store with a length
/// and no answer buffer here.
#[derive(Clone)]
pub struct Machine {
    l: u64,
    q: u64,
    policy: TxPolicy,
}

/// What the source keeps beside the state of document 01.
pub struct Books {
    /// Connection and number of announcements, ascending.
    pub counts: Vec<(u64, u64)>,
    pub announcements: u64,
    /// Priority, key, connection, ascending.
    pub evictable: Vec<(u64, Key, u64)>,
}

fn flag(reply: bool) -> Reply {
    Reply::Number(u64::from(reply))
}

impl Machine {
    pub fn open(l: u64, q: u64) -> Result<Self, u8> {
        if !sound::opens(l, q) {
            return Err(2);
        }
        Ok(Self { l, q, policy: TxPolicy::default() })
    }

    /// A tracker in a given state; the source's books are written from it.
    pub fn load(state: &State) -> Result<Self, u8> {
        if sound::breach(state).is_some() {
            return Err(3);
        }
        let mut policy = TxPolicy {
            next_poll: state.next_poll.map(Instant),
            known_cursor: state.known_cursor.map(key_in),
            ready_cursor: state.ready_cursor.map(key_in),
            ..TxPolicy::default()
        };
        for request in &state.requests {
            for candidate in &request.candidates {
                *policy.counts.entry(source_of(candidate.connection)).or_default() += 1;
                policy.announcements += 1;
            }
            policy.requests.insert(key_in(request.key), request_in(request));
        }
        policy.evictable = sound::evictable(state)
            .into_iter()
            .map(|(priority, key, connection)| (priority, key_in(key), connection))
            .collect();
        Ok(Self { l: state.l, q: state.q, policy })
    }

    /// Refusals 4, 5, 6, 13 and 8 in turn.
    fn refusal(&self, call: &Call) -> Option<u8> {
        if call.names_connection_0() {
            Some(4)
        } else if call.clock().is_some_and(|now| now > LAST_CLOCK) {
            Some(5)
        } else if call.parents_given() > MAX_PARENTS {
            Some(6)
        } else if call.wrong_hashes() {
            Some(13)
        } else if self.lacks_place(call) {
            Some(8)
        } else {
            None
        }
    }

    /// A solicitation that would reply 1, as a trial on a copy tells, while all places
    /// are held.
    fn lacks_place(&self, call: &Call) -> bool {
        let holds = |request: &&Request| request.package_info || request.package.is_some();
        matches!(call, Call::SolicitPackageInfo { .. })
            && self.policy.requests.values().filter(holds).count() as u64 >= self.q
            && self.clone().carry_out(call) == Reply::Number(1)
    }

    pub fn call(&mut self, call: &Call) -> Reply {
        standins::set_max_announcements(self.l as usize);
        match self.refusal(call) {
            Some(number) => Reply::Refused(number),
            None => self.carry_out(call),
        }
    }

    /// Calls by groups: what is not of one group goes on to the next.
    fn carry_out(&mut self, call: &Call) -> Reply {
        let policy = &mut self.policy;
        match *call {
            Call::Announce { candidate } => flag(policy.announce(announcement_in(candidate))),
            Call::RequestParent { candidate } => flag(policy.request_parent(announcement_in(candidate))),
            Call::Failed { key, connection, now } => {
                flag(policy.failed(key_in(key), source_of(connection), Instant(now)))
            }
            Call::Unclaim { key, connection } => {
                policy.unclaim(key_in(key), source_of(connection));
                Reply::Number(1)
            }
            Call::Forget { key } => {
                policy.forget(key_in(key));
                Reply::Number(1)
            }
            Call::ForgetKnown { key, now } => {
                policy.forget_known(key_in(key), Instant(now));
                Reply::Number(1)
            }
            Call::AnnounceParents { connection, now, ref parents } => Reply::Keys(keys_out(
                &policy.announce_parents(source_of(connection), &txids_in(parents), Instant(now)),
            )),
            Call::FailedWithParents { key, connection, now } => Reply::Keys(keys_out(
                &policy.failed_with_parents(key_in(key), source_of(connection), Instant(now)),
            )),
            Call::Disconnected { connection, now } => {
                let (own, parents) = policy.disconnected(source_of(connection), Instant(now));
                Reply::Gone(keys_out(&own), keys_out(&parents))
            }
            _ => self.package(call),
        }
    }

    fn package(&mut self, call: &Call) -> Reply {
        let policy = &mut self.policy;
        match *call {
            Call::SolicitPackageInfo { connection, hash, now, ref parents } => {
                flag(policy.solicit_package_info(
                    source_of(connection),
                    wtxid_in(hash),
                    &txids_in(parents),
                    Instant(now),
                ))
            }
            Call::ClaimPackage { connection, hash, combined, now, ref wtxids } => {
                standins::supply_combined(combined.0);
                let reply = policy.claim_package(
                    source_of(connection),
                    wtxid_in(hash),
                    &wtxids_in(wtxids),
                    Instant(now),
                );
                standins::withdraw_combined();
                flag(reply)
            }
            Call::BeginPackageResolution { connection, hash, combined, now, ref wtxids } => {
                flag(policy.begin_package_resolution(
                    source_of(connection),
                    wtxid_in(hash),
                    combined.0,
                    &wtxids_in(wtxids),
                    Instant(now),
                ))
            }
            Call::ReleasePackage { connection, hash, now } => Reply::Keys(keys_out(&policy.release_package(
                source_of(connection),
                wtxid_in(hash),
                Instant(now),
            ))),
            Call::FailedPackageClaims { connection, now, ref combined } => {
                let combined: Vec<[u8; 32]> = combined.iter().map(|hash| hash.0).collect();
                let source = source_of(connection);
                Reply::Keys(keys_out(&policy.failed_package_claims(source, &combined, Instant(now))))
            }
            Call::TeardownPackageClaims { now } => {
                Reply::Number(policy.teardown_package_claims(Instant(now)) as u64)
            }
            Call::FailedPackageInfo { key, connection, now } => {
                flag(policy.failed_package_info(key_in(key), source_of(connection), Instant(now)))
            }
            Call::PackageInfoOwner { key, now } => {
                Reply::Number(policy.package_info_owner(key_in(key), Instant(now)).map_or(0, connection_of))
            }
            _ => self.choose(call),
        }
    }

    fn choose(&mut self, call: &Call) -> Reply {
        let policy = &mut self.policy;
        match call {
            Call::Plan { now, keys } => {
                let keys: Option<Vec<Identity>> =
                    keys.as_ref().map(|keys| keys.iter().copied().map(key_in).collect());
                standins::take_considered();
                let planned = policy.plan(Instant(*now), keys.as_deref());
                Reply::Planned(standins::take_considered(), entries_out(&planned), self.next_look(*now))
            }
            Call::Claim { now, checked } => {
                Reply::Entries(entries_out(&policy.claim(Instant(*now), &entries_in(checked))))
            }
            Call::Sweep => Reply::Keys(keys_out(&policy.known_batch())),
            Call::Sum => {
                // Both are the source's own books.
                let (held, evictable) = (policy.announcements as u64, policy.evictable.len() as u64);
                let free = self.l - held;
                Reply::Sum(held, free, free + evictable, held * 1_000 / self.l)
            }
            Call::OwnersOf { hashes } => self.owners_of(hashes),
            Call::Arrange { taken, witness } => Reply::Entries(self.arranged(taken, witness)),
            _ => self.wrapper(call),
        }
    }

    /// Document 02, request c: "the least time later than now among ready times of unowned keys
    /// and deadlines of owned ones, in the state after the plan". The source has no such answer:
    /// it is read off its maps.
    fn next_look(&self, now: u64) -> Option<u64> {
        let mut next = None;
        for request in self.policy.requests.values() {
            let soonest = match request.owner {
                Some((_, deadline)) => (deadline.0 > now).then_some(deadline.0),
                None => request.candidates.iter().map(|c| c.ready.0).filter(|ready| *ready > now).min(),
            };
            next = [next, soonest].into_iter().flatten().min();
        }
        next
    }

    /// The source's batches carry key and item alone. They stand by connection and then
    /// in the taken order, so a stable sort of the taken list has the other fields.
    fn arranged(&self, taken: &[Entry], witness: &[u64]) -> Vec<Entry> {
        let witness: Vec<PeerSource> = witness.iter().copied().map(source_of).collect();
        let arranged = TxPolicy::arrange(&self.policy, entries_in(taken), &witness);
        let mut entries = taken.to_vec();
        entries.sort_by_key(|entry| entry.candidate.connection);
        assert_eq!(arranged.len(), entries.len());
        for (entry, (source, key, item)) in entries.iter_mut().zip(arranged) {
            assert_eq!((entry.candidate.connection, entry.key), (connection_of(source), key_out(key)));
            entry.candidate = Candidate { item: item_out(item), ..entry.candidate };
        }
        entries
    }

    /// Looked up key by key in the source's map, and counted over all of it.
    fn owners_of(&self, hashes: &[Hash]) -> Reply {
        let requests = &self.policy.requests;
        let held = |key: Key| {
            let owner = request_out(key_in(key), requests.get(&key_in(key))?).owner?;
            Some(Holding { key, connection: owner.connection, deadline: owner.deadline })
        };
        let owners =
            hashes.iter().map(|hash| held(Key::txid(*hash)).or_else(|| held(Key::wtxid(*hash)))).collect();
        let passed = hashes
            .iter()
            .max()
            .map_or(0, |greatest| requests.keys().filter(|key| key_out(**key).hash <= *greatest).count());
        Reply::Owners(passed as u64, owners)
    }

    fn wrapper(&mut self, call: &Call) -> Reply {
        let policy = &mut self.policy;
        match *call {
            Call::AnnounceTransactions { connection, now, preferred, wtxid_source, ref items } => {
                let inventory: Vec<Inventory> = items.iter().map(|(item, _)| item_in(*item)).collect();
                let priorities: Vec<u64> = items.iter().map(|(_, priority)| *priority).collect();
                TxPolicy::announce_transactions(
                    policy,
                    source_of(connection),
                    &inventory,
                    Instant(now),
                    preferred,
                    wtxid_source,
                    &mut standins::Priorities::new(&priorities),
                );
                Reply::Number(1)
            }
            Call::TransactionResponseCompleted { connection, txid, wtxid, now } => {
                TxPolicy::transaction_response_completed(
                    policy,
                    source_of(connection),
                    Txid(hash_in(txid)),
                    wtxid_in(wtxid),
                    Instant(now),
                );
                Reply::Number(1)
            }
            Call::TransactionNotFound { connection, now, ref items } => {
                let items: Vec<Inventory> = items.iter().copied().map(item_in).collect();
                let source = source_of(connection);
                Reply::Keys(keys_out(&TxPolicy::transaction_not_found(policy, source, &items, Instant(now))))
            }
            Call::PollGate { now } => flag(TxPolicy::poll_gate(policy, Instant(now))),
            _ => unreachable!("of an earlier group"),
        }
    }

    pub fn state(&self) -> State {
        State {
            l: self.l,
            q: self.q,
            next_poll: self.policy.next_poll.map(|time| time.0),
            known_cursor: self.policy.known_cursor.map(key_out),
            ready_cursor: self.policy.ready_cursor.map(key_out),
            requests: self.policy.requests.iter().map(|(key, request)| request_out(*key, request)).collect(),
        }
    }

    pub fn books(&self) -> Books {
        let mut counts: Vec<(u64, u64)> = self
            .policy
            .counts
            .iter()
            .map(|(source, count)| (connection_of(*source), *count as u64))
            .collect();
        counts.sort_unstable();
        Books {
            counts,
            announcements: self.policy.announcements as u64,
            evictable: self
                .policy
                .evictable
                .iter()
                .map(|(priority, key, connection)| (*priority, key_out(*key), *connection))
                .collect(),
        }
    }
}
