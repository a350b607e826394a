//! Derives the oracle's core from the text of tx_policy.rs.
//!
//! `TX_POLICY_RS` names the source; without it the path below is taken. Both are
//! relative to the repository's root unless absolute. Every step is a cut between
//! two markers or a replacement with a fixed number of matches, and a step that does
//! not match stops the build. The derived text is written to OUT_DIR alone. Without the
//! feature `source` nothing is read and nothing derived.

use std::fmt::Write as _;
use std::path::{Path, PathBuf};
use std::{env, fs, process};

const DEFAULT_SOURCE: &str = "../shared/docs/src/crates/node/src/p2p/tx_policy.rs";

fn fail(message: &str) -> ! {
    eprintln!("\n*** the core cannot be derived: {message}\n");
    process::exit(1);
}

/// Where the only `marker` stands in `body`.
fn once(name: &str, why: &str, body: &str, marker: &str) -> usize {
    let found = body.matches(marker).count();
    if found != 1 {
        fail(&format!("{name}: `{why}` wants one {marker:?}, found {found}"));
    }
    body.find(marker).unwrap_or_default()
}

/// A part of the source on its way to the derived module, with the steps taken.
struct Text {
    name: &'static str,
    body: String,
    steps: Vec<String>,
}

impl Text {
    /// The source from the only `from` (kept) up to the next `to` (left out).
    fn part(source: &str, name: &'static str, from: &str, to: &str) -> Self {
        let start = once(name, "take this part", source, from);
        let Some(length) = source[start + from.len()..].find(to) else {
            fail(&format!("{name}: no end {to:?}"));
        };
        let body = source[start..start + from.len() + length].to_owned();
        Self { name, body, steps: vec![format!("{name}: taken from the source")] }
    }

    /// Replaces `old`, which stands exactly `times` times.
    fn swap_all(&mut self, why: &str, times: usize, old: &str, new: &str) {
        let found = self.body.matches(old).count();
        if found != times {
            fail(&format!("{}: `{why}` wants {times} of {old:?}, found {found}", self.name));
        }
        self.body = self.body.replace(old, new);
        self.steps.push(format!("{}: {why} (x{times})", self.name));
    }

    fn swap(&mut self, why: &str, old: &str, new: &str) {
        self.swap_all(why, 1, old, new);
    }

    /// Removes the text from the only `from` up to the next `to` (kept).
    fn cut(&mut self, why: &str, from: &str, to: &str) {
        let start = once(self.name, why, &self.body, from);
        let Some(length) = self.body[start + from.len()..].find(to) else {
            fail(&format!("{}: `{why}` finds no end {to:?}", self.name));
        };
        self.body.replace_range(start..start + from.len() + length, "");
        self.steps.push(format!("{}: {why} (cut)", self.name));
    }

    fn cut_rest(&mut self, why: &str, from: &str) {
        let start = once(self.name, why, &self.body, from);
        self.body.truncate(start);
        self.steps.push(format!("{}: {why} (cut to the end)", self.name));
    }

    fn wrap(&mut self, why: &str, head: &str, tail: &str) {
        self.body = format!("{head}{}{tail}", self.body);
        self.steps.push(format!("{}: {why}", self.name));
    }
}

const NODE_POLICY: &str = "#[derive(Clone)]\npub struct NodeTxPolicy {";

/// The source up to `NodeTxPolicy`: `TxPolicy` and what it consists of.
fn core(source: &str) -> Text {
    let mut text = Text { name: "core", body: source.to_owned(), steps: Vec::new() };
    text.cut_rest("NodeTxPolicy and the tests", NODE_POLICY);
    imports(&mut text);
    text.swap("MAX_ANNOUNCEMENTS is L", "const MAX_ANNOUNCEMENTS: usize = 100_000;\n", "");
    text.swap(
        "L comes from the opened tracker",
        "self.announcements >= MAX_ANNOUNCEMENTS",
        "self.announcements >= max_announcements()",
    );
    text.swap(
        "no fields of module relay",
        "    relay: HashMap<PeerSource, relay::RelayPeer>,\n    inbound_inv: HashMap<relay::InboundClockKey, Instant>,\n",
        "",
    );
    for (why, head) in [
        ("a copy of the tracker tells refusal 8", "#[derive(Debug, Default)]\npub struct TxPolicy {"),
        ("a request can be copied", "#[derive(Debug, Default)]\nstruct Request {"),
        ("a package can be copied", "#[derive(Debug, Eq, PartialEq)]\nstruct PackageClaim {"),
    ] {
        text.swap(why, head, &head.replace("#[derive(", "#[derive(Clone, "));
    }
    text.swap(
        "the keys considered are counted",
        "        let mut consider = |key: Identity| {\n",
        "        let mut consider = |key: Identity| {\n            note_considered();\n",
    );
    for left in ["relay::", "ingress::", "bitcoin_rs_", "hashbrown"] {
        if text.body.contains(left) {
            fail(&format!("core: {left:?} is left"));
        }
    }
    text
}

/// Stand-ins take the place of modules and crates that are not at hand.
fn imports(text: &mut Text) {
    text.cut(
        "modules ingress and relay",
        "pub(crate) mod ingress;",
        "use std::collections::{BTreeMap, BTreeSet};",
    );
    text.swap("Arc is not needed", "use std::sync::Arc;\n", "");
    text.swap(
        "an Instant is milliseconds",
        "use std::time::{Duration, Instant};",
        "use std::time::Duration;\n\nuse crate::standins::Instant;",
    );
    text.swap(
        "items",
        "use bitcoin::hashes::Hash as _;\nuse bitcoin::p2p::message_blockdata::Inventory;\n",
        "use crate::standins::bitcoin::{self, Inventory};\n",
    );
    text.swap(
        "hashbrown's maps are std's",
        "use hashbrown::{HashMap, HashSet};",
        "use std::collections::{HashMap, HashSet};",
    );
    text.swap(
        "hashes",
        "use bitcoin_rs_consensus::primitives::{Hash256, Txid, Wtxid};",
        "use crate::standins::primitives::{Hash256, Txid, Wtxid};",
    );
    text.swap(
        "packages",
        "use bitcoin_rs_wire::packages::{\n    GetPkgTxns, MAX_GETPKGTXNS, MSG_ANCPKGINFO, MSG_PKGTXNS, combined_package_hash,\n};",
        "use crate::standins::packages::{\n    MAX_GETPKGTXNS, MSG_ANCPKGINFO, MSG_PKGTXNS, combined_package_hash,\n};",
    );
    text.swap(
        "connections",
        "use bitcoin_rs_wire::{Message, OutboundRefusal, PeerSource, TxInventory};",
        "use crate::standins::wire::{PeerSource, TxInventory};\nuse crate::standins::{max_announcements, note_considered};",
    );
}

/// The tracker's part of each wrapper, as a function on the tracker.
fn wrappers(source: &str) -> Vec<Text> {
    vec![
        announce_transactions(source),
        transaction_response_completed(source),
        transaction_not_found(source),
        poll_gate(source),
        arrange(source),
    ]
}

fn announce_transactions(source: &str) -> Text {
    let mut text = Text::part(
        source,
        "announce_transactions",
        "    pub fn announce_transactions(&self, source: PeerSource, items: &[Inventory]) {\n",
        "    pub(crate) fn request_parent_transactions(",
    );
    text.cut(
        "what the peer table knows becomes arguments",
        "    pub fn announce_transactions(",
        "        let overloaded = policy\n",
    );
    text.wrap(
        "head",
        "    fn announce_transactions(
        policy: &mut TxPolicy,
        source: PeerSource,
        items: &[Inventory],
        now: Instant,
        preferred: bool,
        has_wtxid_source: bool,
        rng: &mut crate::standins::Priorities<'_>,
    ) {\n",
        "",
    );
    text
}

fn transaction_response_completed(source: &str) -> Text {
    let mut text = Text::part(
        source,
        "transaction_response_completed",
        "    pub fn transaction_response_completed(",
        "    pub(crate) fn transaction_not_found(",
    );
    text.swap(
        "head",
        "    pub fn transaction_response_completed(&self, source: PeerSource, txid: Txid, wtxid: Wtxid) {
        let now = Instant::now();
        let mut policy = self.tx_policy.lock();\n",
        "    fn transaction_response_completed(
        policy: &mut TxPolicy,
        source: PeerSource,
        txid: Txid,
        wtxid: Wtxid,
        now: Instant,
    ) {\n",
    );
    text
}

fn transaction_not_found(source: &str) -> Text {
    let mut text = Text::part(
        source,
        "transaction_not_found",
        "    pub(crate) fn transaction_not_found(",
        "    pub fn poll_transaction_response(",
    );
    text.swap(
        "head",
        "    pub(crate) fn transaction_not_found(
        &self,
        source: PeerSource,
        items: &[Inventory],
        inventory: &dyn TxInventory,
    ) {
        let now = Instant::now();
        let keys = {
            let mut policy = self.tx_policy.lock();\n",
        "    fn transaction_not_found(
        policy: &mut TxPolicy,
        source: PeerSource,
        items: &[Inventory],
        now: Instant,
    ) -> Vec<Identity> {
        let keys = {\n",
    );
    text.swap(
        "its keys are the reply, nothing is sent",
        "        if !keys.is_empty() {
            self.send_transaction_requests(now, Some(inventory), Some(&keys), Instant::now);
        }\n",
        "        keys\n",
    );
    text
}

fn poll_gate(source: &str) -> Text {
    let mut text = Text::part(
        source,
        "poll gate",
        "            if policy.next_poll.is_some_and(|next| now < next) {\n",
        "            let live: HashSet<_> = self\n",
    );
    text.swap("not due", "                return;\n", "                return false;\n");
    text.wrap(
        "head, and `true` where due",
        "    fn poll_gate(policy: &mut TxPolicy, now: Instant) -> bool {\n",
        "            true\n    }\n",
    );
    text
}

fn arrange(source: &str) -> Text {
    let mut text = Text::part(
        source,
        "sending",
        "        let mut batches: HashMap<PeerSource, Vec<(Identity, Inventory)>> = HashMap::new();\n",
        "            match self.table.send(source, Message::GetData(items)) {\n",
    );
    text.swap(
        "batches by ascending connection",
        "HashMap<PeerSource, Vec<(Identity, Inventory)>> = HashMap::new()",
        "BTreeMap<PeerSource, Vec<(Identity, Inventory)>> = BTreeMap::new()",
    );
    text.swap(
        "witness connections come as a list",
        "self.table.transaction_witness(source)",
        "witness_connections.contains(&source)",
    );
    text.swap(
        "the items' type is written out",
        "            let items = batch\n",
        "            let items: Vec<Inventory> = batch\n",
    );
    text.wrap(
        "head and tail: the batches are listed, not sent",
        "    fn arrange(
        policy: &TxPolicy,
        selected: Vec<(Identity, Announcement)>,
        witness_connections: &[PeerSource],
    ) -> Vec<(PeerSource, Identity, Inventory)> {
        let mut arranged = Vec::new();\n",
        "            for ((key, _), item) in batch.iter().zip(items) {
                arranged.push((source, *key, item));
            }
        }
        arranged
    }\n",
    );
    text
}

/// FNV-1a, so that `--about` can name the source that was read.
fn fnv64(bytes: &[u8]) -> u64 {
    bytes.iter().fold(0xcbf2_9ce4_8422_2325, |hash, byte| {
        (hash ^ u64::from(*byte)).wrapping_mul(0x0000_0100_0000_01b3)
    })
}

fn derived(source: &str) -> String {
    let core = core(source);
    let parts = wrappers(source);
    let mut out = core.body;
    out.push_str("\nimpl TxPolicy {\n");
    for part in &parts {
        out.push_str(&part.body);
        out.push('\n');
    }
    out.push_str("}\n\n");
    let _ = writeln!(out, "pub const SOURCE_FNV64: u64 = 0x{:016x};", fnv64(source.as_bytes()));
    let _ = writeln!(out, "pub const SOURCE_LINES: usize = {};", source.lines().count());
    out.push_str("pub const DERIVATION: &[&str] = &[\n");
    for step in core.steps.iter().chain(parts.iter().flat_map(|part| &part.steps)) {
        let _ = writeln!(out, "    {step:?},");
    }
    out.push_str("];\n");
    out
}

fn variable(name: &str) -> PathBuf {
    match env::var_os(name) {
        Some(value) => PathBuf::from(value),
        None => fail(&format!("{name} is not set")),
    }
}

fn main() {
    if env::var_os("CARGO_FEATURE_SOURCE").is_none() {
        return;
    }
    println!("cargo:rerun-if-env-changed=TX_POLICY_RS");
    println!("cargo:rerun-if-changed=build.rs");
    let root = variable("CARGO_MANIFEST_DIR").join("..");
    let given = env::var_os("TX_POLICY_RS").map(PathBuf::from);
    let path = root.join(given.as_deref().unwrap_or(Path::new(DEFAULT_SOURCE)));
    println!("cargo:rerun-if-changed={}", path.display());
    let source = match fs::read_to_string(&path) {
        Ok(source) => source,
        Err(error) => {
            fail(&format!("{} is not readable ({error}); TX_POLICY_RS names the source", path.display()))
        }
    };
    let target = variable("OUT_DIR").join("tx_policy_core.rs");
    if let Err(error) = fs::write(&target, derived(&source)) {
        fail(&format!("{} is not writable: {error}", target.display()));
    }
}
