"""An owner's function as a method of `Tracker` in the Rust package: types in the place of what a refusal would tell."""
import textwrap

from declarations import RUST_WIDTH, filled, listed, signature
from exported import SLICES

# Refusal 8 hangs on the state, 13 on the order of a list: no type tells them.
REFUSED = ("solicit_package_info", "owners_of")

# Parameters that are one value: what is taken, what is done first, what is given on for each.
GROUPS = {
    ("connection", "item_type", "hash", "ready", "preferred", "priority"): (
        "announcement: &Announcement",
        ["let &Announcement { connection, ref item, ready, preferred, priority } = announcement;", "let (item_type, hash) = item.parts();"],
        ["connection.get()", "item_type", "hash", "ready", "preferred", "priority"],
    ),
    ("kind", "hash"): ("key: Key", ["let (kind, hash) = key.parts();"], ["kind", "hash"]),
    ("items", "items_length", "priorities", "priorities_length"): (
        "items: &[(Item, u64)]",
        ["let (items, priorities) = offers(items);"],
        ["items.as_ptr()", "items.len()", "priorities.as_ptr()", "priorities.len()"],
    ),
}
# Single values: what is taken, what is given on.
VALUES = {
    ("connection", "u64"): ("connection: Connection", "connection.get()"),
    ("now", "u64"): ("now: Now", "now.millis()"),
    ("hash", "&[u8; 32]"): ("wtxid: Wtxid", "&wtxid.0"),
    ("txid", "&[u8; 32]"): ("txid: Txid", "&txid.0"),
    ("wtxid", "&[u8; 32]"): ("wtxid: Wtxid", "&wtxid.0"),
}
# Lists that are a value of their own: what is taken, its elements.
BOUNDED = {"parents": ("Parents<'_>", "parents.txids()")}
# Other lists, by the type of their elements.
LISTS = {
    "wtxids": "Wtxid",
    "combined": "[u8; 32]",
    "hashes": "[u8; 32]",
    "items": "Item",
    "given": "Key",
    "keys": "Key",
    "witnesses": "Connection",
    "checked": "Entry",
    "taken": "Entry",
}
# The bytes that an answer needs.
NEEDS = {
    "announce_parents": "bytes::KEYS_NEED",
    "failed_with_parents": "bytes::KEYS_NEED",
    "release_package": "bytes::KEYS_NEED",
    "failed_package_claims": "self.sizes.failed_package_claims_need()",
    "transaction_not_found": "self.sizes.not_found_need(items.len())",
    "disconnected": "self.sizes.disconnected_need()",
    "sweep": "self.sizes.sweep_need()",
    "plan": "self.sizes.plan_need()",
    "claim": "checked.len() * bytes::ENTRY_BYTES",
    "arrange": "taken.len() * bytes::ENTRY_BYTES",
    "owners_of": "hashes.len() * bytes::OWNER_BYTES",
    "save": "self.sizes.listing_need()",
}
KEYS = "Keys::new(&self.answer, {} as usize)"
ENTRIES = "Entries::new(&self.answer, {} as usize)"
# The numbers that a call hands out, beside an answer or without one, as a value.
HANDED = {
    (): ("()", "()"),
    ("reply",): ("bool", "reply == 1"),
    ("count",): ("u64", "count"),
    ("owner",): ("Option<Connection>", "Connection::new(owner)"),
    ("held", "room", "preferred_room", "permille"): ("Figures", "Figures { held, free: room, preferred_free: preferred_room, permille }"),
    ("announced", "owned"): ("Counts", "Counts { announced, owned }"),
}
ANSWERED = {
    ("count",): ("Keys<'_>", KEYS.format("count")),
    ("own", "parents"): ("Departed<'_>", "Departed::new(&self.answer, own as usize, parents as usize)"),
    ("passed",): ("Owned<'_>", "Owned { passed, owners: Owners::new(&self.answer, hashes.len() / 32) }"),
    ("written",): ("&[u8]", "&self.answer[..written as usize]"),
}
# What a method says otherwise than the function's comment, or not at all.
PHRASES = ((" Carried out, it replies 1.", ""), (" The store is only read.", ""), ("The reply is 0 unless", "False unless"))
# What a method says where the function's comment speaks of the answer's bytes.
SAID = {
    "arrange": "What a claim has taken, by ascending connection, then in claim order. A t item of a marked request turns v for a witness connection.",
    "announce_parents": "Requests the parents of a transaction. The answer has the keys of those that are kept.",
    "disconnected": "The connection leaves every request that it is a candidate of.",
    "failed_with_parents": "failed, and the parents of the request are requested of the connection. The answer has the key and those of the parents that are kept;"
    " none where failed would be false.",
    "announce": "A connection can deliver an item. Whether it is kept.",
    "package_info_owner": "The connection that is asked for package info of the request at the key, and in time.",
    "solicit_package_info": "The connection is asked for the package info of the transaction, whose parents are given. False if the hash is owned, if the connection"
    " owns 100 requests, or if it is no candidate and is not kept as one. [`Error::NoPlace`] if it would be true, and all package places are held.",
    "claim_package": "The package info of the request has come: its owner has until the deadline to get the package, whose wtxids are given. False unless they are 1"
    " to 100.",
    "release_package": "The package in the queue, if the connection owns it, is given up: the connection leaves, and is asked for the parents. The answer has the key"
    " and those of the parents that are kept; none where there is no such package.",
    "failed_package_claims": "The claims of the connection whose packages have one of the combined hashes have failed; of two with one hash, that at the greater key."
    " The answer has their keys, each followed by those of its parents that are kept.",
    "teardown_package_claims": "Every package goes, whatever its phase, and its owner leaves the request. How many went.",
    "claim": "Takes, in order, each entry of the list whose hash is unowned and that is still what plan would choose for it. The answer has those that are taken.",
    "sweep": "The next keys after the known cursor, at most 1,024; the cursor becomes the last of them.",
    "poll_gate": "Whether a poll is due. If it is, the next one is 100 milliseconds later.",
    "announce_transactions": "The connection announces the items, with a priority each. source: a wtxid source exists.",
    "transaction_not_found": "The connection does not have the items: what it owns of them has failed, and so have its claims to the packages among them. The answer"
    " has the keys of what failed, followed by those of the parents that are kept.",
    "plan_given": "plan over these keys alone; the ready cursor stays.",
    "request_parent": "announce, of a parent that is missing: a connection that is a candidate at the hash already turns preferred, with the smaller ready time and the"
    " smaller priority.",
    "plan": "Which candidate is to be asked for what, by priority: at most 1,025 entries. Owners whose deadline has come fail first.",
    "save": "The listing of the tracker's state: text, a line feed after each line.",
    "owners_of": "Who owns each of the hashes, deadlines over or not, and how many keys were passed. [`Error::WrongHashes`] if they are more than 1,024 or not"
    " in strictly ascending order, byte 31 being the most significant.",
}

# Examples, which are run as tests.
EXAMPLES = {
    "arrange": """
        use tracker::{Connection, Entry, Item, Now, Parents, Tracker, Txid};

        let mut tracker = Tracker::new(100, 2)?;
        let (now, peer) = (Now::new(0)?, Connection::new(7).expect("not 0"));
        tracker.announce_parents(peer, Parents::of(&[Txid([1; 32])]), now); // a request with the mark
        let planned: Vec<Entry> = tracker.plan(now).entries.collect();
        let taken: Vec<Entry> = tracker.claim(now, &planned).collect();

        let list = tracker.arrange(&[peer], &taken); // 7 takes witnesses
        let getdata = list.part(peer).map(|entry| entry.candidate.item);
        assert!(getdata.eq([Item::WitnessTx(Txid([1; 32]))]));
        # Ok::<(), tracker::Error>(())
        """,
    "save": """
        use tracker::{Announcement, Connection, Item, Tracker, Wtxid};

        let mut tracker = Tracker::new(4, 1)?;
        let mut hash = [0; 32];
        hash[0] = 10;
        let peer = Connection::new(7).expect("not 0");
        tracker.announce(&Announcement::new(peer, Item::WTx(Wtxid(hash))).priority(5));
        assert_eq!(tracker.save(), b"4,1,none,none,none\\nwa,none,0,none,0,0\\n7,wa,0,0,5\\n");
        # Ok::<(), tracker::Error>(())
        """,
    "counts": """
        use tracker::{Announcement, Connection, Counts, Entry, Item, Now, Tracker, Txid};

        let mut tracker = Tracker::new(100, 2)?;
        let (now, peer) = (Now::new(0)?, Connection::new(7).expect("not 0"));
        for byte in [1, 2] {
            tracker.announce(&Announcement::new(peer, Item::Tx(Txid([byte; 32]))));
        }
        let planned: Vec<Entry> = tracker.plan(now).entries.collect();
        tracker.claim(now, &planned[..1]); // it is asked for one of the two
        assert_eq!(tracker.counts(peer), Counts { announced: 2, owned: 1 });
        # Ok::<(), tracker::Error>(())
        """,
    "owners_of": """
        use tracker::{Announcement, Connection, Entry, Error, Item, Now, Owner, Tracker, Wtxid};

        let mut tracker = Tracker::new(100, 2)?;
        let (now, peer) = (Now::new(0)?, Connection::new(7).expect("not 0"));
        tracker.announce(&Announcement::new(peer, Item::WTx(Wtxid([2; 32]))));
        let planned: Vec<Entry> = tracker.plan(now).entries.collect();
        tracker.claim(now, &planned);

        let mut answer = tracker.owners_of(&[[1; 32], [2; 32]])?;
        assert_eq!(answer.passed, 1); // the one key that is held
        assert_eq!(answer.owners.next(), Some(None));
        assert_eq!(answer.owners.next(), Some(Some(Owner { wtxid: true, connection: peer, deadline: 60_000 })));
        assert_eq!(tracker.owners_of(&[[2; 32], [1; 32]]).err(), Some(Error::WrongHashes));
        # Ok::<(), tracker::Error>(())
        """,
    "solicit_package_info": """
        use tracker::{Connection, Key, Now, Parents, Tracker, Txid, Wtxid};

        let mut tracker = Tracker::new(100, 2)?;
        let (now, peer) = (Now::new(0)?, Connection::new(7).expect("not 0"));
        let (child, parents, combined) = (Wtxid([9; 32]), [Txid([1; 32])], [5; 32]);
        assert!(tracker.solicit_package_info(peer, child, Parents::of(&parents), now)?);
        assert_eq!(tracker.package_info_owner(Key::Wtxid(child), now), Some(peer));

        // The info has come: the package is asked for, and comes in time.
        let wtxids = [Wtxid([2; 32]), child];
        assert!(tracker.claim_package(peer, child, &combined, &wtxids, now));
        assert!(tracker.begin_package_resolution(peer, child, &combined, &wtxids, now));

        // It is of no use: the connection is asked for the parents one by one.
        assert!(tracker.release_package(peer, child, now).eq([Key::Wtxid(child), Key::Txid(parents[0])]));
        # Ok::<(), tracker::Error>(())
        """,
}


def said(name, comment):
    """What a method says: the function's comment, or words of its own."""
    for old, new in PHRASES:
        comment = comment.replace(old, new)
    return SAID.get(name, comment)


def example_of(name):
    """The example of a method as lines of its comment."""
    if name not in EXAMPLES:
        return []
    lines = textwrap.dedent(EXAMPLES[name]).strip().splitlines()
    return ["    ///" + (" " + line if line else "") for line in ["", "```", *lines, "```"]]


def taken(parameters):
    """What the method takes, what it does first, and what it gives on."""
    takes, first, gives = [], [], []
    names = [one.name for one in parameters]
    at = 0
    while at < len(parameters):
        one = parameters[at]
        group = next((group for group in GROUPS if tuple(names[at:at + len(group)]) == group), None)
        if group:
            takes.append(GROUPS[group][0])
            first += GROUPS[group][1]
            gives += GROUPS[group][2]
            at += len(group)
            continue
        at += 1
        if one.kind in SLICES:
            at += 1
            if one.name in ("store", "answer"):
                start, of = "as_mut_ptr" if one.kind == "&mut [u8]" else "as_ptr", "self.answer" if one.name == "answer" else "store"
                gives += [f"{of}.{start}()", f"{of}.len()"]
                continue
            if one.name not in LISTS and one.name not in BOUNDED:
                raise SystemExit(f"no type of Rust for the elements of {one.name}")
            kind, elements = BOUNDED.get(one.name) or (f"&[{LISTS[one.name]}]", one.name)
            takes.append(f"{one.name}: {kind}")
            first.append(f"let {one.name} = listed({elements});")
            gives += [f"{one.name}.as_ptr()", f"{one.name}.len()"]
        elif one.kind == "&mut u64":
            first.append(f"let mut {one.name} = 0;")
            gives.append(f"&mut {one.name}")
        else:
            take, give = VALUES.get((one.name, one.kind), (f"{one.name}: {one.kind}", one.name))
            takes.append(take)
            gives.append(give)
    return takes, first, gives


def handed(name, function):
    """What the method returns, as a type and as an expression."""
    numbers = tuple(one.name for one in function.parameters if one.kind == "&mut u64")
    if not any(one.name == "answer" for one in function.parameters):
        found = HANDED.get(numbers)
    elif name in ("claim", "arrange") and len(numbers) == 1:
        found = "Entries<'_>", ENTRIES.format(numbers[0])
    elif name.startswith("plan") and numbers == ("considered", "count", "next"):
        found = "Planned<'_>", "Planned { considered, entries: " + ENTRIES.format("count") + ", next: (next != 0).then_some(next) }"
    else:
        found = ANSWERED.get(numbers)
    if not found:
        raise SystemExit(f"{function.name}: no value of Rust for the numbers {', '.join(numbers)}")
    return found


def only_reads(function):
    return any(one.name == "store" and one.kind == "&[u8]" for one in function.parameters)


def reading(function):
    """A call that leaves the store as it is, as a method of any tracker."""
    return method(function) if only_reads(function) else ""


def changing(function):
    """A call that may change the store, as a method of a tracker whose store may be changed."""
    return "" if only_reads(function) else method(function)


def method(function):
    """A call whose arguments cannot meet a refusal by their types returns its value, any other a Result."""
    name = function.name.removeprefix("tracker_owned_")
    takes, first, gives = taken(function.parameters)
    kind, value = handed(name, function)
    answers = any(one.name == "answer" for one in function.parameters)
    refused = name in REFUSED
    result = f"Result<{kind}, Error>" if refused else kind
    lent = "&self" if only_reads(function) and not answers else "&mut self"
    head = signature("    ", name, [lent, *takes], (f" -> {result}" if result != "()" else "") + " {")
    need = NEEDS.get("plan" if name.startswith("plan") else name)
    if answers and not need:
        raise SystemExit(f"{function.name}: the need of its answer is not known")
    call = filled(f"abi::{function.name}({listed(gives)})", RUST_WIDTH, " " * 12, " " * 16).replace("\0", " ")
    lines = [filled(said(name, function.comment), RUST_WIDTH - 1, "    /// ", "    /// "), *example_of(name), head]
    lines += [f"        self.room({need});"] if answers else []
    lines += ["        " + line for line in first]
    lines += [f"        let store = self.store.{'bytes' if only_reads(function) else 'bytes_mut'}();"]
    lines += ["        // SAFETY: the store is sound and nobody else can write it; what the call may write is lent to it alone."]
    lines += ["        let status = unsafe {", call, "        };", f"        {'done' if refused else 'settled'}(status, {value})"]
    return "\n" + "\n".join(lines) + "\n    }\n"
