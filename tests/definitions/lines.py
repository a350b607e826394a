"""Event lines to the definitions' values, and values to text."""
import re

from anttrun.values import Some, inward

NUMBER = re.compile(rb"(0|[1-9][0-9]{0,19})\Z")
HASH = re.compile(rb"(0|[1-9a-f][0-9a-f]{0,63})\Z")
WORD = 2 ** 64
TYPES = {"t": 1, "v": 0x40000001, "w": 5}

# word: its fields, and the call that it asks for: the constructor of Ask and its arguments, if it is one.
# Fields: N number, B bool, H hash, K key, I item, P item and priority, E entry; * a list of what follows.
# Arguments: the places of fields; "c" a candidate of all of them, "s" the field 1 as a list that is given, "-" none is given, "b" the answer buffer.
# The list of `take` and `send`, field 1, is what was kept.
WORDS = {
    "open": ("NN", None, ""), "part": ("N", None, ""), "sum": ("", "Sum", ""),
    "ann": ("NINBN", "Announce", "c"), "par": ("NINBN", "RequestParent", "c"), "kin": ("NN*H", "AnnounceParents", "021b"),
    "bad": ("KNN", "Failed", "012"), "fail": ("KNN", "FailedWithParents", "012b"), "off": ("KN", "Unclaim", "01"),
    "drop": ("K", "Forget", "0"), "known": ("KN", "ForgetKnown", "01"),
    "sol": ("NHN*H", "SolicitPackageInfo", "0132"), "info": ("KNN", "FailedPackageInfo", "012"), "who": ("KN", "PackageInfoOwner", "01"),
    "clm": ("NHHN*H", "ClaimPackage", "01243"), "beg": ("NHHN*H", "BeginPackageResolution", "01243"), "rel": ("NHN", "ReleasePackage", "012b"),
    "lost": ("NN*H", "FailedPackageClaims", "021b"), "tear": ("N", "TeardownPackageClaims", "0"), "gone": ("NN", "Disconnected", "01b"),
    "plan": ("N", "Plan", "0-b"), "want": ("N*K", "Plan", "0sb"), "take": ("N", "Claim", "01b"), "send": ("*N", "Arrange", "01b"),
    "swp": ("", "Sweep", "b"), "poll": ("N", "PollGate", "0"), "whose": ("*H", "OwnersOf", "0b"),
    "inv": ("NNBB*P", "AnnounceTransactions", "01234"), "done": ("NHHN", "TransactionResponseCompleted", "0123"), "nfd": ("NN*I", "TransactionNotFound", "021b"),
}
# The oracle's own.
EXTRA = {"dump": ("", None, ""), "grab": ("N*E", "Claim", "01b"), "ship": ("*N*E", "Arrange", "01b")}


class Unreadable(Exception):
    """A line of no listed form."""


def number(text):
    if not NUMBER.match(text) or int(text) >= WORD:
        raise Unreadable
    return int(text)


def boolean(text):
    if text not in (b"0", b"1"):
        raise Unreadable
    return text == b"1"


def hash_(text):
    if not HASH.match(text):
        raise Unreadable
    return int(text, 16)


class Text:
    """Reads and writes the values of one loaded program."""

    def __init__(self, m):
        ident = "Rattle.ident.specs."
        self.kinds = {k: m[f"{ident}declared.Kind.TheVariants.{n}"] for k, n in (("t", "Txid"), ("w", "Wtxid"))}
        variant = f"{ident}declared.ItemKind.TheVariants."
        self.item_kinds = {k: m[variant + n] for k, n in (("t", "Transaction"), ("v", "WitnessTransaction"), ("w", "WTx"))}
        self.Other = m[variant + "Other"]
        self.Key, self.Item = m[ident + "Number.Key"], m[ident + "Number.Item"]
        self.Candidate, self.Owner, self.Package, self.Request, self.State, self.Entry = (
            m["specs.State." + n] for n in ("Candidate", "Owner", "Package", "Request", "State", "Entry"))
        self.Offer = m["specs.Wrapper.Offer"]
        self.letters = {id(k): letter for letter, k in self.kinds.items()} | {id(k): letter for letter, k in self.item_kinds.items()}
        self.shapes = {"N": number, "B": boolean, "H": hash_, "K": self.read_key, "I": self.read_item}
        self.written = {}       # texts of requests that were written before, by identity

    # ---- reading

    def read_key(self, text):
        kind = self.kinds.get(text[:1].decode("latin-1"))
        if kind is None:
            raise Unreadable
        return self.Key(kind=kind, hash=hash_(text[1:]))

    def read_item(self, text):
        kind = self.item_kinds.get(text[:1].decode("latin-1"))
        if kind is not None:
            return self.Item(kind=kind, hash=hash_(text[1:]))
        type_, colon, rest = text[1:].partition(b":")
        if text[:1] != b"o" or not colon:
            raise Unreadable
        value = number(type_)
        if value >= 2 ** 32 or value in TYPES.values():
            raise Unreadable
        return self.Item(kind=self.Other(value), hash=hash_(rest))

    def value(self, shape, fields):
        if shape == "P":
            return self.Offer(item=self.value("I", fields), priority=self.value("N", fields))
        if shape == "E":
            return self.Entry(key=self.value("K", fields), candidate=self.Candidate(*(self.value(s, fields) for s in "NINBN")))
        if not fields:
            raise Unreadable
        return self.shapes[shape](fields.pop())

    def listed(self, shape, fields):
        count = self.value("N", fields)
        if count > len(fields):
            raise Unreadable
        return inward([self.value(shape, fields) for _ in range(count)])

    def read(self, line, extra):
        """The word of a line and the values of its fields."""
        fields = line.split(b",")[::-1]
        word = fields.pop().decode("latin-1")
        if extra and word == "load":
            return word, [self.read_state(line.removeprefix(b"load,"))]
        known = WORDS.get(word, EXTRA.get(word) if extra else None)
        if known is None:
            raise Unreadable
        values = [self.listed(s[1], fields) if s[0] == "*" else self.value(s, fields) for s in re.findall(r"\*?\w", known[0])]
        if fields:
            raise Unreadable
        return word, values

    def read_state(self, text):
        """A state from a dump, which is trusted to be sound."""
        head, *parts = [part.split(b",")[::-1] for part in text.split(b";")]
        requests = []
        for fields in parts:
            if fields.pop() == b"r":
                requests.append((self.read_request(fields), []))
            else:
                requests[-1][1].append(self.Candidate(*(self.value(s, fields) for s in "NINBN")))
        head.pop()
        limit, places = self.value("N", head), self.value("N", head)
        return self.State(limit=limit, places=places, table=[r.but(candidates=cs) for r, cs in requests], next_poll=self.optional("N", head),
                          known_cursor=self.optional("K", head), ready_cursor=self.optional("K", head))

    def optional(self, shape, fields):
        if fields[-1] == b"none":
            return fields.pop() and None
        return Some(self.value(shape, fields))

    def read_request(self, fields):
        key, connection, deadline = self.value("K", fields), self.optional("N", fields), self.optional("N", fields)
        owner = connection and Some(self.Owner(connection=connection.value, deadline=deadline.value))
        info, phase, package = self.value("B", fields), fields.pop(), None
        if phase != b"none":
            combined, wtxids = self.value("H", fields), self.listed("H", fields)
            package = Some(self.Package(combined=combined, wtxids=wtxids, enqueued=phase == b"enqueued"))
        parents = self.listed("H", fields)
        return self.Request(key=key, candidates=[], owner=owner, info=info, package=package, parents=parents, fallback=self.value("B", fields))

    # ---- writing

    def key(self, key):
        return f"{self.letters[id(key.kind)]}{key.hash:x}"

    def item(self, item):
        letter = self.letters.get(id(item.kind)) or f"o{item.kind.args[0]}:"
        return f"{letter}{item.hash:x}"

    def candidate(self, c):
        return f"{c.connection},{self.item(c.item)},{c.ready},{int(c.preferred)},{c.priority}"

    def keys(self, keys):
        return ",".join(map(self.key, keys))

    def holding(self, owner):
        """An owner, or none."""
        return "none" if owner is None else f"{self.key(owner.value.key)},{owner.value.connection},{owner.value.deadline}"

    def holding_bytes(self, owner):
        words = (0, 0, 0) if owner is None else (1 + (owner.value.key.kind is self.kinds["w"]), owner.value.connection, owner.value.deadline)
        return b"".join(word.to_bytes(8, "little") for word in words)

    def entries(self, entries):
        return ",".join(f"{self.key(e.key)},{self.candidate(e.candidate)}" for e in entries)

    def request(self, r):
        owner = f"{r.owner.value.connection},{r.owner.value.deadline}" if r.owner else "none,none"
        package = "none"
        if r.package:
            p = r.package.value
            package = ",".join(["enqueued" if p.enqueued else "awaiting", f"{p.combined:x}", str(len(p.wtxids)), *(f"{h:x}" for h in p.wtxids)])
        parents = ",".join([str(len(r.parents)), *(f"{h:x}" for h in r.parents)])
        head = f"r,{self.key(r.key)},{owner},{int(r.info)},{package},{parents},{int(r.fallback)}"
        return ";c,".join([head, *map(self.candidate, r.candidates)])

    def state(self, s):
        """A state as the oracle dumps it. Requests are values, so a text once written for one stays right."""
        def optional(value, text):
            return text(value.value) if value else "none"

        before, self.written = self.written, {}
        parts = [f"s,{s.limit},{s.places},{optional(s.next_poll, str)},{optional(s.known_cursor, self.key)},{optional(s.ready_cursor, self.key)}"]
        for r in s.table:
            got = before.get(id(r)) or (r, self.request(r))
            self.written[id(r)] = got
            parts.append(got[1])
        return ";".join(parts)

    # ---- bytes of an answer

    def key_bytes(self, key):
        return (self.letters[id(key.kind)] == "w").to_bytes(8, "little") + key.hash.to_bytes(32, "little")

    def entry_bytes(self, entry):
        c = entry.candidate
        letter = self.letters.get(id(c.item.kind))
        words = [c.connection, TYPES[letter] if letter else c.item.kind.args[0]], [c.ready, int(c.preferred), c.priority]
        front, back = (b"".join(w.to_bytes(8, "little") for w in part) for part in words)
        return self.key_bytes(entry.key) + front + c.item.hash.to_bytes(32, "little") + back

    def answer_bytes(self, reply):
        """What a reply puts into the answer buffer: a key is 5 words, an entry 14, an owner 3."""
        if reply.NAME in ("Keys", "Left"):
            return b"".join(self.key_bytes(k) for keys in reply.args for k in keys)
        if reply.NAME in ("Entries", "Chosen"):
            return b"".join(map(self.entry_bytes, reply.args[reply.NAME == "Chosen"]))
        if reply.NAME == "Owned":
            return b"".join(map(self.holding_bytes, reply.args[1]))
        return b""
