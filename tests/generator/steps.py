"""One line of a run, with its answer and the states before and after it, as a test of named events looks at it."""
from dataclasses import dataclass, field


@dataclass
class Request:
    key: str
    owner: int | None
    deadline: int | None
    flag: bool
    phase: str | None
    combined: str | None
    wtxids: list
    parents: list
    mark: bool
    candidates: list = field(default_factory=list)      # (connection, item, ready, preferred, priority)

    def place(self):
        return self.flag or self.phase is not None

    def has(self, connection):
        return any(c[0] == connection for c in self.candidates)


def listed(fields):
    return [fields.pop() for _ in range(int(fields.pop()))]


def request(text):
    fields = text.split(",")[:0:-1]
    key, owner, deadline, flag, phase = (fields.pop() for _ in range(5))
    combined, wtxids = (fields.pop(), listed(fields)) if phase != "none" else (None, [])
    parents = listed(fields)
    return Request(key, None if owner == "none" else int(owner), None if deadline == "none" else int(deadline), flag == "1",
                   None if phase == "none" else phase, combined, wtxids, parents, fields.pop() == "1")


class State:
    def __init__(self, dump):
        head, *parts = dump.split(";")
        _, limit, places, poll, self.known, self.ready = head.split(",")
        self.limit, self.places = int(limit), int(places)
        self.poll = None if poll == "none" else int(poll)
        self.requests = {}
        for part in parts:
            if part[0] == "r":
                last = request(part)
                self.requests[last.key] = last
            else:
                connection, item, ready, preferred, priority = part[2:].split(",")
                last.candidates.append((int(connection), item, int(ready), preferred == "1", int(priority)))
        self.held = sum(len(r.candidates) for r in self.requests.values())

    def at(self, key):
        return self.requests.get(key)

    def both(self, hash_):
        return [r for r in (self.at("t" + hash_), self.at("w" + hash_)) if r]

    def at_hash(self, hash_):
        return sum(len(r.candidates) for r in self.both(hash_))

    def owned_by(self, connection):
        return sum(r.owner == connection for r in self.requests.values())

    def announced_by(self, connection):
        return sum(r.has(connection) for r in self.requests.values())


KEYED = {"bad", "off", "fail", "info", "who", "known", "drop"}


class Step:
    """`f` are the fields after the word, `conn`, `hash`, `key` and `now` those that the word has (None where it has not)."""

    def __init__(self, line, answer, before, after, last_now):
        self.word, *self.f = line.split(",")
        self.answer, self.before, self.after, self.last_now = answer, before, after, last_now
        self.refused = answer.startswith("no,")
        self.conn = self.key = self.hash = self.now = None
        if not self.refused:
            self.name()

    def name(self):
        f, word = self.f, self.word
        if word in ("ann", "par"):
            self.conn, self.key = int(f[0]), ("w" if f[1][0] == "w" else "t" if f[1][0] in "tv" else "o") + f[1][1:]
        elif word in KEYED:
            self.key = f[0]
            self.conn = int(f[1]) if word in ("bad", "off", "fail", "info") else None
        elif word in ("sol", "clm", "beg", "rel", "gone", "kin", "lost", "inv", "done", "nfd", "part"):
            self.conn = int(f[0])
            self.key = "w" + f[1] if word in ("sol", "clm", "beg", "rel") else None
        self.hash = self.key and self.key[1:]
        places = {"sol": 2, "clm": 3, "beg": 3, "rel": 2, "bad": 2, "fail": 2, "info": 2, "known": 1, "who": 1, "gone": 1, "kin": 1, "lost": 1,
                  "inv": 1, "nfd": 1, "done": 3, "plan": 0, "want": 0, "take": 0, "grab": 0, "tear": 0, "poll": 0}
        if word in places:
            self.now = int(f[places[word]])

    def was(self):
        """The request at the key before the call."""
        return self.before and self.key and self.before.at(self.key)

    def now_is(self):
        return self.after and self.key and self.after.at(self.key)

    def entries(self):
        """The entries of an answer, six fields each."""
        fields = self.answer.split(",")
        fields = fields[1:-1] if self.word in ("plan", "want") else [] if fields == ["-"] else fields
        return [fields[i:i + 6] for i in range(0, len(fields), 6)]

    def considered(self):
        return int(self.answer.split(",")[0])

    def next(self):
        """When to look again, the last field of a plan's answer."""
        last = self.answer.split(",")[-1]
        return None if last == "none" else int(last)


def steps(lines, answers):
    """The steps of a run, from its lines and the pairs of answer and state."""
    before, last_now = None, None
    for line, (answer, dump) in zip(lines, answers):
        after = None if dump == "-" else State(dump)
        step = Step(line.decode("latin-1"), answer, before, after, last_now)
        yield step
        last_now = step.now if step.now is not None else last_now
        before = after
