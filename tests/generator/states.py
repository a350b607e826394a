"""Scripts that begin at sound states of any kind, set by the oracle's own word `load`, with lists for `grab` and `ship` taken from them."""
from script import LIFETIME, NUMBERS, OTHER_TYPES, Script, listed


class Loaded(Script):
    """Small states: deadlines, cursors, next polls and phases of all kinds, also such as no calls lead to."""

    def __init__(self, profile, seed):
        super().__init__(profile, seed)
        self.words += ["grab", "ship"]
        self.weights += [60, 10]
        self.entries = []

    def opening(self):
        super().opening()
        self.now = self.pick((0, 1_000, 100_000))
        self.moments.append(self.now)
        self.entries = []
        return "load," + self.state()

    # ---- states

    def moment(self):
        return self.pick(NUMBERS) if self.one_in(5) else max(0, self.now + self.pick((-60_000, -1, 0, 1, 59_999, 60_000)))

    def cursor(self):
        return "none" if self.one_in(4) else self.key()

    def state(self):
        self.places = room = self.random.randrange(3)
        self.at_hash = {}       # connections at a hash, and whether it is owned
        keys = [(kind, format(hash_, "x")) for kind in "tw" for hash_ in self.profile.hashes if not self.one_in(3)]
        requests = [self.request(*key) for key in keys]
        limit = max(1, len(self.entries) + self.pick((0, 0, 1, 5)))
        places = max(1, room - self.places + self.pick((0, 1)))
        head = f"s,{limit},{places},{self.pick(('none', self.moment()))},{self.cursor()},{self.cursor()}"
        return ";".join([head, *filter(None, requests)])

    def request(self, kind, hash_):
        """A request under a key; connections that stand under the other kind, or own there, are left out."""
        taken, owned = self.at_hash.get(hash_, (set(), False))
        free = [c for c in self.profile.connections if c not in taken]
        chosen = self.random.sample(free, self.random.randrange(min(len(free), 8 - len(taken)) + 1))
        if not chosen:
            return None
        candidates = [f"{c},{self.pick('tv') if kind == 't' else 'w'}{hash_},{self.moment()},{self.random.randrange(2)},{self.priority()}" for c in chosen]
        owner = None if owned or self.one_in(3) else self.pick(chosen)
        self.at_hash[hash_] = (taken | set(chosen), owned or owner is not None)
        self.entries += [f"{kind}{hash_},{c}" for c in candidates]
        return ";c,".join([self.head(kind, hash_, owner), *candidates])

    def head(self, kind, hash_, owner):
        if owner is None:
            return f"r,{kind}{hash_},none,none,0,none,0,{self.mark(kind)}"
        deadline = self.moment()
        self.moments.append(deadline)
        place = self.place(hash_, owner) if kind == "w" and self.places and not self.one_in(3) else "0,none,0"
        return f"r,{kind}{hash_},{owner},{deadline},{place},{self.mark(kind)}"

    def place(self, hash_, owner):
        """Flag or package, and distinct parents in any order."""
        self.places -= 1
        self.solicited.append((owner, hash_))
        parents = list(dict.fromkeys(self.parents()))[:100]
        self.random.shuffle(parents)
        if self.one_in(3):
            return ",".join(map(str, [1, "none", *listed(parents)]))
        combined, wtxids = self.combined(), self.hashes(3) or [self.hash_()]
        self.begun.append((owner, hash_))
        self.claimed.append((owner, hash_, combined, wtxids))
        return ",".join(map(str, [0, self.pick(("awaiting", "enqueued")), combined, *listed(wtxids), *listed(parents)]))

    def mark(self, kind):
        return self.random.randrange(2) if kind == "t" else 0

    # ---- lists on the line

    def altered(self, entry):
        """An entry of the state, every other time with a field changed."""
        fields = entry.split(",")
        if self.one_in(2):
            place = self.random.randrange(6)
            fields[place] = (self.key, lambda: self.pick((0, self.connection())), lambda: self.relabelled(fields[2]), self.moment,
                             lambda: 1 - int(fields[4]), self.priority)[place]()
        return ",".join(map(str, fields))

    def relabelled(self, item):
        """An item of another kind or of another hash."""
        return self.pick(("t", "v", "w", f"o{self.pick(OTHER_TYPES)}:")) + (item[1:] if self.one_in(2) else self.hash_())

    def checked(self, most):
        if not self.entries:
            return [0]
        return listed([self.altered(self.pick(self.entries)) for _ in range(self.random.randrange(most))])

    def grab(self):
        return self.now if self.one_in(2) else self.clock(), *self.checked(10)

    def ship(self):
        """The witness connections are among the list's own."""
        checked = self.checked(6)
        return *listed([entry.split(",")[1] for entry in checked[1:] if self.one_in(2) and entry.split(",")[1] != "0"]), *checked


class Large(Loaded):
    """States at limits that event lines do not reach, one after the other, each with a few calls that meet its limit."""

    def __init__(self, profile, seed):
        super().__init__(profile, seed)
        self.limits = [self.owners, self.announcements, self.expiry, self.sweeping, self.selection]
        self.turn, self.next = 0, []

    def opening(self):
        self.now = 100_000
        self.turn += 1
        return self.limits[(self.turn - 1) % len(self.limits)]()

    def load(self, requests, places=1, spare=0, cursor="none"):
        self.entries = [f"{r.split(',')[1]},{c}" for r in requests for c in r.split(";c,")[1:]]
        return ";".join([f"load,s,{len(self.entries) + spare},{places},none,{cursor},{cursor}", *requests])

    def plain(self, hash_, connection, owner=None, ready=0, preferred=1, priority=0):
        owned = f"{owner},{self.now + LIFETIME}" if owner else "none,none"
        return f"r,t{hash_:x},{owned},0,none,0,0;c,{connection},t{hash_:x},{ready},{preferred},{priority}"

    def owners(self):
        """Connection 7 owns 99 or 100 and could have three more."""
        count = self.pick((98, 99, 100))
        self.next = ["plan", "take", "sol", "inv", "grab", "plan", "sol", "bad", "plan", "take"]
        requests = [self.plain(h, 7, 7 if h < count else None, preferred=self.random.randrange(2), priority=h % 3) for h in range(count + 3)]
        return self.load(requests, places=3, spare=9)

    def announcements(self):
        """Connection 7 has close to 5,000 announcements."""
        count = self.pick((4_999, 5_000))
        self.next = ["ann", "ann", "par", "sol", "kin", "inv"]
        return self.load([self.plain(h, 7, preferred=h % 2) for h in range(count)], spare=self.pick((0, 9)))

    def selection(self):
        """More than 1,024 keys are ready, of connections that stay below 100."""
        count = self.pick((1_023, 1_024, 1_025, 1_060))
        self.next = ["plan", "take", "plan"]
        requests = [self.plain(h, 20 + h % 12, priority=h % 5, ready=self.now) for h in range(count)]
        return self.load(requests, places=2, spare=5, cursor=self.pick(("none", "t100", "w0")))

    def expiry(self):
        """Package information of 100 parents each is due, so that parents alone may fill a phase."""
        first = self.turn <= len(self.limits)
        count = 11 if first else self.pick((10, 11))
        self.next = ["want" if first else "plan"]
        requests = []
        for n in range(count):
            parents = ",".join(format(0x10000 + 100 * n + i, "x") for i in range(self.pick((99, 100))))
            requests.append(f"r,w{n:x},{n + 1},{self.now},1,none,{parents.count(',') + 1},{parents},0;c,{n + 1},w{n:x},0,1,0")
        requests.append("r,wffff,none,none,0,none,0,0;c,50,wffff,0,1,9")
        return self.load(requests, places=count, spare=100 * count)

    def sweeping(self):
        """A sweep does not hand out all keys."""
        count = self.pick((1_024, 1_025, 1_500))
        self.next = ["swp", "swp", "ann", "swp"]
        return self.load([self.plain(h, 20 + h % 4) for h in range(count)], spare=3, cursor=self.pick(("none", "t100", "t5ff")))

    def line(self):
        return self.call(self.next.pop(0)) if self.next else self.opening()

    def connection(self):
        return 7

    def want(self):
        return self.clock(), 3, "wffff", "w1", self.key()

    def inv(self):
        """Inbound, beside a wtxid source."""
        return 7, self.now, 0, 1, 2, "t" + self.hash_(), 3, "w" + self.hash_(), 4

    def clock(self):
        self.now += self.random.randrange(3)
        return self.now
