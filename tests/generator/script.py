"""Random event lines.

A `Script` draws from few hashes and connections, so that calls meet each other, and remembers what it asked for, so that a
claim follows its solicitation and a clock comes to stand at a deadline. It never looks at answers: a seed gives one script.
"""
import random
from collections import deque

import tales

LAST_CLOCK = 2 ** 64 - 60_001
LIFETIME = 60_000
NUMBERS = (0, 1, 2, 3, 5, 7, 60_000, 2 ** 32, 2 ** 63, 2 ** 64 - 1)
OTHER_TYPES = (0, 2, 3, 4, 6, 7, 8, 2 ** 30 + 2, 2 ** 32 - 1)


def listed(elements):
    """A list as fields: its length, then its elements."""
    return [len(elements), *elements]


class Script:
    def __init__(self, profile, seed):
        self.profile = profile
        self.random = random.Random(f"{profile.name} {seed}")
        self.now = 0
        self.moments = deque([LIFETIME], 8)     # deadlines and polls to come
        self.announced = deque(maxlen=12)       # key, connection
        self.solicited = deque(maxlen=4)        # connection, hash
        self.claimed = deque(maxlen=4)          # connection, hash, combined hash, wtxids
        self.begun = deque(maxlen=4)            # connection, hash
        self.follow = None                      # the word that goes on with a package
        self.tale = deque()                     # lines that are to come, in turn
        self.words = list(profile.weights)
        self.weights = [profile.weights[w] for w in self.words]

    # ---- values

    def one_in(self, n):
        return self.random.randrange(n) == 0

    def pick(self, values):
        return values[self.random.randrange(len(values))]

    def hash_(self):
        return format(self.pick(self.profile.hashes), "x")

    def combined(self):
        return format(self.pick(self.profile.combined), "x")

    def connection(self):
        return 0 if self.one_in(self.profile.odd) else self.pick(self.profile.connections)

    def key(self):
        return self.pick("tw") + self.hash_()

    def item(self):
        if self.one_in(self.profile.odd):
            return f"o{self.pick(OTHER_TYPES)}:{self.hash_()}"
        return self.pick("ttvww") + self.hash_()

    def priority(self):
        return self.pick(NUMBERS) if self.one_in(8) else self.random.randrange(4)

    def ready(self):
        if self.one_in(12):
            return self.pick(NUMBERS)
        return max(0, self.now + self.pick((-100, -1, 0, 0, 0, 1, 50, 2_000)))

    def clock(self):
        """The clock moves on a little, comes to stand near a moment that matters, or goes back; now and then a call's own is past the end."""
        turn = self.random.randrange(self.profile.pace)
        if self.follow is not None:
            return self.now
        if turn == 0:
            self.now = max(0, self.now - self.pick((1, 100, 30_000, 10 ** 6)))
        elif turn < 3:
            self.now = max(0, self.pick(self.moments) + self.pick((-1, 0, 0, 1)))
        elif turn == 3:
            self.now += self.pick((1_999, 2_000, 59_999, 60_000, 61_000))
        elif turn % 2:
            self.now += self.pick((0, 0, 1, 10, 99, 100))
        if self.profile.late and self.one_in(200):
            self.now = LAST_CLOCK - self.random.randrange(100_000)
        if self.now > LAST_CLOCK:
            self.now = self.random.randrange(1_000)
        if self.one_in(self.profile.odd * 3):
            return self.pick((LAST_CLOCK + 1, 2 ** 64 - 1))
        return self.now

    def passes(self, now, span):
        """Notes a moment that matters later."""
        self.moments.append(min(now + span, LAST_CLOCK))
        return now

    def hashes(self, most=4):
        return [self.hash_() for _ in range(self.random.randrange(most + 1))]

    def parents(self):
        """A few, or close to 100."""
        if self.one_in(25):
            return [format(x, "x") for x in range(self.pick((99, 100, 101, 102)))]
        return self.hashes()

    def near(self, remembered, made):
        """Something remembered, its parts now and then drawn anew."""
        if not remembered or self.one_in(8):
            return made
        return tuple(new if self.one_in(12) else old for old, new in zip(self.pick(remembered), made))

    # ---- lines

    def opening(self):
        for remembered in (self.announced, self.solicited, self.claimed, self.begun):
            remembered.clear()
        self.follow = None
        self.tale.clear()
        return self.call("open")

    def line(self):
        word = self.random.choices(self.words, self.weights)[0]
        self.follow = self.follow if self.one_in(2) else None
        if self.follow is not None:
            return self.call(self.follow)
        if not self.tale and self.one_in(self.profile.tales):
            self.tale.extend(tales.tale(self))
        if self.tale and not self.one_in(4):
            return self.tale.popleft()
        line = self.call(word)
        return self.unreadable(line) if self.one_in(self.profile.noise) else line

    def call(self, word):
        return ",".join(map(str, [word, *getattr(self, word)()]))

    def open(self):
        if self.one_in(self.profile.odd):
            return self.pick(((0, 1), (1, 0), (0, 0), (101, 1), (4, 3), (2 ** 64 - 1, 1)))
        return self.pick(self.profile.sizes)

    def ann(self):
        connection, item = self.connection(), self.item()
        self.announced.append((("w" if item[0] == "w" else "t") + item.rpartition(":")[2].lstrip("tvw"), connection))
        return connection, item, self.ready(), self.random.randrange(2), self.priority()

    par = ann

    def sol(self):
        connection, hash_, now = self.connection(), self.hash_(), self.clock()
        self.solicited.append((connection, hash_))
        self.follow = "clm"
        return connection, hash_, self.passes(now, LIFETIME), *listed(self.parents())

    def clm(self):
        connection, hash_ = self.solicited[-1] if self.follow else self.near(self.solicited, (self.connection(), self.hash_()))
        combined, wtxids = self.combined(), self.hashes(3)
        if self.one_in(16):
            wtxids = [format(x, "x") for x in range(self.pick((100, 101)))]
        now = self.clock()
        self.claimed.append((connection, hash_, combined, wtxids))
        self.follow = self.pick(("beg", None))
        return connection, hash_, combined, now, *listed(wtxids)

    def beg(self):
        connection, hash_, combined, wtxids = made = self.connection(), self.hash_(), self.combined(), self.hashes(3)
        if self.follow or self.one_in(2):
            connection, hash_, combined, wtxids = self.claimed[-1] if self.claimed else made
        elif self.claimed:
            connection, hash_, combined, wtxids = self.near(self.claimed, made)
            if wtxids and self.one_in(3):
                wtxids = self.pick((wtxids[::-1], wtxids[1:], wtxids + [self.hash_()]))
        now = self.clock()
        self.begun.append((connection, hash_))
        self.follow = None
        return connection, hash_, combined, now, *listed(wtxids)

    def owned(self):
        """A connection and a hash whose package or package information it may have."""
        return self.near(self.pick((self.solicited, self.begun)), (self.connection(), self.hash_()))

    def owned_key(self):
        """A key and a connection that may own it."""
        turn = self.random.randrange(3)
        if turn == 0:
            connection, hash_ = self.owned()
            return self.pick("wwwt") + hash_, connection
        return (self.key(), self.connection()) if turn == 1 else self.near(self.announced, (self.key(), self.connection()))

    def rel(self):
        return *self.owned(), self.clock()

    def bad(self):
        return *self.owned_key(), self.clock()

    fail = info = bad

    def off(self):
        return self.owned_key()

    def plan(self):
        return (self.clock(),)

    def want(self):
        return self.clock(), *listed([self.key() for _ in range(self.random.randrange(6))])

    def take(self):
        return (self.passes(self.clock(), LIFETIME),)

    def swp(self):
        return ()

    sum = swp

    def gone(self):
        return self.owned()[0], self.clock()

    def kin(self):
        return self.connection(), self.clock(), *listed(self.parents())

    def lost(self):
        connection, named = self.connection(), [c[2] for c in self.claimed]
        if named and not self.one_in(3):
            connection = self.pick(self.claimed)[0]
        return connection, self.clock(), *listed([self.pick(named + [self.combined()]) for _ in range(self.random.randrange(4))])

    def tear(self):
        return (self.clock(),)

    def drop(self):
        return (self.near(self.announced, (self.key(), 0))[0],)

    def known(self):
        return self.owned_key()[0], self.clock()

    who = known

    def inv(self):
        offers = [x for _ in range(self.random.randrange(5)) for x in (self.item(), self.priority())]
        fields = self.connection(), self.clock(), self.random.randrange(2), self.random.randrange(2), len(offers) // 2
        return *fields, *offers

    def done(self):
        connection, hash_ = self.owned()
        return connection, self.hash_(), hash_, self.clock()

    def nfd(self):
        connection = self.owned()[0]
        items = []
        for _ in range(self.random.randrange(5)):
            turn = self.random.randrange(4)
            items.append(f"o6:{self.combined()}" if turn == 0 else f"o7:{self.owned()[1]}" if turn == 1 else self.item())
        return connection, self.clock(), *listed(items)

    def poll(self):
        return (self.passes(self.clock(), 100),)

    def send(self):
        return listed([self.connection() for _ in range(self.random.randrange(4))])

    def part(self):
        return (self.connection(),)

    def whose(self):
        """Hashes in ascending order as a rule, now and then as many as are taken, or one more."""
        hashes = sorted({int(self.hash_(), 16) for _ in range(self.random.randrange(9))})
        if self.one_in(60):
            hashes = list(range(self.pick((1024, 1025))))
        if len(hashes) > 1 and self.one_in(10):
            self.random.shuffle(hashes) if self.one_in(2) else hashes.append(hashes[-1])
        return listed([format(x, "x") for x in hashes])

    # ---- lines that cannot be read

    def unreadable(self, line):
        """A line changed in one place; now and then it can be read after all."""
        at = self.random.randrange(len(line) + 1)
        fields = line.split(",")
        place = self.random.randrange(len(fields))
        return self.pick((
            lambda: line[:at] + line[at + 1:],
            lambda: line[:at] + self.pick(",0129afgtvwo: -+\rAZ") + line[at:],
            lambda: line + ",",
            lambda: line + ",0",
            lambda: line + "\r",
            lambda: line.upper(),
            lambda: ",".join(fields[:-1]),
            lambda: "",
            lambda: ",".join(fields[:place] + [self.pick(("", "00", "01", "18446744073709551616", "-1", "tA", "t00", "o5:1", "o1:1", "o1073741825:1",
                                                          "o4294967296:1", "o6", "o6:", "t" + "f" * 65, "x1", "2", "é"))] + fields[place + 1:]),
        ))()
