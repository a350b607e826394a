"""Named profiles: what a script draws from, and how often each word stands."""
from dataclasses import dataclass, field
from itertools import islice

from script import Script
from states import Large, Loaded

LARGE = 58      # lines of the profile `large` that go twice through its states
EVENT_WORDS = ("open ann par sol bad off clm beg rel plan want take swp gone sum kin lost tear drop known fail info who inv done nfd poll "
               "send part whose").split()
EVEN = dict.fromkeys((word for word in EVENT_WORDS if word != "whose"), 4) | {"open": 1, "ann": 30, "par": 8, "plan": 8, "take": 8, "sol": 8, "clm": 6, "beg": 6}


@dataclass
class Profile:
    name: str
    about: str
    hashes: tuple = (1, 2, 10)
    combined: tuple = (12, 13)
    connections: tuple = (1, 2, 7)
    sizes: tuple = ((4, 1),)
    weights: dict = field(default_factory=lambda: EVEN)
    odd: int = 40           # one value in so many is connection 0, an odd item, an odd opening
    noise: int = 60         # one line in so many is changed
    tales: int = 150        # one line in so many begins a run of lines about a package
    pace: int = 40          # the clock jumps on one call in so many
    late: bool = False      # clocks near the end
    events: bool = True     # event lines alone: no word of the oracle's own, L and Q of event lines
    maker: type = Script
    opening: int = 150      # lines between openings

    def lines(self, seed):
        script = self.maker(self, seed)
        if self.events:
            yield from (script.line() for _ in range(script.random.randrange(8)))
        while True:
            yield script.opening()
            for _ in range(script.random.randrange(1, 2 * self.opening)):
                yield script.line()


def more(**changes):
    return EVEN | changes


WIDE = tuple(x % 2 ** 256 for x in (0, 1, 255, 256, 2 ** 64 - 1, 2 ** 64, 2 ** 192, 2 ** 255, -1, 0x1234 << 200))

PROFILES = {p.name: p for p in (
    Profile("mixed", "everything, few of each", hashes=(1, 2, 10, 0xff), sizes=((4, 1), (6, 2), (9, 1), (20, 2))),
    Profile("crowd", "more than eight connections at two hashes", hashes=(1, 2), connections=tuple(range(1, 14)), sizes=((100, 2), (40, 1), (9, 1)),
            weights=more(ann=90, par=20, gone=2, tear=2, drop=1, known=2, bad=16, take=16, plan=12), opening=400),
    Profile("full", "L is reached", hashes=tuple(range(1, 12)), connections=(1, 2, 3, 4, 5), sizes=((1, 1), (2, 1), (3, 2), (5, 1), (8, 2)),
            weights=more(ann=60, plan=14, take=14, drop=10, swp=8)),
    Profile("packages", "solicitations, packages, parents, their end", hashes=(1, 2, 3), connections=(1, 2), sizes=((6, 1), (8, 2), (12, 2)),
            weights=more(ann=6, sol=30, clm=16, beg=8, rel=5, lost=12, gone=6, known=8, nfd=12, plan=8, tear=2, who=6, fail=6), pace=80, tales=12),
    Profile("cursors", "many keys, sweeps and plans", hashes=tuple(range(1, 40)), connections=tuple(range(1, 8)), sizes=((100, 2), (60, 1)),
            weights=more(ann=60, swp=20, plan=20, take=14, drop=14), opening=300),
    Profile("owners", "owners of many hashes", hashes=tuple(range(1, 30)), connections=tuple(range(1, 8)), sizes=((100, 2), (60, 1), (12, 2)),
            weights=more(ann=60, plan=16, take=20, want=8, sol=12, whose=60, bad=6, drop=6), opening=200),
    Profile("clocks", "clocks near the end of their range", sizes=((6, 2), (10, 1)), late=True, odd=25),
    Profile("wide", "hashes, connections and priorities of all sizes", hashes=WIDE, combined=WIDE[-2:], connections=(1, 2, 2 ** 32, 2 ** 64 - 1),
            sizes=((6, 1), (30, 2), (100, 2)), odd=20),
    Profile("noise", "lines that cannot be read, and refusals", odd=8, noise=3, sizes=((4, 1), (100, 2)), opening=20),
    Profile("loaded", "sound states that are set, checked lists that are altered", hashes=tuple(range(1, 8)), connections=tuple(range(1, 12)),
            events=False, maker=Loaded, opening=12),
    Profile("large", "limits that event lines do not reach", hashes=tuple(range(0x20000, 0x20008)), events=False,
            maker=Large, odd=10 ** 9, noise=10 ** 9, tales=10 ** 9, opening=10 ** 6),
)}


def script(name, seed, count):
    """The first lines of a profile's script."""
    return list(islice(PROFILES[name].lines(seed), count))
