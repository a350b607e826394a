"""The machine's definitions as an event program.

A line is read into a call, `Step.step` answers it, its reply is written. `lines.WORDS` says how a word's fields become the call's
arguments and `Driver.reply` how a reply becomes text; nothing else here knows the definitions.

  driver.py [--specs DIR] [--big] [--extra] [--states] [--coverage]  < events > answers

The options --big, --extra and --states are the oracle's. --coverage prints the clauses and branches that were not entered to standard error.
"""
import argparse
import os
import sys

ROOT = os.path.dirname(os.path.dirname(os.path.dirname(os.path.abspath(__file__))))
sys.dont_write_bytecode = True
sys.path.insert(0, os.path.join(ROOT, "tools"))
import anttrun
from anttrun.values import NIL, Some, inward

import lines
from lines import Unreadable

SPECS = os.path.join(ROOT, "crates", "machine", "specs")
EVENT_L, EVENT_Q = 100, 2
LINE_BUFFER = 65_536
SPARE = 3               # bytes of a buffer past its need, which must stay
KEY, ENTRY, OWNER = 40, 112, 24     # bytes in a buffer
# word: constructor of Ask, and its arguments (lines.WORDS)
CALLS = {word: (name, places) for word, (_, name, places) in {**lines.WORDS, **lines.EXTRA}.items() if name}


def needs(word, fields, state):
    """The bytes of a call's answer buffer (document 01, "Buffer needs in entries")."""
    limit, places = state.limit, state.places
    if word in ("plan", "want"):
        return ENTRY * min(1025, limit)
    if word in ("take", "grab", "send", "ship"):
        return ENTRY * len(fields[1])
    if word == "whose":
        return OWNER * len(fields[0])
    if word == "swp":
        return KEY * min(1024, limit)
    if word == "gone":
        return KEY * (min(5000, limit) + 100 * places)
    if word == "lost":
        return KEY * 101 * places
    if word == "nfd":
        return KEY * (len(fields[2]) + 100 * places)
    return KEY * 101


class Driver:
    def __init__(self, specs=SPECS, big=False, extra=False, coverage=False):
        self.program = m = anttrun.load(specs, coverage, ("specs.Table.owned_by", "specs.Table.owned_at"))
        self.big, self.extra = big, extra
        self.state, self.planned, self.taken, self.arranged = None, NIL, NIL, NIL
        self.step, self.part_of = m["specs.Step.step"].raw, m["specs.Claim.part_of"].raw
        self.need = m["specs.Limits.need"].raw
        self.asks = {name: m["specs.Call." + name] for name, _ in CALLS.values()}
        self.open, self.on = m["specs.Call.Open"], m["specs.Call.On"]
        self.text = lines.Text(m)
        self.buffer = NIL, 0

    # ---- a line

    def answer(self, line):
        try:
            word, fields = self.read(line)
        except Unreadable:
            return "no,9"
        if word == "open":
            return self.opened(*fields)
        if word == "load":
            self.begin(fields[0])
            return "ok"
        if self.state is None:
            return "no,3"
        if word == "dump":
            return self.text.state(self.state)
        if word == "part":
            return self.part(fields[0])
        if word in ("take", "send"):
            fields.append(self.planned if word == "take" else self.taken)
        return self.call(word, fields)

    def read(self, line):
        if len(line) > LINE_BUFFER and not self.big:
            raise Unreadable
        word, fields = self.text.read(line, self.extra)
        sizes = fields if word == "open" else (fields[0].limit, fields[0].places) if word == "load" else (0, 0)
        if not self.big and (sizes[0] > EVENT_L or sizes[1] > EVENT_Q):
            raise Unreadable
        return word, fields

    def begin(self, state):
        self.state, self.planned, self.taken, self.arranged = state, NIL, NIL, NIL

    # ---- calls

    def opened(self, limit, places):
        """Opening, on a store that is as long as need be."""
        out = self.step(self.need(limit, places), self.open(limit, places), self.state)
        if out.reply.NAME == "Refused":
            return self.reply(out.reply)
        self.begin(out.state)
        return "ok"

    def part(self, connection):
        """The part of an arranged list takes no store: refusal 4 is the event program's own."""
        return "no,4" if connection == 0 else self.text.entries(self.part_of(connection, self.arranged)) or "-"

    def call(self, word, fields):
        name, places = CALLS[word]
        buffer = None
        if "b" in places:
            buffer = self.room(needs(word, fields, self.state))
        args = [self.argument(place, fields, buffer) for place in places]
        ask = self.asks[name]
        out = self.step(0, self.on(ask(*args) if args else ask), self.state)
        refused = out.reply.NAME == "Refused"
        if refused and out.state is not self.state:
            raise AssertionError(f"{word} is refused and changes the state")
        self.check_buffer(word, buffer, out)
        self.state = out.state
        if not refused:
            self.keep(word, out.reply)
        return self.reply(out.reply)

    def argument(self, place, fields, buffer):
        """An argument by its letter (lines.WORDS)."""
        if place == "c":
            return self.text.Candidate(*fields)
        if place == "s":
            return Some(fields[1])
        return buffer if place == "b" else None if place == "-" else fields[int(place)]

    def keep(self, word, reply):
        if word in ("plan", "want"):
            self.planned = reply.args[1]
        elif word in ("take", "grab"):
            self.taken = reply.args[0]
        elif word in ("send", "ship"):
            self.arranged = reply.args[0]

    # ---- buffers

    def room(self, need):
        """A buffer of the need and some bytes more, kept from call to call."""
        if self.buffer[1] < need:
            self.buffer = inward([7] * need + [9] * SPARE), need
        buffer, length = self.buffer
        while length > need:
            buffer, length = buffer.t, length - 1
        return buffer

    def check_buffer(self, word, before, out):
        """The reply's bytes stand at the buffer's head, and the rest of it stays."""
        after = out.buffer
        if before is None:
            written, before = b"", NIL
        else:
            written = self.text.answer_bytes(out.reply)
        for byte in written:
            if after.h != byte:
                raise AssertionError(f"{word}: another byte in the buffer")
            after, before = after.t, before.t
        if after is not before:
            raise AssertionError(f"{word}: the buffer past the reply changes")

    # ---- replies

    def reply(self, reply):
        name, args, text = reply.NAME, reply.args, self.text
        if name == "Refused":
            return f"no,{args[0]}"
        if name == "Number":
            return str(args[0])
        if name == "Keys":
            return text.keys(args[0]) or "-"
        if name == "Left":
            return ",".join(filter(None, [str(len(args[0])), text.keys(args[0]), text.keys(args[1])]))
        if name == "Entries":
            return text.entries(args[0]) or "-"
        if name == "Chosen":
            return ",".join(filter(None, [str(args[0]), text.entries(args[1]), str(args[2].value) if args[2] else "none"]))
        if name == "Summed":
            return f"{args[0].held},{args[0].free},{args[0].preferred},{args[0].permille}"
        if name == "Owned":
            return ",".join([str(args[0]), *map(text.holding, args[1])])
        raise AssertionError(f"a reply {name}")


def main():
    parser = argparse.ArgumentParser(description=__doc__, formatter_class=argparse.RawDescriptionHelpFormatter)
    parser.add_argument("--specs", default=SPECS)
    for option in ("big", "extra", "states", "coverage"):
        parser.add_argument("--" + option, action="store_true")
    options = parser.parse_args()
    driver = Driver(options.specs, options.big, options.extra, options.coverage)
    for line in sys.stdin.buffer:
        print(driver.answer(line.removesuffix(b"\n")))
        if options.states:
            print("-" if driver.state is None else driver.text.state(driver.state))
    if options.coverage:
        print(*driver.program.unreached(), sep="\n", file=sys.stderr)


if __name__ == "__main__":
    main()
