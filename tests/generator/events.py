"""Named events: what a comparison must have met, each as a test of a step."""


def due(s):
    """The requests whose deadline a plan finds over."""
    return [r for r in s.before.requests.values() if r.owner is not None and r.deadline <= s.now]


def evicted(s):
    """Announced, and something else went."""
    return s.answer == "1" and s.after.held == s.before.held


def victim(s):
    """The key and the candidate that went."""
    for r in s.before.requests.values():
        left = s.after.at(r.key)
        for c in r.candidates:
            if left is None or not left.has(c[0]) or (r.key == s.key and c not in left.candidates):
                return r, c
    return None


def twin(key):
    return ("w" if key[0] == "t" else "t") + key[1:]


def cursor_between(keys, cursor):
    """A cursor that does not stand at the end: some keys come after it, some not."""
    order = [(k[0], int(k[1:], 16)) for k in keys]
    at = (cursor[0], int(cursor[1:], 16))
    return any(k > at for k in order) and any(k <= at for k in order)


def ann(test):
    return lambda s: s.word in ("ann", "par") and not s.refused and s.key[0] != "o" and test(s)


def on(word, test):
    return lambda s: s.word == word and not s.refused and bool(test(s))


def candidates(state):
    return {c for r in state.requests.values() for c in r.candidates}


def delay(times):
    """A batch that brings a candidate of such a delay."""
    return on("inv", lambda s: any(c[0] == s.conn and c[2] == s.now + 2_000 * times for c in candidates(s.after) - candidates(s.before)))


def refusal(number):
    return lambda s: s.answer == f"no,{number}"


def same_combined(s):
    claims = [r.combined for r in s.before.requests.values() if r.phase == "awaiting" and r.owner == s.conn]
    return any(claims.count(c) > 1 for c in s.f[3:])


def at_eight(s):
    return s.before.at_hash(s.hash) >= 8


def full(s):
    return s.before.held >= s.before.limit


def is_candidate(s):
    return any(r.has(s.conn) for r in s.before.both(s.hash))


EVENTS = {
    **{f"refusal {n}": refusal(n) for n in (2, 3, 4, 5, 6, 8, 9)},
    "clock back": lambda s: s.now is not None and s.last_now is not None and s.now < s.last_now,
    "ann: 1": ann(lambda s: s.answer == "1"),
    "ann: other item, 0": lambda s: s.word == "ann" and not s.refused and s.key[0] == "o" and s.answer == "0",
    "ann: candidate under the same kind": on("ann", lambda s: s.was() and s.was().has(s.conn)),
    "ann: candidate under the other kind": on("ann", lambda s: s.before.at(twin(s.key)) and s.before.at(twin(s.key)).has(s.conn)),
    "ann: evicts at eight": ann(lambda s: evicted(s) and at_eight(s) and not is_candidate(s)),
    "ann: evicts at eight under the other kind": ann(lambda s: evicted(s) and at_eight(s) and not is_candidate(s) and victim(s)[0].key == twin(s.key)),
    "ann: evicts at full L": ann(lambda s: evicted(s) and full(s) and not at_eight(s) and not is_candidate(s)),
    "ann: an evicted candidate was its request's last": ann(lambda s: evicted(s) and not is_candidate(s) and len(victim(s)[0].candidates) == 1),
    "ann: the evicted request is made anew": ann(
        lambda s: evicted(s) and not is_candidate(s) and len(victim(s)[0].candidates) == 1 and victim(s)[0].key == s.key),
    "ann: unpreferred at eight": on("ann", lambda s: s.answer == "0" and s.f[3] == "0" and at_eight(s) and not is_candidate(s)),
    "ann: unpreferred at full L": on("ann", lambda s: s.answer == "0" and s.f[3] == "0" and full(s) and not at_eight(s) and not is_candidate(s)),
    "ann: ninth preferred gets 0": on("ann", lambda s: s.answer == "0" and s.f[3] == "1" and at_eight(s) and not is_candidate(s)),
    "ann: preferred at full L gets 0": on("ann", lambda s: s.answer == "0" and s.f[3] == "1" and full(s) and not at_eight(s) and not is_candidate(s)),
    "ann: 5,000 of a connection": on("ann", lambda s: s.answer == "0" and s.before.announced_by(s.conn) >= 5_000),
    "par: adopts under the same kind": on("par", lambda s: s.answer == "1" and s.was() and s.was().has(s.conn)),
    "par: adopts under the other kind": on("par", lambda s: s.answer == "1" and s.before.at(twin(s.key)) and s.before.at(twin(s.key)).has(s.conn)),
    "par: announces": on("par", lambda s: s.answer == "1" and s.after.held > s.before.held),
    "par: 0": on("par", lambda s: s.answer == "0"),
    "sol: 1": on("sol", lambda s: s.answer == "1"),
    "sol: an older candidate stays": on("sol", lambda s: s.answer == "1" and is_candidate(s)),
    "sol: evicts": on("sol", lambda s: evicted(s) and not is_candidate(s)),
    "sol: repeated parents": on("sol", lambda s: s.answer == "1" and len(set(s.f[4:])) < len(s.f[4:])),
    "sol: 100 parents": on("sol", lambda s: s.answer == "1" and s.f[3] == "100"),
    "sol: hash owned": on("sol", lambda s: s.answer == "0" and any(r.owner is not None for r in s.before.both(s.hash))),
    "sol: candidate under the Txid key": on("sol", lambda s: s.answer == "0" and s.before.at("t" + s.hash) and s.before.at("t" + s.hash).has(s.conn)),
    "sol: no room": on("sol", lambda s: s.answer == "0" and not is_candidate(s) and (at_eight(s) or full(s))),
    "sol: the connection owns 100": on("sol", lambda s: s.answer == "0" and s.before.owned_by(s.conn) >= 100),
    "bad: 1": on("bad", lambda s: s.answer == "1"),
    "bad: the request goes": on("bad", lambda s: s.answer == "1" and s.now_is() is None),
    "bad: candidates of both kinds get ready": on("bad", lambda s: s.answer == "1" and s.now_is() and s.after.at(twin(s.key))),
    "bad: Enqueued": on("bad", lambda s: s.was() and s.was().phase == "enqueued" and s.was().owner == s.conn),
    "bad: another owner": on("bad", lambda s: s.was() and s.was().owner not in (None, s.conn)),
    "off: clears": on("off", lambda s: s.was() and s.was().owner == s.conn and s.now_is().owner is None),
    "off: Enqueued": on("off", lambda s: s.was() and s.was().owner == s.conn and s.now_is().phase == "enqueued"),
    "clm: 1": on("clm", lambda s: s.answer == "1"),
    "clm: no wtxid": on("clm", lambda s: s.answer == "0" and s.f[4] == "0" and s.was() and s.was().flag and s.was().owner == s.conn),
    "clm: 100 wtxids": on("clm", lambda s: s.answer == "1" and s.f[4] == "100"),
    "clm: 101 wtxids": on("clm", lambda s: s.answer == "0" and s.f[4] == "101" and s.was() and s.was().flag and s.was().owner == s.conn),
    "clm: too late": on("clm", lambda s: s.was() and s.was().flag and s.was().owner == s.conn and s.was().deadline <= s.now),
    "clm: no flag": on("clm", lambda s: s.was() and s.was().owner == s.conn and not s.was().flag),
    "clm: another owner": on("clm", lambda s: s.was() and s.was().flag and s.was().owner != s.conn),
    "beg: 1": on("beg", lambda s: s.answer == "1"),
    "beg: another combined hash": on("beg", lambda s: s.was() and s.was().phase == "awaiting" and s.was().owner == s.conn and s.was().combined != s.f[2]),
    "beg: other wtxids": on("beg", lambda s: s.was() and s.was().phase == "awaiting" and s.was().owner == s.conn and s.was().wtxids != s.f[5:]),
    "beg: too late": on("beg", lambda s: s.was() and s.was().phase == "awaiting" and s.was().owner == s.conn and s.was().deadline <= s.now),
    "beg: Enqueued already": on("beg", lambda s: s.was() and s.was().phase == "enqueued" and s.was().owner == s.conn),
    "rel: with parents": on("rel", lambda s: "," in s.answer),
    "rel: without parents": on("rel", lambda s: s.answer[0] == "w" and "," not in s.answer),
    "rel: Awaiting": on("rel", lambda s: s.answer == "-" and s.was() and s.was().phase == "awaiting" and s.was().owner == s.conn),
    "plan: expires": on("plan", lambda s: any(r.phase != "enqueued" for r in due(s))),
    "plan: expires with parents": on("plan", lambda s: any(r.parents and r.phase != "enqueued" for r in due(s))),
    "plan: Enqueued at its deadline stays": on("plan", lambda s: any(r.phase == "enqueued" for r in due(s))),
    "plan: Enqueued, its parents announced": on("plan", lambda s: any(r.phase == "enqueued" and r.parents for r in due(s))),
    "plan: exactly at a deadline": on("plan", lambda s: any(r.deadline == s.now for r in due(s))),
    "plan: one before a deadline": on("plan", lambda s: any(r.deadline == s.now + 1 for r in s.before.requests.values() if r.deadline)),
    "plan: wraps": on("plan", lambda s: s.before.ready != "none" and len(s.after.requests) > 1 and cursor_between(s.after.requests, s.before.ready)),
    "plan: cursor at a key that is gone": on("plan", lambda s: s.before.ready != "none" and s.before.at(s.before.ready) is None),
    "plan: of nothing": on("plan", lambda s: s.answer == "0,none" and s.before.ready != "none"),
    "plan: no time to look again": on("plan", lambda s: s.next() is None and s.after.requests),
    "plan: looks again at a ready time": on("plan", lambda s: any(c[2] == s.next() for r in s.after.requests.values() if r.owner is None for c in r.candidates)),
    "plan: looks again at a deadline": on("plan", lambda s: any(r.deadline == s.next() for r in s.after.requests.values() if r.owner is not None)),
    "plan: looks again at a key whose hash is owned": on("plan", lambda s: any(
        c[2] == s.next() for r in s.after.requests.values() if r.owner is None and (other := s.after.at(twin(r.key))) and other.owner is not None for c in r.candidates)),
    "plan: an owned hash is passed": on("plan", lambda s: any(r.owner is not None for r in s.after.requests.values())),
    "plan: chooses across kinds": on("plan", lambda s: any(s.after.at(twin(e[0])) for e in s.entries())),
    "plan: not ready yet": on("plan", lambda s: s.considered() > len(s.entries()) and any(c[2] > s.now for c in candidates(s.after))),
    "plan: a connection at 100": on("plan", lambda s: any(s.after.owned_by(c) >= 100 for c in (7,)) and s.considered() > 100),
    "plan: 1,024 selected": on("plan", lambda s: len(s.entries()) == 1_024),
    "plan: 1,024 considered of more": on("plan", lambda s: len(s.entries()) == 1_024 < len(s.after.requests)),
    "want: 1,025 selected": on("want", lambda s: len(s.entries()) == 1_025),
    "want: repeats counted": on("want", lambda s: len(set(s.f[2:])) < len(s.f[2:]) and s.considered() >= len(s.f[2:])),
    "want: a key without a request": on("want", lambda s: any(s.after.at(k) is None for k in s.f[2:])),
    "want: expires with parents": on("want", lambda s: any(r.parents for r in due(s))),
    "take: takes": on("take", lambda s: s.answer != "-"),
    "take: nothing": on("take", lambda s: s.answer == "-"),
    "grab: takes some of a list": on("grab", lambda s: 0 < len(s.entries()) < int(s.f[1])),
    "grab: an entry with connection 0": on("grab", lambda s: "0" in s.f[3::6]),
    "swp: wraps": on("swp", lambda s: s.before.known != "none" and len(s.before.requests) > 1 and cursor_between(s.before.requests, s.before.known)),
    "swp: 1,024 of more": on("swp", lambda s: len(s.answer.split(",")) == 1_024 < len(s.before.requests)),
    "swp: of nothing": on("swp", lambda s: s.answer == "-" and s.before.known != "none"),
    "gone: nothing": on("gone", lambda s: s.answer == "0"),
    "gone: candidate only": on("gone", lambda s: s.answer != "0" and not s.before.owned_by(s.conn)),
    "gone: owner": on("gone", lambda s: s.before.owned_by(s.conn)),
    "gone: owner with parents, others remain": on(
        "gone", lambda s: any(r.owner == s.conn and r.parents and len(r.candidates) > 1 for r in s.before.requests.values())),
    "gone: owner with parents, none remains": on(
        "gone", lambda s: any(r.owner == s.conn and r.parents and len(r.candidates) == 1 for r in s.before.requests.values())),
    "gone: Enqueued owner": on("gone", lambda s: any(r.owner == s.conn and r.phase == "enqueued" for r in s.before.requests.values())),
    "kin: keys": on("kin", lambda s: s.answer != "-"),
    "kin: under the Wtxid key": on("kin", lambda s: any(s.before.at("w" + h) and s.before.at("w" + h).has(s.conn) for h in s.f[3:])),
    "kin: some turned down": on("kin", lambda s: s.answer != "-" and len(s.answer.split(",")) < len(set(s.f[3:]))),
    "kin: repeats": on("kin", lambda s: len(set(s.f[3:])) < len(s.f[3:])),
    "kin: marks a request that stood": on("kin", lambda s: any(s.before.at(k) and not s.before.at(k).mark and s.after.at(k) and s.after.at(k).mark
                                                               for k in s.answer.split(","))),
    "lost: keys": on("lost", lambda s: s.answer != "-"),
    "lost: with parents": on("lost", lambda s: ",t" in s.answer),
    "lost: two Awaiting claims of one combined hash": on("lost", same_combined),
    "tear: none": on("tear", lambda s: s.answer == "0"),
    "tear: two": on("tear", lambda s: s.answer == "2"),
    "tear: Enqueued": on("tear", lambda s: any(r.phase == "enqueued" for r in s.before.requests.values())),
    "drop: a request": on("drop", lambda s: s.was()),
    "drop: none": on("drop", lambda s: not s.was()),
    "drop: an owned one": on("drop", lambda s: s.was() and s.was().owner is not None),
    "known: guarded by a flag": on("known", lambda s: s.was() and s.was().flag and s.now_is()),
    "known: guarded by a claim": on("known", lambda s: s.was() and s.was().phase == "awaiting" and s.now_is()),
    "known: guarded by Enqueued": on("known", lambda s: s.was() and s.was().phase == "enqueued" and s.was().deadline <= s.now),
    "known: too late, with parents": on("known", lambda s: s.was() and s.was().parents and not s.now_is()),
    "known: plain": on("known", lambda s: s.was() and not s.was().place() and not s.now_is()),
    "fail: with parents": on("fail", lambda s: "," in s.answer),
    "fail: without parents": on("fail", lambda s: s.answer not in "-" and "," not in s.answer),
    "fail: nothing": on("fail", lambda s: s.answer == "-"),
    "info: 1": on("info", lambda s: s.answer == "1"),
    "info: owner without flag": on("info", lambda s: s.was() and s.was().owner == s.conn and not s.was().flag),
    "who: a connection": on("who", lambda s: s.answer != "0"),
    "who: too late": on("who", lambda s: s.answer == "0" and s.was() and s.was().flag),
    **{f"inv: delay {2_000 * n}": delay(n) for n in range(4)},
    "inv: item under 100 owned": on("inv", lambda s: s.before.owned_by(s.conn) >= 100 and s.after.held > s.before.held),
    "done: fails a Txid key": on("done", lambda s: s.before.at("t" + s.f[1]) and s.before.at("t" + s.f[1]).owner == s.conn),
    "done: fails a Wtxid key": on("done", lambda s: s.before.at("w" + s.f[2]) and s.before.at("w" + s.f[2]).owner == s.conn),
    "nfd: type 6": on("nfd", lambda s: s.answer != "-" and any(i.startswith("o6:") for i in s.f[3:])),
    "nfd: type 7": on("nfd", lambda s: any(i.startswith("o7:") and f"w{i[3:]}" in s.answer.split(",") for i in s.f[3:])),
    "nfd: type 7 with parents": on("nfd", lambda s: ",t" in s.answer and any(i.startswith("o7:") for i in s.f[3:])),
    "nfd: a w item with a flag": on(
        "nfd", lambda s: any(i[0] == "w" and s.before.at(i) and s.before.at(i).flag and s.before.at(i).owner == s.conn for i in s.f[3:])),
    "nfd: nothing": on("nfd", lambda s: s.answer == "-"),
    "poll: due": on("poll", lambda s: s.answer == "1"),
    "poll: not due": on("poll", lambda s: s.answer == "0"),
    "poll: exactly due": on("poll", lambda s: s.before.poll == s.now),
    "send: t turns v": on("send", lambda s: any(e[2][0] == "v" and s.after.at(e[0]) and s.after.at(e[0]).mark for e in s.entries())),
    "send: several connections": on("send", lambda s: len({e[1] for e in s.entries()}) > 1),
    "part: some": on("part", lambda s: s.answer != "-"),
    "part: none": on("part", lambda s: s.answer == "-"),
}


def count(steps, tally):
    """Adds how often each event occurs."""
    for step in steps:
        for name, test in EVENTS.items():
            if (step.before is not None or name.startswith("refusal")) and test(step):
                tally[name] = tally.get(name, 0) + 1
    return tally
