"""Runs of lines that lead where single lines seldom do: to a package and one of its ends, or to an empty tracker."""


def tale(script):
    return emptied(script) if script.one_in(6) else package(script)


def emptied(script):
    """Both cursors are set and everything is forgotten."""
    again = ["swp", f"plan,{script.now}"]
    return again + [f"drop,{kind}{hash_:x}" for hash_ in script.profile.hashes[:12] for kind in "tw"] + again


def package(script):
    """Lines for one connection: room is made, package information is solicited, a package may be claimed and enqueued, and something ends it."""
    connection, now = script.pick(script.profile.connections), script.now
    first, second = script.hash_(), script.hash_()
    combined, wtxids = script.combined(), [script.hash_() for _ in range(script.random.randrange(1, 3))]
    parents = [script.hash_() for _ in range(script.random.randrange(4))]
    lines = [f"drop,{kind}{hash_:x}" for hash_ in script.profile.hashes[:4] for kind in "tw"] if script.one_in(2) else []
    lines += [f"ann,{c},{script.pick('tw')}{first},{now},0,3" for c in script.profile.connections if c != connection and script.one_in(3)]
    lines.append(fields("sol", connection, first, now, len(parents), *parents))
    stage = script.random.randrange(4)
    if stage == 3:
        lines.append(fields("sol", connection, second, now, 0))
    claims = [first] if stage else []
    claims += [second] if stage == 3 else []
    lines += [fields("clm", connection, hash_, combined, now, len(wtxids), *wtxids) for hash_ in claims]
    if stage == 2:
        lines.append(fields("beg", connection, first, combined, now, len(wtxids), *wtxids))
    if stage == 3 and script.one_in(2):
        lines.append(fields("lost", connection, now, 2, combined, combined))
    lines.append(script.pick(ends(connection, first, combined, now)))
    return lines


def fields(*values):
    return ",".join(map(str, values))


def ends(connection, hash_, combined, now):
    late = now + 60_000
    return [
        f"bad,w{hash_},{connection},{now}", f"fail,w{hash_},{connection},{now}", f"info,w{hash_},{connection},{now}", f"off,w{hash_},{connection}",
        f"rel,{connection},{hash_},{now}", f"lost,{connection},{now},2,{combined},{combined}", f"tear,{now}", f"gone,{connection},{now}",
        f"known,w{hash_},{now}", f"known,w{hash_},{late - 1}", f"known,w{hash_},{late}", f"who,w{hash_},{late - 1}", f"who,w{hash_},{late}",
        f"plan,{late - 1}", f"plan,{late}", f"want,{late},1,w{hash_}", f"nfd,{connection},{now},1,o7:{hash_}", f"nfd,{connection},{now},1,o6:{combined}",
        f"nfd,{connection},{now},1,w{hash_}", f"done,{connection},0,{hash_},{now}", f"sol,{connection},{hash_},{late},0",
    ]
