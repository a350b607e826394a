"""The recorded scripts and their answers."""
import os
import subprocess
import sys

HERE = os.path.dirname(os.path.abspath(__file__))
TESTS = os.path.dirname(HERE)
sys.path[:0] = [os.path.join(TESTS, "definitions"), os.path.join(TESTS, "generator"), os.path.join(TESTS, "support")]
import oracle
import profiles

# profile: lines, each with seed "vectors"
GENERATED = {"mixed": 1_200, "crowd": 900, "full": 1_000, "packages": 1_200, "cursors": 500, "owners": 600, "clocks": 800, "wide": 600, "noise": 1_000}


def path(name):
    return os.path.join(HERE, name)


def names():
    """All scripts, in order."""
    return sorted(name.removesuffix(".in") for name in os.listdir(HERE) if name.endswith(".in"))


def read(name):
    with open(path(name), "rb") as f:
        return f.read()


def generated(name):
    return b"".join(line.encode() + b"\n" for line in profiles.script(name, "vectors", GENERATED[name]))


def answered(name):
    """The oracle's answers to a script, as the event program gives them."""
    return subprocess.run([oracle.PROGRAM], input=read(name + ".in"), stdout=subprocess.PIPE, check=True).stdout


def split(script):
    """The lines of a script; the last one may lack its line feed."""
    lines = script.split(b"\n")
    return lines[:-1] if lines[-1] == b"" else lines


def first_difference(script, recorded, got):
    """What is said of the first line whose answer is not the recorded one; None if there is none."""
    for at, (line, one, other) in enumerate(zip(script, recorded, got), 1):
        if one != other:
            line, one, other = (text[:300].decode("latin-1") for text in (line, one, other))
            return f"line {at}: {line}\n  recorded: {one}\n  now:      {other}"
    return f"{len(recorded)} lines of answers recorded, {len(got)} now" if len(recorded) != len(got) else None
