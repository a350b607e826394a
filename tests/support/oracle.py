"""The oracle: built if the Rust is at hand, and run on lines. As a program it fails if the Rust is not at hand."""
import os
import shutil
import subprocess
import sys

ROOT = os.path.dirname(os.path.dirname(os.path.dirname(os.path.abspath(__file__))))
SOURCE = "../shared/docs/src/crates/node/src/p2p/tx_policy.rs"
PROGRAM = os.path.join(ROOT, "oracle", "target", "release", "oracle")
ABSENT = "The Rust is not at hand (no tx_policy.rs at its default place, TX_POLICY_RS unset): the recorded answers of tests/vectors are taken instead."


def at_hand():
    """A source that TX_POLICY_RS names must be there; the default one may be missing."""
    return "TX_POLICY_RS" in os.environ or os.path.exists(os.path.join(ROOT, SOURCE))


def build():
    """Builds the oracle; its path, or None if the Rust is not at hand."""
    if not at_hand():
        return None
    if shutil.which("cargo") is None:
        raise SystemExit("cargo is wanted for the oracle and not found")
    command = ["cargo", "build", "--release", "--offline", "--quiet"]
    if subprocess.run(command, cwd=os.path.join(ROOT, "oracle"), check=False).returncode:
        raise SystemExit("the oracle does not build")
    return PROGRAM


def run(lines, *options):
    """The oracle's answers to lines of bytes."""
    done = subprocess.run([PROGRAM, *options], input=b"".join(line + b"\n" for line in lines), stdout=subprocess.PIPE, check=False)
    if done.returncode:
        raise SystemExit("the oracle stops: its own test of the state failed, or it panicked")
    return done.stdout.decode().splitlines()


def run_with_states(lines):
    """Pairs of answer and whole state, with the oracle's own words and large sizes allowed."""
    out = run(lines, "--big", "--extra", "--states")
    return list(zip(out[::2], out[1::2]))


if __name__ == "__main__":
    sys.exit(not at_hand())
