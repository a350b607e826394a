"""anttrun: runs the executable part of antt specifications.

    import anttrun
    m = anttrun.load("crates/machine/specs")
    m["specs.Limits.need"](100, 2)

README.md says what is understood.
"""
from .values import RunError, Some, plain
from .program import Program
from .tokens import Unread

__all__ = ["load", "Program", "RunError", "Some", "Unread", "plain"]


def load(specs, coverage=False, memo=()):
    """The definitions of a crate's specs directory (and of the crates beside it that it uses).

    coverage: count entries of clauses and branches (`m.labels`, `m.hits`, `m.unreached()`).
    memo: names of definitions whose answers are kept, by the identity of their arguments."""
    return Program(specs, coverage, memo)
