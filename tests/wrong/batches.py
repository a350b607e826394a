"""batches.py EDIT..: edits of one crate, a line for each batch that may be checked at once; the refusal of each edit of a batch is its own. A line begins with
the batch's kind:
`bodies`: each edit changes the body of one function and names a fact of that function's own proof, and the functions differ. A proof rests on its function's body
and on contracts, and on no other body.
`laws`: each edit changes specs and proofs and names a law, and nothing that another edit of the batch changes is reached from that law (reach.py).
`alone`: one edit of something else, as of a contract or a constant. `whole`: one that names no fact, which may be refused anywhere.
batches.py --others LOG EDIT..: the facts that were refused in the check of a batch and are none of its edits' doing; there must be none. Those of bodies are
facts of other functions, those of laws reach nothing that is changed."""
import functools
import os
import re
import sys

import facts
import reach

FUNCTION = re.compile(r"(\s*)(?:pub )?(?:extern \"C\" )?fn (\w+)")


def parts(edit):
    """The replacements of an edit, each a file, the old text and the new one, and its fact."""
    places, path, old, fact = [], None, None, ""
    with open(edit, encoding="utf-8") as file:
        for line in file.read().split("\n"):
            if line.startswith("file: "):
                path = line[6:]
            elif line.startswith("old: "):
                old = line[5:]
            elif line.startswith("new:"):
                places.append((path, old, line[4:]))
            elif line.startswith("fact: "):
                fact = line[6:]
    return places, fact


def body_of(crate, path, old):
    """The function whose body has a text, by its file and its name; None if no body has it. A body opens at the end of its function's head or by a line of its own."""
    if not path.startswith("src/"):
        return None
    with open(os.path.join("crates", crate, path), encoding="utf-8") as file:
        before, _, _ = file.read().partition(old)
    name, indent, open_ = None, "", False
    for line in before.split("\n")[:-1]:
        found = FUNCTION.match(line)
        if found:
            name, indent, open_ = found[2], found[1], line.endswith("{")
        elif name and line in (indent + "{", indent + "}"):
            name, open_ = name if line[-1] == "{" else None, True
    return (path, name) if name and open_ else None


def function_of(fact):
    """The function whose proof a fact is of, by its path below the crate; None if it is a law."""
    named = re.match(r"proofs/(.*)/(?:Answers|Invariants|Proof) |[^/\s:]+::(\S+) ", fact)
    return (named[1] or named[2]).replace("/", "::") if named else None


def body(edit):
    """The function that an edit changes, if all that it changes is that body and its fact is that function's."""
    places, fact = parts(edit)
    bodies = {body_of(facts.parts(edit)[0], path, old) for path, old, _ in places}
    if len(bodies) != 1 or None in bodies:
        return None
    found = bodies.pop()
    return found if (function_of(fact) or "").split("::")[-1] == found[1] else None


@functools.cache
def law(edit):
    """What an edit of specs and proofs changes, and what the law that it names rests on; None if it is another, or cannot be told."""
    places, fact = parts(edit)
    named = re.match(r"(proofs/\S+) ([^.\s]+)", fact)
    if not named or function_of(fact):
        return None
    try:
        crate = reach.crate(os.path.join("crates", facts.parts(edit)[0]))
        changed = crate.changed(places)
        return changed, crate.reached(named[1] + ".antt", named[2], changed)
    except reach.Unclear:
        return None


def kind(edit):
    if not parts(edit)[1]:
        return "whole"
    return "bodies" if body(edit) else "laws" if law(edit) else "alone"


def apart(one, other):
    """Whether two edits may be checked at once."""
    if kind(one) == kind(other) == "bodies":
        return body(one) != body(other)
    return kind(one) == kind(other) == "laws" and reach.apart(law(one), law(other))


def others(log, edits):
    """The facts that were refused in a check of these edits and are not their doing."""
    met = facts.errors(edits[0], facts.lines_of(log))
    if kind(edits[0]) == "bodies":
        functions = "|".join(body(edit)[1] for edit in edits)
        return [name for name in met if not re.search(rf"(?:/|::)({functions})(?:/(?:Answers|Invariants|Proof)\b|:\d|\s)", name)]
    if kind(edits[0]) == "laws":
        crate, changed = reach.crate(os.path.join("crates", facts.parts(edits[0])[0])), {}
        for edit in edits:
            changed.update(law(edit)[0])
        laws = [name for name in met if name.startswith(("proofs/", "specs/"))]
        return [name for name in laws if " " not in name or not crate.rests(*name.split(" ", 1), changed)]
    return []


def main():
    if sys.argv[1:2] == ["--others"]:
        found = others(sys.argv[2], sys.argv[3:])
        print("\n".join(found))
        return bool(found)
    batches = []
    for edit in sorted(sys.argv[1:], key=lambda one: -len((law(one) or ({}, ()))[1])):     # laws that rest on most come first
        fitting = next((batch for batch in batches if all(apart(edit, one) for one in batch)), None)
        if fitting:
            fitting.append(edit)
        else:
            batches.append([edit])
    for edits in batches:
        print(kind(edits[0]), *edits)
    return 0


if __name__ == "__main__":
    sys.exit(main())
