"""facts.py EDIT LOG: where the prover refused an edit, by the log of the check. An edit may name the fact that it breaks, `fact: FILE NAME` or `fact: FILE NAME.FIELD`,
or `fact: FUNCTION GOAL` if the function has no answers of its own; then an error of the log must be that fact's own, not one that says that something
else was not admitted.
facts.py --ci LOG: the same of every edit of crates/*/must-fail, by what rt ci said: the first error of each; each of them must name its fact."""
import glob
import os
import re
import sys

ERROR = re.compile(r"^(?:\./)?((?:src|specs|proofs)/\S*?)(\.antt|\.rt):(\d+):(\d+): error: (?:`([^`]*)`)?(.*)")
FIELD = re.compile(r"(\S+) = $")
UNPROVED = re.compile(r"^fn (\S+): no proof: .*did not prove (.*)")


def parts(edit):
    """The crate of an edit, and its label."""
    path = edit.split("/")
    return path[2 if path[0] == "tests" else 1], path[-1].removesuffix(".edit")


def fact_of(edit):
    with open(edit, encoding="utf-8") as file:
        return next((line[6:].strip() for line in file if line.startswith("fact: ")), None)


def before(path, line, column):
    """The text of a line up to a column; nothing if there is no such line, as after an edit that adds one."""
    if not os.path.exists(path):
        return ""
    with open(path, encoding="utf-8") as file:
        lines = file.read().split("\n")
    return lines[line - 1][:column - 1] if line <= len(lines) else ""


def errors(edit, text):
    """The names of the declarations with an error of their own in the lines of a log, in order, each also with the field that the error stands at."""
    crate, names = parts(edit)[0], []
    for name, ending, line, column, declaration, rest in (match.groups() for match in map(ERROR.match, text) if match):
        if re.search("was not admitted|(?:was|were) not checked", rest):
            continue
        names.append(f"{name} {declaration}" if declaration else f"{name}:{line}:{column}")
        field = FIELD.search(before(f"crates/{crate}/{name}{ending}", int(line), int(column)))
        if declaration and field:
            names.append(f"{name} {declaration}.{field[1]}")
    for function, goals in (match.groups() for match in map(UNPROVED.match, text) if match):
        names += [f"{function} {goal}" for goal in re.findall("`([^`]*)`", goals)]
    return names


def lines_of(log):
    with open(log, encoding="utf-8", errors="replace") as file:
        return list(file)


def judge(edit, text):
    """Whether an edit was refused at its fact, and what to say of it."""
    fact, met = fact_of(edit), errors(edit, text)
    first = met[0] if met else "no place"
    if fact and fact not in met:
        return False, f"refused, but not at {fact}; first at {first}"
    return True, fact or f"first at {first}"


def by_ci(log):
    edits, bad, said = sorted(glob.glob("crates/*/must-fail/*.edit")), [], {}
    for line in lines_of(log):
        found = re.match(r"(?:rt: )?must-fail (\S+)/(\S+)\.edit: refused, as it must be(?: \([^)]*\))?: (.*)", line)
        if found:
            said[found[1], found[2]] = [found[3]]
    for edit in edits:
        good, text = judge(edit, said[parts(edit)]) if parts(edit) in said else (False, "not refused")
        if not fact_of(edit):
            good, text = False, f"without a fact; {text}"
        if not good:
            bad.append(f"FAILED: {edit} is {text}")
    print("\n".join(bad + [f"{len(edits) - len(bad)} edits refused at their facts, {len(bad)} not"]))
    return bool(bad)


if __name__ == "__main__":
    if sys.argv[1:2] == ["--ci"]:
        sys.exit(by_ci(sys.argv[2]))
    good, text = judge(sys.argv[1], lines_of(sys.argv[2]))
    print(text)
    sys.exit(not good)
