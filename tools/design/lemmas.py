"""lemmas.py OLD NEW: the public lemmas, records and rulesets of OLD/crates/*/proofs whose name the same crate of NEW has no more, by crate and file, each with the line that states it."""
import collections
import glob
import re
import sys

STATED = re.compile(r"^\s*(?:abbrev |unfoldable )*(pub )?(?:record |data |ruleset |abbrev |unfoldable )*([^\s:(){}=]+)\s*(?::|\(|\{)")
WORDS = {"use", "mod", "module", "where", "let", "in", "rw", "record", "elim"}


def stated(root, pattern, skipped):
    for path in sorted(glob.glob(pattern, root_dir=root, recursive=True)):
        if path.rsplit("/", 1)[1] not in skipped:
            with open(f"{root}/{path}", encoding="utf-8") as file:
                for line in file:
                    found = STATED.match(line)
                    if found and found[2] not in WORDS:
                        yield path, bool(found[1]), found[2], line.strip()


def main():
    old, new = sys.argv[1:]
    known = collections.defaultdict(set)
    for path, _, name, _ in stated(new, "crates/*/*/**/*.antt", ("Answers.antt", "Invariants.antt")):
        known[name].add(path.split("/")[1])
    for path, public, name, line in stated(old, "crates/*/proofs/**/*.antt", ("Answers.antt", "Invariants.antt", "Lib.antt")):
        if public and path.split("/")[1] not in known[name]:
            print(f"{path} {name}: {line}")


if __name__ == "__main__":
    main()
