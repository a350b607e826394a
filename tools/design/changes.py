"""changes.py OLD NEW: what contracts.py of the kit finds between two trees, as a page: signatures, contracts and definitions, old and new side by side."""
import json
import subprocess
import sys


def words(value):
    return " ".join(str(value).split())


def clauses(pairs):
    return "; ".join((label + " " if label else "") + words(text) for label, text in pairs) or "nothing"


def main():
    kit, old, new = sys.argv[1:4]
    found = json.loads(subprocess.run([sys.executable, kit + "/port/contracts.py", old, new, "--json"], check=True, capture_output=True, text=True).stdout)
    print("# Signatures, clauses and definitions that today's forms changed\n")
    print("Made by `tools/design/changes.py KIT OLD NEW` (contracts.py of the kit) between the commit in the first line of [DESIGN-PASS.md](DESIGN-PASS.md) and this one; that page says why, and what states the promise of a function that is gone.\n")
    print("## Functions that are gone under their name\n")
    for name in found["functions not found again"]:
        print("- %s" % name)
    print("\n## Signatures\n")
    for name, was, now in found["signatures changed"]:
        print("- %s\n  - old: `%s`\n  - new: `%s`" % (name, words(was), words(now)))
    print("\n## Clauses\n")
    for name, asked, ensured, asks, ensures in found["contracts changed"]:
        print("- %s" % name)
        if asked or asks:
            print("  - `requires` old: `%s`\n  - `requires` new: `%s`" % (clauses(asked), clauses(asks)))
        if ensured or ensures:
            print("  - `ensures` old: `%s`\n  - `ensures` new: `%s`" % (clauses(ensured), clauses(ensures)))
    print("\n## Definitions that are gone\n")
    for crate, name in found["definitions"]["gone"]:
        print("- %s %s" % (crate, name))
    print("\n## Definitions\n")
    for crate, name, was, now in found["definitions"]["changed"]:
        print("- %s %s\n  - old: `%s`\n  - new: `%s`" % (crate, name, words("; ".join(was)), words("; ".join(now))))
    print("\n## Constants that are gone\n")
    for row in found["ghost items and constants"]["gone"]:
        print("- %s" % " ".join(row))


main()
