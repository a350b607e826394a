"""apply.py COPY EDIT: the edit's replacements on a copy of its crate. Each 'old:' text must stand once in its file.
apply.py: whether every edit of the repository fits its crate, and each that the file `gate` lists names its fact."""
import glob
import os
import sys

ROOT = os.path.dirname(os.path.dirname(os.path.dirname(os.path.abspath(__file__))))


def replaced(folder, edit):
    """The files that an edit changes, by path; raises ValueError if it does not fit."""
    texts, path, old = {}, None, None
    with open(edit, encoding="utf-8") as file:
        lines = file.read().split("\n")
    for line in lines:
        if line.startswith("file: "):
            path = os.path.join(folder, line[6:])
        elif line.startswith("old: "):
            old = line[5:]
        elif line.startswith("new:"):
            if path not in texts:
                with open(path, encoding="utf-8") as file:
                    texts[path] = file.read()
            if texts[path].count(old) != 1:
                raise ValueError(f"'old:' stands {texts[path].count(old)} times in {os.path.relpath(path, folder)}")
            texts[path] = texts[path].replace(old, line[4:].removeprefix(" "))
    if not texts:
        raise ValueError("no replacement")
    return texts


def apply(folder, edit):
    for path, text in replaced(folder, edit).items():
        with open(path, "w", encoding="utf-8") as file:
            file.write(text)


def all_fit():
    edits, bad = 0, 0
    for pattern, place in ("crates/*/must-fail/*.edit", 1), ("tests/wrong/*/*.edit", 2):
        for edit in sorted(glob.glob(pattern, root_dir=ROOT)):
            edits += 1
            try:
                replaced(os.path.join(ROOT, "crates", edit.split("/")[place]), os.path.join(ROOT, edit))
            except (ValueError, OSError) as error:
                print(f"{edit}: {error}")
                bad += 1
    with open(os.path.join(ROOT, "tests/wrong/gate"), encoding="utf-8") as listed:
        for name in listed.read().split():
            path = os.path.join(ROOT, "tests/wrong", name + ".edit")
            if not os.path.exists(path) or "\nfact: " not in open(path, encoding="utf-8").read():
                print(f"tests/wrong/gate: {name} is no edit with a fact")
                bad += 1
    print(f"wrong versions: {edits - bad} edits fit, {bad} do not")
    return bool(bad)


if __name__ == "__main__":
    if len(sys.argv) == 1:
        sys.exit(all_fit())
    try:
        apply(*sys.argv[1:])
    except (ValueError, OSError) as error:
        sys.exit(f"{sys.argv[2]}: {error}")
