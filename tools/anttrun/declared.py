"""Types that a crate's code declares (`src/*.rt`), as specifications name them: enums by variants, structs by fields."""
import glob
import os
import re

from .tokens import Unread


def matching(text, at):
    """The place of the bracket that closes the one at `at`."""
    depth = 0
    for i in range(at, len(text)):
        depth += (text[i] in "({[") - (text[i] in ")}]")
        if depth == 0:
            return i
    raise Unread(f"a declaration does not end: {text[at:at + 40]!r}")


def parts(text):
    """What stands between commas outside brackets."""
    out, depth = [""], 0
    for c in text:
        depth += (c in "({[<") - (c in ")}]>")
        if c == "," and depth == 0:
            out.append("")
        else:
            out[-1] += c
    return [p.strip() for p in out if p.strip()]


def variant(text):
    """(name, number of fields) of `Name`, `Name(T, ..)` or `Name { field: T, .. }`."""
    name = re.match(r"\w+", text).group()
    rest = text[len(name):].strip()
    return name, len(parts(rest[1:-1])) if rest else 0


def field(text):
    return re.match(r"(?:pub\s+)?(\w+)\s*:", text).group(1)


def read(folder):
    """{type: [(variant, number of fields)]} and {type: [field]} of all files in a crate's src."""
    enums, structs = {}, {}
    for file in sorted(glob.glob(os.path.join(folder, "**", "*.rt"), recursive=True)):
        with open(file, encoding="utf-8") as f:
            text = re.sub(r"//[^\n]*", "", f.read())
        for found in re.finditer(r"\b(enum|struct)\s+(\w+)\s*\{", text):
            body = parts(text[found.end():matching(text, found.end() - 1)])
            if found.group(1) == "enum":
                enums[found.group(2)] = [variant(p) for p in body]
            else:
                structs[found.group(2)] = [field(p) for p in body if not p.startswith("ghost ")] # a ghost field is a fact, and holds nothing
    return enums, structs
