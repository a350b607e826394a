"""docs/CALLS.md: the rows of its one table. A cell `–` says that there is none."""
import re
from collections import namedtuple

from sources import read

# unread: the words in brackets, which the event program does not read
Row = namedtuple("Row", "call words unread rust definitions code public c safe refusals need bytes recorded")
COLUMNS = "call|word|the Rust's name|definition|on a sound store|public, in|C|Rust|refusals|answer buffer|by bytes|recorded".split("|")


def ticked(cell):
    return re.findall(r"`([^`]+)`", cell)


def names(cell, usual):
    """✔: the usual name. Other names stand between backquotes."""
    return [usual] if cell == "✔" else ticked(cell)


def public_calls(cell, call):
    """The modules named, each with the function of the call's name, or with those in brackets behind it."""
    found = re.findall(r"`([^`]+)`(?: \(([^)]*)\))?", cell)
    return [f"{module}::{name}" for module, others in found for name in ticked(others) or [call]]


def row(cells):
    call, word, rust, definition, code, public, c, safe, refusals, need, by_bytes, recorded = cells
    (call,) = ticked(call)
    return Row(
        call=call,
        words=ticked(word),
        unread=re.findall(r"\(`(\w+)`\)", word),
        rust=[call] if rust == "same" else ticked(rust),
        definitions=re.findall(r"((?:`[^`]+`(?:, )?)+) \((\w+)\)", definition),
        code=ticked(code),
        public=public_calls(public, call),
        c=names(c, "tracker_" + call),
        safe=names(safe, call),
        refusals=[int(number) for number in re.findall(r"\d+", refusals)],
        need="" if need == "–" else need,
        bytes=names(by_bytes, call),
        recorded=recorded == "✔",
    )


def rows(root):
    found = None
    for line in read(root, "docs/CALLS.md").splitlines():
        cells = [cell.strip() for cell in line.strip("|").split("|")]
        if cells == COLUMNS:
            found = []
        elif found is not None and not line.startswith("|"):
            return found
        elif found is not None and not set(line) <= set("|- "):
            if len(cells) != len(COLUMNS):
                raise SystemExit(f"docs/CALLS.md: a row of {len(cells)} cells, not {len(COLUMNS)}: {line[:60]}")
            found.append(row(cells))
    if found is None:
        raise SystemExit(f"docs/CALLS.md: no table with the columns {', '.join(COLUMNS)}")
    return found
