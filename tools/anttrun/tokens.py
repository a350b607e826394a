"""antt's tokens and layout. Whatever is not understood raises `Unread`."""
import re
from dataclasses import dataclass


class Unread(Exception):
    """A text that this reader does not understand."""


@dataclass
class Tok:
    text: str
    kind: str        # name, num, punct (one of ( ) { } ; , @), dot
    line: int
    col: int
    first: bool      # the first of its line
    tight: bool      # no space before it
    file: str
    plain: bool = False   # an escaped name «x»: no reserved word, no operator

    def where(self):
        return f"{self.file}:{self.line}:{self.col + 1}"

    def is_(self, *texts):
        return self.text in texts and not self.plain


RESERVED = set("""data record deriving module where use mod pub package using open as unfoldable abbrev axiom unfold
unfolding ruleset mutual infix infixl infixr elim let in do λ ∀ Type = : → | ↦ [ ] ← ×""".split())
NUMERAL = re.compile(r"(0x[0-9a-fA-F_]+|0o[0-7_]+|0b[01_]+|[0-9][0-9_]*)\Z")


def fail(tok, message):
    raise Unread(f"{tok.where()}: {message} (at `{tok.text}`)")


def comment_end(text, i, file):
    """The place after a block comment, which may hold others."""
    depth, i = 1, i + 2
    while depth:
        if i >= len(text):
            raise Unread(f"{file}: a comment does not end")
        if text.startswith("{-", i):
            depth, i = depth + 1, i + 2
        elif text.startswith("-}", i):
            depth, i = depth - 1, i + 2
        else:
            i += 1
    return i


def tokens(text, file):
    """All tokens of a file."""
    out, i, line, start, first = [], 0, 1, 0, True
    n = len(text)
    tight = False

    def put(t, kind, at, plain=False):
        nonlocal first
        out.append(Tok(t, kind, line, at - start, first, tight, file, plain))
        first = False

    while i < n:
        c = text[i]
        if c == "\n":
            i += 1
            line, start, first, tight = line + 1, i, True, False
        elif c.isspace():
            i, tight = i + 1, False
        elif text.startswith("--", i):
            while i < n and text[i] != "\n":
                i += 1
        elif text.startswith("{-", i):
            end = comment_end(text, i, file)
            if "\n" in text[i:end]:
                line, start, first = line + text.count("\n", i, end), text.rindex("\n", i, end) + 1, True
            i, tight = end, False
        elif c == "«":
            end = text.index("»", i)
            put(text[i + 1:end], "name", i, plain=True)
            i, tight = end + 1, True
        elif c == '"':
            raise Unread(f"{file}:{line}: quoted text")
        elif c in "(){};,@":
            put(c, "punct", i)
            i, tight = i + 1, True
        elif c == ".":
            put(".", "dot", i)
            i, tight = i + 1, True
        else:
            j = i
            while j < n and not text[j].isspace() and text[j] not in '(){}.;,@"«»':
                j += 1
            word = text[i:j]
            put(word, "num" if NUMERAL.match(word) else "name", i)
            i, tight = j, True
    return out


def depths(toks):
    """Each token with the number of brackets around it."""
    d = 0
    for t in toks:
        if t.kind == "punct" and t.text in ")}":
            d -= 1
        yield t, d
        if t.kind == "punct" and t.text in "({":
            d += 1


def items(toks):
    """The layout rule: one item for each line that begins at the block's column, outside brackets."""
    out = []
    if not toks:
        return out
    column = toks[0].col
    for t, d in depths(toks):
        if t.first and d == 0 and t.col <= column and t.text not in ")}":
            if t.col < column:
                fail(t, "left of its block")
            out.append([])
        out[-1].append(t)
    return out


def split(toks, *texts):
    """The parts between depth-0 tokens of these texts."""
    parts = [[]]
    for t, d in depths(toks):
        if d == 0 and t.is_(*texts):
            parts.append([])
        else:
            parts[-1].append(t)
    return parts


def find(toks, *texts):
    """The index of the first depth-0 token of these texts, or None."""
    for i, (t, d) in enumerate(depths(toks)):
        if d == 0 and t.is_(*texts):
            return i
    return None
