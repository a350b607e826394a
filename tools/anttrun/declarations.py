"""antt's declarations, as far as specifications use them. Types are kept as tokens and never read as expressions."""
from dataclasses import dataclass, field

from .tokens import Tok, depths, fail, find, items, split, tokens


@dataclass
class Clause:
    left: list
    right: list
    where: list        # Defs


@dataclass
class Def:
    name: str
    sig: list          # tokens of its type
    tok: Tok
    clauses: list = field(default_factory=list)


@dataclass
class Data:
    name: str
    cons: list         # (name, number of explicit fields, tok)
    tok: Tok


@dataclass
class Record:
    name: str
    fields: list       # (name, tokens of its type)
    tok: Tok


@dataclass
class Module:
    file: str
    mods: list = field(default_factory=list)
    uses: list = field(default_factory=list)       # (path, [(name, local name)] or None, alias or None, tok)
    passed: list = field(default_factory=list)     # local names of a `pub use`, which a module that uses this one may name
    fixities: dict = field(default_factory=dict)   # name -> (associativity, level)
    decls: list = field(default_factory=list)


def explicit_arity(type_toks):
    """How many explicit arguments a type takes before its result."""
    n = 0
    for part in split(type_toks, "→")[:-1]:
        groups, depth0 = [], []
        for t, d in depths(part):
            if d == 0:
                depth0.append(t)
                if t.text in "({" and t.kind == "punct":
                    groups.append([t])
                    continue
            if groups:
                groups[-1].append(t)
        binders = all(t.kind == "punct" for t in depth0) and bool(groups)
        if binders and all(g[0].text == "{" or find(g[1:-1], ":") is not None for g in groups):
            n += sum(find(g[1:-1], ":") for g in groups if g[0].text == "(")
        else:
            n += 1
    return n


def read_module(text, file):
    module = Module(file)
    declarations(items(tokens(text, file)), module, module.decls)
    for d in module.decls:
        if isinstance(d, Def) and not d.clauses:
            fail(d.tok, "a signature without clauses")
    return module


def declarations(blocks, module, decls):
    """Reads the items of one block into `decls`; header lines and fixities go to the module."""
    for toks in blocks:
        head = toks[0]
        marks = set()
        while toks and toks[0].is_("pub", "unfoldable", "abbrev"):
            marks.add(toks[0].text)
            toks = toks[1:]
        if not toks:
            fail(head, "marks alone")
        head, rest = toks[0], toks[1:]
        if head.is_("use"):
            module.uses.extend(use_line(rest))
            if "pub" in marks:
                module.passed += [local for _, names, _, _ in use_line(rest) for _, local in names or []]
        elif head.is_("mod"):
            module.mods.append(rest[0].text)
        elif head.is_("infix", "infixl", "infixr"):
            for t in rest[1:]:
                module.fixities[t.text] = (head.text, int(rest[0].text))
        elif head.is_("unfolding", "ruleset"):
            pass
        elif head.is_("mutual"):
            declarations(items(rest), module, decls)
        elif head.is_("module"):
            at = find(toks, "where")
            if at is None or any(t.text == "(" for t, d in depths(toks[:at]) if d == 0):
                fail(head, "a module block with explicit parameters")
            declarations(items(toks[at + 1:]), module, decls)
        elif head.is_("data"):
            decls.append(read_data(toks))
        elif head.is_("record"):
            decls.append(read_record(toks))
        elif head.is_("axiom", "open", "deriving"):
            fail(head, "not supported")
        else:
            signature_or_clause(toks, module, decls)


def signature_or_clause(toks, module, decls):
    at = find(toks, ":", "=")
    if at is None:
        fail(toks[0], "neither a signature nor a clause")
    if toks[at].text == ":":
        decls.extend(Def(t.text, toks[at + 1:], t) for t, d in depths(toks[:at]) if d == 0 and t.kind == "name")
        return
    target = next((d for d in reversed(decls) if isinstance(d, Def)), None)
    if target is None:
        fail(toks[0], "a clause without a signature")
    target.clauses.append(read_clause(toks, at, module))


def use_line(toks):
    """`M.N.{a, b as c}`, `M.N` or `M.N as P`."""
    path, i = [], 0
    while i < len(toks) and toks[i].kind != "punct" and not toks[i].is_("as"):
        if toks[i].kind != "dot":
            path.append(toks[i].text)
        i += 1
    if path[:1] == ["package"]:
        path = path[1:]
    if i < len(toks) and toks[i].text == "{":
        names = []
        for part in split(toks[i + 1:-1], ","):
            if not part:
                continue
            if len(part) == 3 and part[1].is_("as"):
                names.append((part[0].text, part[2].text))
            elif len(part) == 1:
                names.append((part[0].text, part[0].text))
            else:
                fail(part[0], "an item of a use line")
        return [(".".join(path), names, None, toks[0])]
    if path[-1] == "*":
        fail(toks[0], "a glob")
    alias = toks[i + 1].text if i < len(toks) and toks[i].is_("as") else path[-1]
    return [(".".join(path), None, alias, toks[0])]


def read_data(toks):
    at = find(toks, "where")
    cons = []
    for item in items(toks[at + 1:]) if at is not None else []:
        if item[0].is_("deriving"):
            continue
        colon = find(item, ":")
        if colon is None:
            fail(item[0], "a constructor without a type")
        cons += [(t.text, explicit_arity(item[colon + 1:]), t) for t in item[:colon]]
    return Data(toks[1].text, cons, toks[1])


def read_record(toks):
    at = find(toks, "where")
    fields = []
    for item in items(toks[at + 1:]) if at is not None else []:
        if item[0].is_("deriving"):
            continue
        if item[0].is_("pub"):
            item = item[1:]
        colon = find(item, ":")
        if colon is None:
            fail(item[0], "a field without a type")
        fields += [(t.text, item[colon + 1:]) for t in item[:colon]]
    return Record(toks[1].text, fields, toks[1])


def read_clause(toks, at, module):
    right, helpers = toks[at + 1:], []
    w = find(right, "where")
    if w is not None:
        declarations(items(right[w + 1:]), module, helpers)
        right = right[:w]
    return Clause(toks[:at], right, helpers)
