#!/usr/bin/env python3
"""Brings the repository's own definitions and lemmas to the spelling of today's Rattle, after port.py: `nextPoll` becomes `next_poll`,
and in a lemma's name a dash joins names alone, so that `cut-more` becomes `cut_more` and `length-keys_of` stays.

usage: spelling.py        at the top of the repository, once
       spelling.py --list prints the renamings and changes nothing

Functions of src/, exported C names and strings keep their names: in a .rt file nothing but clauses, ghost items and comments has such names.
A new name that some file had already is listed and looked at by hand."""
import collections, glob, re, sys

SEGMENT = re.compile(r"(?<![A-Za-z0-9_'])[A-Za-z0-9_]+")
CAMEL = re.compile(r"^[a-z][a-z0-9]*(?:_[a-z0-9]+)*[a-z0-9][A-Z][A-Za-z0-9_]*$|^[a-z][A-Z][A-Za-z0-9_]*$")
TOKEN = re.compile(r"[A-Za-z][\w']*(?:-[\w'*≤<≡∷+]+)*")
DECLARED = re.compile(r"^ *(?:(?:abbrev|unfoldable|opaque) )?(?:pub )?([a-z][\w'-]*) :", re.M)
KEPT = {"toLE"}
# names that would fall together with one of the library
OTHER = {"dropAt": "drop_at_key"}


def snake(word):
    word = re.sub(r"([a-z0-9])([A-Z])", r"\1_\2", word)
    word = re.sub(r"([A-Z]+)([A-Z][a-z])", r"\1_\2", word)
    return word.lower()


def paths():
    logic = [f for f in glob.glob("crates/**/*.antt", recursive=True) if "/out/" not in f]
    code = [f for f in glob.glob("crates/**/*.rt", recursive=True) if "/out/" not in f]
    edits = glob.glob("crates/*/must-fail/*.edit") + glob.glob("tests/wrong/**/*.edit", recursive=True)
    papers = glob.glob("docs/*.md") + ["README.md"]
    return logic, code, edits, papers


def read(path):
    with open(path, encoding="utf-8") as f:
        return f.read()


def imports(text):
    """The names that a file takes from the library."""
    for m in re.finditer(r"use ((?:Rattle|native|mathlib|lib|borrow|Prim|logic|seplogic|denote|antt)[\w.+'-]*)\.\{([^}]*)\}", text):
        if not m.group(1).startswith("Rattle.") or re.match(r"Rattle\.(std|core|io|libc|os)\b", m.group(1)):
            for part in m.group(2).split(","):
                yield part.strip().split(" as ")[0]


def main():
    logic, code, edits, papers = paths()
    texts = {f: read(f) for f in logic + code + edits + papers}
    library = {n for f in logic + code for n in imports(texts[f])}
    seen = collections.Counter(s for f in logic + code for s in SEGMENT.findall(texts[f]))
    camel = {s: OTHER.get(s, snake(s)) for s in seen if CAMEL.match(s) and s not in KEPT and s not in library}
    tokens = {t for f in logic + code for t in TOKEN.findall(texts[f])}

    def turn(name):
        return SEGMENT.sub(lambda m: camel.get(m.group(0), m.group(0)), name)

    # what a dash may join: definitions, fields and constructors of specs/, functions, words of the library
    words = {turn(n) for f in logic if "/specs/" in f for n in re.findall(r"[A-Za-z][\w']*", texts[f])}
    words |= {n for n in library if "-" not in n}
    words |= {n for f in code for n in re.findall(r"\bfn (\w+)", texts[f])}
    words |= set("length take drop set append map cons nil get_or splice reverse suc zero add mul div mod le lt eq replicate slice".split())
    plain = set("more none all turn at in of by as is one two first last left right same other next step end start up down to from with and or not again "
                "still only back front rest whole part once each both new old least here there past below above under over on off out less few some any "
                "that this then so if it for kept holds stays goes comes given found held told said made done read written moved known seen".split())
    dashes = {}
    for f in logic:
        if f.endswith("/Proof.antt"):
            continue
        for name in DECLARED.findall(texts[f]):
            if "-" in name and name not in library:
                parts = turn(name).split("-")
                new = parts[0]
                for a, b in zip(parts, parts[1:]):
                    joins = a in words and b in words and a not in plain and b not in plain
                    new += ("-" if joins else "_") + b
                dashes[name] = new
    # two names that become one, or a name that was there: these keep their dashes
    made = collections.Counter(dashes.values())
    clash = {n for n, m in dashes.items() if made[m] > 1 or (m != turn(n) and (m in tokens or m in camel.values()))}
    for n in clash:
        dashes[n] = turn(n)
    fallen = sorted((s, m) for s, m in camel.items() if m in seen)
    # a lemma that had a definition's new name already gets `_lem`, in its file and in those that import it
    declared = collections.defaultdict(list)
    for f in logic:
        for name in DECLARED.findall(texts[f]):
            declared[name].append(f)
    lemmas = collections.defaultdict(set)
    for s, m in camel.items():
        if declared[s] and declared[m]:
            for f in declared[m]:
                crate, rest = f.split("/")[1], f.split("/")[2:]
                module = ".".join(["Rattle", crate, *rest])[: -len(".antt")]
                own = re.compile(r"use " + re.escape(module) + r"\.\{[^}]*(?<![\w'-])" + re.escape(m) + r"(?![\w'-])[^}]*\}")
                for g in logic + code:
                    if g == f or own.search(texts[g]):
                        lemmas[g].add(m)
    if "--list" in sys.argv:
        for s, m in sorted(camel.items()) + sorted(dashes.items()):
            if s != m:
                print(s, m)
        print("was there already:", *(f"{s}>{m}" for s, m in fallen))
        print("keep their dashes:", *sorted(clash))
        print("lemmas with _lem:", *sorted({m for ms in lemmas.values() for m in ms}))
        return

    def words_of(text, own):
        if own:
            text = TOKEN.sub(lambda m: m.group(0) + "_lem" if m.group(0) in own and text[m.start() - 1] != "." else m.group(0), text)
        text = TOKEN.sub(lambda m: dashes.get(m.group(0), m.group(0)), text)
        return SEGMENT.sub(lambda m: camel.get(m.group(0), m.group(0)), text)

    for f, text in texts.items():
        new = words_of(text, lemmas.get(f))
        if new != text:
            with open(f, "w", encoding="utf-8") as out:
                out.write(new)


main()
