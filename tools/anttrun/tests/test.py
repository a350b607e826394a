"""python3 tests/test.py: every form once, and texts that must be refused."""
import os
import shutil
import sys
import tempfile

HERE = os.path.dirname(os.path.abspath(__file__))
sys.path.insert(0, os.path.dirname(os.path.dirname(HERE)))
import anttrun

FEATURES, MORE = "specs.Features.", "specs.More."
HEAD = """use Rattle.std.specs.Prelude.{ℕ, suc, ◌+◌, Bool, true, false}
use lib.Odd.{odd-name}
"""
DECLARED = "use Rattle.c.specs.declared.Kind.TheVariants."
REFUSED = {
    "an unknown name": "f : ℕ → ℕ\nf n = g n\n",
    "an unknown library name": "f : ℕ → ℕ\nf n = odd-name n\n",
    "a type as a value": "f : ℕ → ℕ\nf n = ℕ\n",
    "a clause of another name": "f : ℕ → ℕ\ng n = n\n",
    "clauses of two lengths": "f : Bool → ℕ → ℕ\nf true n = n\nf false = suc\n",
    "no clause": "f : ℕ → ℕ\n",
    "an unknown record": "f : ℕ → ℕ\nf n = record { a = n }\n",
    "a constructor with too few fields": "f : ℕ → ℕ\nf suc = 1\n",
    "an operator without fixity": "◌⊗◌ : ℕ → ℕ → ℕ\n◌⊗◌ a b = a\ng : ℕ → ℕ\ng n = n ⊗ n\n",
    "do": "f : ℕ → ℕ\nf n = do n\n",
    "an axiom": "axiom f : ℕ\n",
    "a name bound twice": "f : ℕ → ℕ → ℕ\nf n n = n\n",
    "a text": "f : ℕ → ℕ\nf n = \"a\"\n",
    "a type that the code does not declare": "use Rattle.c.specs.declared.Sort.{Sort}\n",
    "a variant that the code does not declare": DECLARED + "{Block}\n",
    "a variant with too few fields": DECLARED + "{Other}\nf : ℕ → ℕ\nf Other = 1\n",
    "a variant with too many fields": DECLARED + "{Txid}\nf : ℕ → ℕ\nf (Txid n) = n\n",
}


def values(m):
    """Pairs of what a run gives and what is wanted."""
    def run(name, *args):
        return m[FEATURES + name](*args)

    dot, box, held = m[FEATURES + "Dot"], m[FEATURES + "Box"], m[FEATURES + "Held"]
    far, near = m["Rattle.beside.specs.declared.Kind.TheVariants.Txid"], m["Rattle.features.specs.declared.Kind.TheVariants.Txid"]
    named, labelled = m["Rattle.beside.specs.declared.Choice.TheVariants.Named"], m["Rattle.beside.specs.Beside.Labelled"]
    return [
        (run("◌⊓◌", 3, 2), 2), (run("twice◌", 4), 8),
        (run("area", dot), 0), (run("area", box(3, 4)), 12), (run("area", held(held(box(2, 3), 1, 1), 4, 5)), 6), (run("area", held(dot, 4, 5)), 9),
        (run("precedence", 1), [19, 5, 3, 1, 0, 7, 0, 1000, 31]),
        (run("half", 9), 4), (run("half", 100_000), 50_000), (run("even", 10), True), (run("odd", 10), False),
        (run("lazily", 3), 3), (run("lazily", 4), 0), (run("lazily", 5), 25), (run("fib", 15), 610), (run("fold", 3), 12),
        (m.eval("specs.Features", "pred 5"), 4), (m.eval("specs.Features", "if true then 1 ∷ [] else []"), [1]),
        (run("tuples", 3), (3, True, [12])), (run("first", 3), 4), (run("sections", [1, 5]), [0, 4, 9, 5, 1, 2, 1, 1, 2, 6]),
        (anttrun.plain(run("records", 3)[0]), {"in": 4, "max-len": 3}),
        (run("lists", [1, 2, 3]), [[1, 2], [3], [1, 9, 3], [7, 7], [3, 2, 1], [2, 5, 6, 8]]),
        (run("compose", lambda x: x + 1, lambda x: x * 2, 5), 11),
        (run("found", [4, 5], 1), anttrun.Some(5)), (run("found", [4, 5], 2), None),
        (run("where-uses", [5, 1, 9, 2], 5), [1, 2]), (m[MORE + "size"]([1, 2]), 4),
        (anttrun.plain(m[MORE + "shape"](7)), ("Box", 7, 2)), (m["specs.Further.further"](3), m[MORE + "other_size"](3)),
        (m[MORE + "kind_num"](True), 0), (m[MORE + "kind_num"](False), 5),
        (anttrun.plain(m[MORE + "moved"](m["Rattle.features.specs.declared.Point.Point"](across=1, up=[4]))), {"across": 2, "up": [4]}),
        (m[MORE + "other_size"](5), 105), (far == near, False), (m["Rattle.beside.specs.Beside.swap"](far).NAME, "Wtxid"),
        (m["Rattle.beside.specs.Beside.weight"](named(far, 3)), 1003),
        (anttrun.plain(m["Rattle.beside.specs.Beside.label"](labelled(kind=far, size=2))), {"kind": ("Wtxid",), "size": 2}),
        (sorted(n.split(".")[-1] for n, _ in m.skipped), ["Pairs", "refl-law"]),
    ]


def refuses(text):
    with tempfile.TemporaryDirectory() as d:
        os.makedirs(f"{d}/c/specs")
        os.makedirs(f"{d}/c/src")
        for name, content in (("specs/Lib.antt", "pub mod A\n"), ("specs/A.antt", HEAD + text), ("src/lib.rt", "pub enum Kind { Txid, Other(u32) }\n")):
            with open(f"{d}/c/{name}", "w", encoding="utf-8") as f:
                f.write(content)
        try:
            anttrun.load(f"{d}/c/specs")
        except anttrun.Unread:
            return True
    return False


def laid_out(into):
    """Writes the crates of the tests below a folder. They are kept as .txt, since the prover wants every file of Rattle in a listed crate."""
    root = os.path.join(HERE, "crates")
    for folder, _, names in os.walk(root):
        for name in names:
            to = os.path.join(into, os.path.relpath(folder, root), name.removesuffix(".txt"))
            os.makedirs(os.path.dirname(to), exist_ok=True)
            shutil.copyfile(os.path.join(folder, name), to)


def main():
    with tempfile.TemporaryDirectory() as d:
        laid_out(d)
        m = anttrun.load(os.path.join(d, "features/specs"), coverage=True)
        pairs = values(m)
    bad = [f"got {got}, wanted {want}" for got, want in pairs if got != want]
    bad += [f"not refused: {what}" for what, text in REFUSED.items() if not refuses(text)]
    if not m.unreached():
        bad.append("coverage: some branch of the features is not entered, yet none is named")
    for text in bad:
        print(text)
    print(f"anttrun: {len(pairs) + len(REFUSED) - len(bad)} of {len(pairs) + len(REFUSED)} as wanted")
    return bool(bad)


sys.exit(main())
