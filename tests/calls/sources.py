"""What the sources say of the calls. Every function reads one kind of file under the repository's root."""
import glob
import os
import re


def read(root, *parts):
    with open(os.path.join(root, *parts), encoding="utf-8") as source:
        return source.read()


def snake(name):
    return re.sub(r"(?<!^)(?=[A-Z])", "_", name).lower()


# ---- the machine

def asks(root):
    """The constructors of `Ask`, and those of `Call` that take any bytes, opening and reading, by the names of their calls."""
    text = read(root, "crates/machine/specs/Call.antt")
    call, ask = (re.search(rf"^pub data {name} .*?\n(.*?)\n\n", text, re.M | re.S)[1] for name in ("Call", "Ask"))
    return {snake(name): name for name in re.findall(r"^  (\w+) :", call + "\n" + ask, re.M) if name != "On"}


def defined(root, name, file):
    """Whether the machine's file defines the name, or that of the crate wire, whose calls take no store."""
    paths = [os.path.join(root, "crates", crate, "specs", file + ".antt") for crate in ("machine", "wire")]
    return any(os.path.exists(path) and re.search(rf"^(?:unfoldable|abbrev) pub {re.escape(name)} ", read(root, path), re.M) for path in paths)


class Needs:
    """An expression of a buffer's need as the matrix writes it: L, Q, n for the length of the list that is given, numbers with their commas."""

    def __init__(self, text, limits):
        self.tokens = re.findall(r"s\.limit|s\.places|length \w+|\w+|[()+*]", text)
        self.limits = limits

    def atom(self):
        token = self.tokens.pop(0)
        if token == "(":
            value = self.sum()
            self.tokens.pop(0)
            return value
        if token == "min":
            return f"min({said(self.atom())}, {said(self.atom())})"
        if token.startswith("length "):
            return "n"
        known = {"s.limit": "L", "s.places": "Q", **self.limits}
        return known[token] if token in known else int(token)

    def product(self):
        value = self.atom()
        while self.tokens[:1] == ["*"]:
            self.tokens.pop(0)
            value = f"{said(value)} × {said(self.atom())}"
        return value

    def sum(self):
        value = self.product()
        while self.tokens[:1] == ["+"]:
            self.tokens.pop(0)
            other = self.product()
            both = isinstance(value, int) and isinstance(other, int)
            value = value + other if both else f"{said(value)} + {said(other)}"
        return value


def said(value):
    return f"{value:,}" if isinstance(value, int) else value


def arguments(text):
    """The arguments that stand side by side, each with its brackets."""
    found, depth = [""], 0
    for sign in text:
        depth += (sign == "(") - (sign == ")")
        if sign == " " and not depth:
            found.append("")
        else:
            found[-1] += sign
    return [part for part in found if part]


def refusals(root):
    """By call: the numbers of the refusals that it can meet, and the need of its answer buffer ('' if it has none)."""
    text = read(root, "crates/machine/specs/Call.antt")
    limits = {name: int(n) for name, n in re.findall(r"^(\w+) = (\d+)$", read(root, "crates/machine/specs/Limits.antt"), re.M)}
    taken = {role for role, value in re.findall(r"^place_taken \(?(\w+).* s = (.*)$", text, re.M) if value != "false"}
    places = {name for name, role in re.findall(r"^role_of \(?(\w+).* = (\w+)", text, re.M) if role in taken}
    places |= {name for name, value in re.findall(r"^takes_place \((\w+).* = (.*)$", text, re.M) if value != "false"}
    found = {"open": ([2, 1], ""), "restore": ([11, 12, 1], "")}
    for name, form, rest in re.findall(r"^named \(?(\w+)[^=]*= (plain|keyed|entered) (.*)$", text, re.M):
        given = arguments(rest)
        parents = "0" if form == "entered" else given[2]
        tests = [True, given[0] != "[]", given[1] != "[]", parents != "0", form != "plain", name in places]
        need = "" if form == "plain" else said(Needs(given[-1], limits).sum()) + (" keys" if form == "keyed" else " entries")
        found[snake(name)] = ([number for number, test in enumerate(tests, 3) if test], need)
    # counts is no `Ask`: its contract says them.
    counting = read(root, "crates/public_requests/specs/Counting.antt")
    found["counts"] = ([int(number) for number in re.findall(r"→ r ≡ NotCounted (\d)$", counting, re.M)], "")
    return found


# ---- the code

FUNCTION = re.compile(r"^pub (?:extern \"C\" )?fn (\w+)\((.*?)^\{", re.M | re.S)


def functions(root, crate):
    """A crate's public functions, by their paths: what stands from the name to the body."""
    found, folder = {}, os.path.join(root, "crates", crate, "src")
    for path in glob.glob(os.path.join(folder, "**", "*.rt"), recursive=True):
        modules = os.path.relpath(path, folder)[:-3].split(os.sep)
        modules = [] if modules in (["lib"], ["main"]) else modules
        for name, text in FUNCTION.findall(read(root, path)):
            found["::".join([crate, *modules, name])] = text
    return found


def path_of(root, path):
    """The function at a path, from its name to its body, or None."""
    return functions(root, path.split("::")[0]).get(path)


def public_calls(root):
    """The calls that ask nothing of the store, by their paths: functions of the crates tracker and public_* that have the public contract."""
    crates = [os.path.basename(path) for path in glob.glob(os.path.join(root, "crates", "*"))]
    found = {}
    for crate in crates:
        if crate == "tracker" or crate.startswith("public_"):
            for path, text in functions(root, crate).items():
                if "::on_sound::" not in path and "requires" not in text and re.search(r"\b(Leaves|LeavesWith|Does|CountsOf)\b", text):
                    found[path] = text
    return found


def exported(root, crate):
    """The C functions of a crate."""
    return {path.split("::")[-1]: text for path, text in functions(root, crate).items() if "tracker_" in path.split("::")[-1]}


def names(root, file, pattern):
    return set(re.findall(pattern, read(root, file), re.M))


def header(root):
    return names(root, "bindings/c/tracker.h", r"^(?:uint64_t|bool|\w+ \*?)\s?(tracker_\w+)\(")


def raw(root):
    return names(root, "bindings/rust/src/abi.rs", r"^    pub fn (tracker_\w+)\(")


def safe(root):
    return names(root, "bindings/rust/src/calls.rs", r"^pub fn (\w+)[<(]")


# ---- event lines and runs

def words(root):
    """The words that the event program compares a line's first field with."""
    files = glob.glob(os.path.join(root, "crates/asking/src/**/*.rt"), recursive=True)
    return {word for file in files for word in re.findall(r'\bnamed\(\s*\w+,\s*b"(\w+)",', read(root, file))}


def listed_words(root):
    """The words of docs/EVENTS.md."""
    return names(root, "docs/EVENTS.md", r"^\| `(\w+)` \| ")


def by_bytes(root):
    """The calls of the runs by bytes."""
    return set(re.findall(r"^    (\w+)", re.search(r"^listed! \{\n(.*?)^\}", read(root, "tests/bytes/src/calls.rs"), re.M | re.S)[1], re.M))


def recorded(root):
    """The words of the recorded scripts."""
    found = set()
    for path in glob.glob(os.path.join(root, "tests/vectors/*.in")):
        with open(path, "rb") as script:
            found |= {line.split(b",")[0].decode("latin-1") for line in script.read().split(b"\n")}
    return found
