"""The functions that crates/exports and crates/owned hand to C, as their sources declare them."""
import os
import re
from collections import namedtuple

ROOT = os.path.dirname(os.path.dirname(os.path.abspath(__file__)))

# A parameter of C: what it is (a key of TYPES), and its name. A slice is two, its start and its length.
Parameter = namedtuple("Parameter", "kind name")
Function = namedtuple("Function", "name comment parameters result")

# Rattle's types, as C and Rust declare them around or before a name.
TYPES = {
    "u64": ("uint64_t {}", "{}: u64"),
    "u32": ("uint32_t {}", "{}: u32"),
    "bool": ("bool {}", "{}: bool"),
    "&[u8]": ("const uint8_t *{}", "{}: *const u8"),
    "&mut [u8]": ("uint8_t *{}", "{}: *mut u8"),
    "length": ("size_t {}", "{}: usize"),
    "&[u8; 32]": ("const uint8_t {}[32]", "{}: &[u8; 32]"),
    "&mut u64": ("uint64_t *{}", "{}: &mut u64"),
}
SLICES = ("&[u8]", "&mut [u8]")
RESULTS = ("u64", "bool")

# `now` cannot be a parameter's name where a contract says `s.now`; `free` is a function of C's library.
NAMES = {"s": "store", "clock": "now", "free": "room", "preferred_free": "preferred_room"}

EXPORTED = re.compile(r'((?:^//[^\n]*\n)*)^#\[unsafe\(no_mangle\)\]\npub extern "C" fn (\w+)\(([^)]*)\)\s*(?:->\s*(\w+))?', re.M)


def parameters(function, text):
    """The parameters of C. The first slice is the store as a rule: its length needs no name before it."""
    found = []
    for part in filter(None, (part.strip() for part in re.split(r",(?![^\[]*\])", text))):
        name, kind = (side.strip() for side in part.split(":", 1))
        if kind not in TYPES or kind == "length":
            raise SystemExit(f"{function}: no declaration for the type {kind} of {name}")
        name = NAMES.get(name, name)
        found.append(Parameter(kind, name))
        if kind in SLICES:
            first = not any(one.kind == "length" for one in found)
            found.append(Parameter("length", "length" if first else name + "_length"))
    return found


def functions_of(path):
    with open(path, encoding="utf-8") as source:
        text = source.read()
    found = []
    for comment, name, given, result in EXPORTED.findall(text):
        if result not in RESULTS:
            raise SystemExit(f"{name}: no declaration for the result {result or '()'}")
        said = " ".join(line.removeprefix("//").strip() for line in comment.splitlines())
        if not said:
            raise SystemExit(f"{name}: no comment above it")
        found.append(Function(name, said, parameters(name, given), result))
    if len(found) != text.count('extern "C" fn'):
        raise SystemExit(f"{path}: a function for C that is not read")
    return found


def functions(crate="exports"):
    """Those of lib.rt, then those of its modules in their order."""
    folder = os.path.join(ROOT, "crates", crate, "src")
    root = os.path.join(folder, "lib.rt")
    with open(root, encoding="utf-8") as source:
        modules = re.findall(r"^pub mod (\w+);", source.read(), re.M)
    return [one for path in [root, *(os.path.join(folder, name + ".rt") for name in modules)] for one in functions_of(path)]
