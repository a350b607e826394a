"""The values of a run, and the library names that it knows.

  ℕ int    Bool bool    Option None or Some(value)    List a linked `Cons` ending in NIL (a sequence to Python)
  tuple    Python's     record an object with its fields as attributes
  data     an object of its constructor's class, fields in `args`; a constructor without fields is one object
Library names are keyed by module, so a name from a module that is not listed here is refused at loading.
"""
import keyword
from collections.abc import Sequence


class RunError(Exception):
    """A run that went where a well-typed definition cannot go."""


def attr(name):
    """The Python attribute for a field's name."""
    if name.isidentifier() and not keyword.iskeyword(name):
        return name
    return "f_" + "".join(c if c.isascii() and c.isalnum() else f"_{ord(c):x}_" for c in name)


# ---------------------------------------------------------------- values

class Thunk:
    """A value that waits: computed once, when asked for."""
    __slots__ = ("f", "v")

    def __init__(self, f):
        self.f = f

    def get(self):
        if self.f is not None:
            self.v = self.f()
            self.f = None
        return self.v


class Some:
    __slots__ = ("value",)

    def __init__(self, value):
        self.value = value

    def __eq__(self, other):
        return type(other) is Some and self.value == other.value

    def __hash__(self):
        return hash((Some, self.value))

    def __repr__(self):
        return f"some {self.value!r}"


class Cons(Sequence):
    """A list.  Python sees a sequence."""
    __slots__ = ("h", "t")

    def __init__(self, h, t):
        self.h, self.t = h, t

    def __iter__(self):
        while self is not NIL:
            yield self.h
            self = self.t

    def __len__(self):
        return sum(1 for _ in self)

    def __bool__(self):
        return self is not NIL

    def __getitem__(self, i):
        return list(self)[i]

    def __eq__(self, other):
        return isinstance(other, (Cons, list)) and list(self) == list(other)

    def __hash__(self):
        return hash(tuple(self))

    def __repr__(self):
        return repr(list(self))


NIL = Cons(None, None)


def inward(v):
    """A Python value as a run's: lists become linked lists."""
    if isinstance(v, list) or (isinstance(v, Sequence) and not isinstance(v, (tuple, str, Cons))):
        out = NIL
        for x in reversed(v):
            out = Cons(inward(x), out)
        return out
    if type(v) is tuple:
        return tuple(inward(x) for x in v)
    if type(v) is Some:
        return Some(inward(v.value))
    return v


def outward(v):
    """A run's value for Python: a list becomes a Python list (its elements too)."""
    if isinstance(v, Cons):
        return [outward(x) for x in v]
    if type(v) is tuple:
        return tuple(outward(x) for x in v)
    return v


def plain(v):
    """Python's own values through and through: dictionaries for records, (name, fields..) for constructors."""
    if isinstance(v, Cons):
        return [plain(x) for x in v]
    if type(v) is tuple:
        return tuple(plain(x) for x in v)
    if type(v) is Some:
        return ("some", plain(v.value))
    if isinstance(v, RecordValue):
        return {f: plain(getattr(v, attr(f))) for f in v.FIELDS}
    if isinstance(v, ConValue):
        return (v.NAME, *map(plain, v.args))
    return v


class RecordValue:
    __slots__ = ()
    FIELDS = ()

    def values(self):
        return tuple(getattr(self, attr(f)) for f in self.FIELDS)

    def __getitem__(self, f):
        return getattr(self, attr(f))

    def __eq__(self, other):
        return type(self) is type(other) and self.values() == other.values()

    def __hash__(self):
        return hash(self.values())

    def __repr__(self):
        return self.NAME + "{" + ", ".join(f"{f}={getattr(self, attr(f))!r}" for f in self.FIELDS) + "}"

    def but(self, **changes):
        """The record with some fields changed (for drivers; antt has no such form)."""
        got = {attr(f): getattr(self, attr(f)) for f in self.FIELDS}
        if not changes.keys() <= got.keys():
            raise TypeError(f"{self.NAME} has no field {changes.keys() - got.keys()}")
        got.update({f: inward(v) for f, v in changes.items()})
        return type(self)(*got.values())


def record_class(name, fields):
    """A class for a record with these fields, called with them in order."""
    names = [attr(f) for f in fields]
    text = f"def __init__(self, {', '.join(names)}):\n" + "".join(f"    self.{n} = {n}\n" for n in names) + "    pass\n"
    space = {}
    exec(text, space)
    return type(name, (RecordValue,), {"__slots__": tuple(names), "FIELDS": tuple(fields), "NAME": name, "__init__": space["__init__"]})


class ConValue:
    __slots__ = ("args",)
    NAME = "?"

    def __init__(self, *args):
        self.args = args

    def __eq__(self, other):
        return type(self) is type(other) and self.args == other.args

    def __hash__(self):
        return hash((self.NAME, self.args))

    def __repr__(self):
        return " ".join([self.NAME] + [repr(a) if not isinstance(a, ConValue) or not a.args else f"({a!r})" for a in self.args])


def con_class(name):
    return type(name, (ConValue,), {"__slots__": (), "NAME": name})


# ---------------------------------------------------------------- library functions

class Builtin:
    """A library function: its arity, and Python text for a call, `{0}`, `{1}` being the arguments' texts."""

    def __init__(self, name, arity, text):
        self.name, self.arity, self.text = name, arity, text


class Con:
    """A constructor: how it is built, tested and taken apart."""

    def __init__(self, name, arity, build, test, parts):
        self.name, self.arity, self.build, self.test, self.parts = name, arity, build, test, parts


class Kind:
    """A type."""

    def __init__(self, name, runs=True):
        self.name, self.runs = name, runs


def append(a, b):
    if b is NIL:
        return a
    for x in reversed(list(a)):
        b = Cons(x, b)
    return b


def from_list(items, tail=NIL):
    for x in reversed(items):
        tail = Cons(x, tail)
    return tail


def take(n, a):
    out = []
    while n and a is not NIL:
        out.append(a.h)
        n, a = n - 1, a.t
    return from_list(out)


def drop(n, a):
    while n and a is not NIL:
        n, a = n - 1, a.t
    return a


def get_d(a, n, d):
    a = drop(n, a)
    return d if a is NIL else a.h


def get_elem(a, n):
    a = drop(n, a)
    return None if a is NIL else Some(a.h)


def put(a, n, x):
    front = []
    while n and a is not NIL:
        front.append(a.h)
        n, a = n - 1, a.t
    return from_list(front, NIL if a is NIL else Cons(x, a.t))


def reverse(a):
    out = NIL
    for x in a:
        out = Cons(x, out)
    return out


def foldr(f, b, a):
    for x in reversed(list(a)):
        b = f(x)(b)
    return b


def foldl(f, b, a):
    for x in a:
        b = f(b)(x)
    return b


def map_(f, a):
    return from_list([f(x) for x in a])


def builtins(entries):
    return {name: Builtin(name, arity, text) for name, arity, text in entries}


_PRELUDE = {
    **builtins([
        ("◌+◌", 2, "({0} + {1})"), ("◌*◌", 2, "({0} * {1})"), ("◌-◌", 2, "max({0} - {1}, 0)"), ("◌^◌", 2, "({0} ** {1})"),
        ("◌/◌", 2, "div({0}, {1})"), ("◌%◌", 2, "mod({0}, {1})"), ("min", 2, "min({0}, {1})"), ("max", 2, "max({0}, {1})"),
        ("pred", 1, "max({0} - 1, 0)"),
        ("not", 1, "(not {0})"), ("xor", 2, "({0} is not {1})"), ("bool_eq", 2, "({0} is {1})"),
        ("◌&&◌", 2, "({0} and {1})"), ("◌||◌", 2, "({0} or {1})"), ("cond", 3, "({1} if {0} else {2})"),
        ("if◌then◌else◌", 3, "({1} if {0} else {2})"),
        ("ltb", 2, "({0} < {1})"), ("leb", 2, "({0} <= {1})"), ("eqb", 2, "({0} == {1})"),
        ("◌++◌", 2, "append({0}, {1})"), ("map", 2, "map_({0}, {1})"), ("reverse", 1, "reverse({0})"), ("foldr", 3, "foldr({0}, {1}, {2})"),
        ("foldl", 3, "foldl({0}, {1}, {2})"), ("tail", 1, "drop(1, {0})"), ("head_or", 2, "get_d({0}, 0, {1})"),
        ("length", 1, "len({0})"), ("take", 2, "take({0}, {1})"), ("drop", 2, "drop({0}, {1})"), ("get_or", 3, "get_d({0}, {1}, {2})"),
        ("set", 3, "put({0}, {1}, {2})"), ("replicate", 2, "from_list([{1}] * {0})"), ("get", 2, "get_elem({0}, {1})")]),
    "zero": Con("zero", 0, "0", "{0} == 0", []),
    "suc": Con("suc", 1, "({0} + 1)", "{0} > 0", ["({0} - 1)"]),
    "true": Con("true", 0, "True", "{0} is True", []), "false": Con("false", 0, "False", "{0} is False", []),
    "[]": Con("[]", 0, "NIL", "{0} is NIL", []), "◌∷◌": Con("◌∷◌", 2, "Cons({0}, {1})", "{0} is not NIL", ["{0}.h", "{0}.t"]),
    "ℕ": Kind("ℕ"), "Bool": Kind("Bool"), "List": Kind("List"),
    **{n: Kind(n, False) for n in ("◌≤◌", "◌<◌", "◌≡◌", "◌≢◌", "◌↔◌", "◌⊎◌", "T", "when")},
}

SUPPLIED = {
    "Rattle.std.specs.Prelude": _PRELUDE,
    "Rattle.std.proofs.Math.Option": {
        **builtins([("option-get-or", 2, "option_get({0}, {1})"), ("option-map", 2, "option_map({0}, {1})")]),
        "none": Con("none", 0, "None", "{0} is None", []), "some": Con("some", 1, "Some({0})", "{0} is not None", ["{0}.value"]),
        "Option": Kind("Option"), "IsSome": Kind("IsSome", False),
    },
    # the prelude of antt, open in every file
    "Prim": {"Unit": Kind("Unit", False), "⊥": Kind("⊥", False), "¬◌": Kind("¬◌", False), "IsProp": Kind("IsProp", False),
             "IsSet": Kind("IsSet", False), "Dec": Kind("Dec", False), "tt": Con("tt", 0, "()", "{0} == ()", [])},
}

FIXITIES = {
    "◌+◌": ("infixl", 65), "◌-◌": ("infixl", 65), "◌*◌": ("infixl", 70), "◌/◌": ("infixl", 70), "◌%◌": ("infixl", 70), "◌^◌": ("infixr", 75),
    "◌&&◌": ("infixl", 35), "◌||◌": ("infixl", 30), "◌∷◌": ("infixr", 67), "◌++◌": ("infixl", 65),
    "◌≤◌": ("infix", 50), "◌<◌": ("infix", 50), "if◌then◌else◌": ("infix", 5), "◌≡◌": ("infix", 4), "◌↔◌": ("infix", 1), "◌≢◌": ("infix", 4),
}

# What generated text may name.
NAMES = {
    "Thunk": Thunk, "Some": Some, "Cons": Cons, "NIL": NIL, "append": append, "take": take, "drop": drop, "get_d": get_d, "get_elem": get_elem,
    "put": put, "reverse": reverse, "foldr": foldr, "foldl": foldl, "map_": map_, "from_list": from_list, "RunError": RunError,
    "div": lambda a, b: a // b if b else 0, "mod": lambda a, b: a % b if b else a,
    "option_get": lambda o, d: d if o is None else o.value,
    "option_map": lambda f, o: None if o is None else Some(f(o.value)),
}
