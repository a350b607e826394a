"""What names mean: definitions, types, modules' scopes."""
from .expressions import Ops
from .values import Kind, Thunk


class Defn:
    """An executable definition."""

    def __init__(self, name, decl, scope, py):
        self.name, self.decl, self.scope, self.py = name, decl, scope, py
        self.arity, self.clauses, self.strict, self.selector, self.local = None, None, None, None, False


class Skipped:
    def __init__(self, name, reason):
        self.name, self.reason = name, reason


class Unknown:
    """A library name that is not in `values.SUPPLIED`: what runs may not need it."""

    def __init__(self, name):
        self.name = name


class TypeName(Kind):
    """A type that the specs define; whether its values can be run is found when asked."""

    def __init__(self, name, test, members=None):
        self.name, self.test, self.members, self.known = name, test, {} if members is None else members, None

    @property
    def runs(self):
        if self.known is None:
            self.known = False      # a law that speaks of itself
            self.known = self.test()
        return self.known


class Scope:
    def __init__(self, key):
        self.key, self.names, self.aliases, self.ops, self.fixities = key, {}, {}, Ops(), {}
        self.own = {}


def remember(f, most=20_000):
    """f with its answers kept, by the arguments' identity (numbers by value), for definitions asked the same again and again."""
    kept = {}

    def g(*args):
        args = [a.get() if type(a) is Thunk else a for a in args]
        key = tuple([a if type(a) is int else (id(a),) for a in args])
        if key not in kept:
            if len(kept) >= most:
                kept.clear()
            kept[key] = (f(*args), args)     # the arguments stay alive, so an identity is not used again
        return kept[key][0]
    return g
