"""Which arguments a definition surely needs: they are computed before its call, others wait."""
from .tokens import Unread

LAZY_TAIL = {"◌&&◌": 1, "◌||◌": 1, "cond": 1, "if◌then◌else◌": 1}    # of these only so many arguments are surely needed
CONDITIONALS = {"cond", "if◌then◌else◌"}


class Strictness:
    """The part of a `Program` that finds needed arguments."""

    def strictness(self):
        """Which arguments each definition surely needs: the greatest solution."""
        live = [d for d in self.defs if d.arity != -1]
        changed = True
        while changed:
            changed = False
            for d in live:
                new = []
                for i in range(d.arity):
                    column = [c[0][i] for c in d.clauses]
                    if any(p[0] not in "v_" for p in column):
                        new.append(True)
                    else:
                        new.append(all(p[0] == "v" and p[1] in self.needs(c[1]) for p, c in zip(column, d.clauses)))
                if new != d.strict:
                    d.strict, changed = new, True

    def needs(self, e):
        """The variables that an expression's value surely needs."""
        kind = e[0]
        if kind == "l":
            return {e[1]}
        if kind in ("n", "lam"):
            return set()
        if kind == "g":
            d, args = e[1], e[2]
            if d.selector and len(args) >= d.arity:
                c, a, b = (self.needs(args[i]) for i in d.selector)
                return c | (a & b)
            out = set()
            for i, a in enumerate(args):
                if len(args) < d.arity or i >= d.arity or d.strict[i]:
                    out |= self.needs(a)
            return out
        if kind == "b" and e[1].name in CONDITIONALS and len(e[2]) == 3:
            c, a, b = map(self.needs, e[2])
            return c | (a & b)
        if kind == "b":
            args = e[2][:LAZY_TAIL.get(e[1].name, len(e[2]))]
            return set().union(*map(self.needs, args)) if args else set()
        if kind == "c":
            return set().union(*map(self.needs, e[2])) if e[2] else set()
        if kind == "a":
            return self.needs(e[1]).union(*map(self.needs, e[2]))
        if kind == "proj":
            return self.needs(e[1])
        if kind in ("rec", "tup"):
            return set().union(*map(self.needs, e[-1])) if e[-1] else set()
        if kind == "let":
            body = self.needs(e[3])
            return (body - {e[1]}) | (self.needs(e[2]) if e[1] in body else set())
        if kind == "elim":
            out = self.needs(e[1]) if e[1] is not None else set()
            cases = [self.needs(body) for _, body in e[2]]
            return out | set.intersection(*cases) if cases and e[1] is not None else out
        if kind == "where":
            return self.needs(e[2])
        raise Unread(kind)
