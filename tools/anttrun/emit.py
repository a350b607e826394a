"""Core expressions become Python text.

Arguments that a definition surely needs are computed before its call; others wait (`Thunk`), and so does a `let` that is
not surely needed.  Fields of constructors, records and tuples, and arguments of unknown functions, are computed at once.
antt's definitions all end, so this order changes the cost of a run and never its result.
"""
from .values import attr
from .strictness import CONDITIONALS, LAZY_TAIL
from .tokens import Unread, fail

CHEAP = {"◌+◌", "◌-◌", "◌*◌", "min", "max", "not", "ltb", "leb", "eqb"}


class Emit:
    """Writes Python for core expressions.  `env` says of each variable that may be a Thunk: env[v] is True."""

    def __init__(self, program, lines):
        self.p, self.lines = program, lines
        self.name = ""

    def line(self, ind, text):
        self.lines.append(ind + text)

    def label(self, text):
        self.p.labels.append(text)
        return len(self.p.labels) - 1

    def definition(self, d, ind, env=None):
        if d.arity == -1:
            return
        self.name = d.name
        params = [f"a{i}_{d.py}" for i in range(d.arity)]
        self.line(ind, f"def {d.py}({', '.join(params)}):")
        inner = ind + "    "
        for k, (patterns, body, tok) in enumerate(d.clauses):
            local = dict(env or {})
            tests, binds = [], []
            for x, p, strict in zip(params, patterns, d.strict):
                self.match(p, x, tests, binds, local, not strict)
            deeper = inner
            if tests:
                self.line(inner, f"if {' and '.join(tests)}:")
                deeper = inner + "    "
            for b in binds:
                self.line(deeper, b)
            if self.p.coverage:
                self.line(deeper, f"HITS[{self.label(f'{d.name} clause {k + 1} ({tok.where()})')}] += 1")
            self.tail(body, local, deeper)
            if not tests:
                break
        else:
            self.line(inner, f"raise RunError({('no clause of ' + d.name + ' fits')!r})")
        if d.arity == 0:
            self.line(ind, f"{d.py} = Thunk({d.py})")

    def match(self, p, x, tests, binds, env, lazy=False, go=None):
        """The tests and bindings of a pattern at the value that the text x gives."""
        kind = p[0]
        if kind == "v":
            binds.append(f"{p[1]} = {x}")
            env[p[1]] = lazy
        elif kind == "n":
            tests.append(f"{x} == {p[1]}")
        elif kind == "c":
            con = p[1]
            tests.append(con.test.format(x))
            for sub, part in zip(p[2], con.parts):
                self.match(sub, part.format(x), tests, binds, env, go=go)
        elif kind == "t":
            for i, sub in enumerate(p[1]):
                self.match(sub, f"{x}[{i}]", tests, binds, env, go=go)
        elif kind == "r":
            for f, sub in p[1]:
                self.match(sub, f"{x}.{attr(f)}", tests, binds, env, go=go)
        elif kind == "ih":
            self.match(p[1], x, tests, binds, env, go=go)
            if go is None:
                raise Unread("an induction hypothesis outside an elim")
            binds.append(f"{p[2]} = Thunk(lambda v=({x}): {go}(v))")
            env[p[2]] = True

    def tail(self, e, env, ind):
        """Statements that return the value of e."""
        kind = e[0]
        chosen = kind == "g" and len(e[2]) == e[1].arity and e[1].selector or kind == "b" and e[1].name in CONDITIONALS and len(e[2]) == 3 and (0, 1, 2)
        if chosen:
            c, a, b = (e[2][i] for i in chosen)
            self.line(ind, f"if {self.value(c, env, ind)}:")
            self.branch(e[3], "true", ind + "    ")
            self.tail(a, dict(env), ind + "    ")
            self.branch(e[3], "false", ind)
            self.tail(b, env, ind)
        elif kind == "let":
            v, value, body = e[1], e[2], e[3]
            if v in self.p.needs(body):
                self.line(ind, f"{v} = {self.value(value, env, ind)}")
                env[v] = False
            else:
                text, waits = self.later(value, env, ind)
                self.line(ind, f"{v} = {text}")
                env[v] = waits
            self.tail(body, env, ind)
        elif kind == "where":
            for d in e[1]:
                Emit(self.p, self.lines).definition(d, ind, env)
            self.tail(e[2], env, ind)
        else:
            self.line(ind, f"return {self.value(e, env, ind)}")

    def branch(self, tok, which, ind):
        if self.p.coverage:
            self.line(ind, f"HITS[{self.label(f'{self.name} {which} ({tok.where()})')}] += 1")

    def covered(self, tok, which, text):
        if self.p.coverage:
            return f"(hit({self.label(f'{self.name} {which} ({tok.where()})')}) or {text})"
        return text

    def force(self, v, env):
        return f"({v} if type({v}) is not Thunk else {v}.get())" if env.get(v) else v

    def value(self, e, env, ind):
        """Python text for the value of e; what it needs before it (functions, waiting lets) is written first."""
        kind = e[0]
        if kind == "l":
            return self.force(e[1], env)
        if kind == "n":
            return str(e[1])
        if kind == "g":
            return self.call(e, env, ind)
        if kind == "b":
            return self.applied(e[1].arity, e[1].text, e, env, ind)
        if kind == "c":
            con, args = e[1], e[2]
            if len(args) > con.arity:
                fail(e[3], "too many fields")
            return self.applied(con.arity, con.build, e, env, ind)
        if kind == "a":
            return self.value(e[1], env, ind) + "".join(f"({self.value(a, env, ind)})" for a in e[2])
        if kind == "proj":
            text = self.value(e[1], env, ind)
            return f"{text}[{e[2]}]" if e[2].isdigit() else f"{text}.{attr(e[2])}"
        if kind == "rec":
            return f"{e[1].PY}({', '.join(self.value(a, env, ind) for a in e[2])})"
        if kind == "tup":
            return f"({', '.join(self.value(a, env, ind) for a in e[1])},)"
        if kind == "lam":
            inner = dict(env)
            inner.update({v: False for v in e[1]})
            return self.function(e[1], e[2], inner, ind)
        if kind == "let":
            text, waits = self.later(e[2], env, ind)
            self.line(ind, f"{e[1]} = {text}")
            env[e[1]] = waits
            return self.value(e[3], env, ind)
        if kind == "elim":
            return self.elim(e, env, ind)
        if kind == "where":
            for d in e[1]:
                Emit(self.p, self.lines).definition(d, ind, env)
            return self.value(e[2], env, ind)
        raise Unread(kind)

    def function(self, params, body, env, ind):
        """A curried Python function; one lambda if its body needs no statements."""
        lines = []
        inner = Emit(self.p, lines)
        inner.name = self.name
        labels = len(self.p.labels)
        if body[0] not in ("let", "elim", "where"):
            text = inner.value(body, dict(env), ind + "    ")
            if not lines:
                return "(" + "".join(f"lambda {v}: " for v in params) + text + ")"
        del lines[:], self.p.labels[labels:]
        name = self.p.fresh("fun")
        for i, v in enumerate(params or [""]):
            self.line(ind + "    " * i, f"def {name}_{i}({v}):")
        deep = ind + "    " * max(len(params), 1)
        inner.tail(body, dict(env), deep)
        self.lines.extend(lines)
        for i in range(len(params) - 1, 0, -1):
            self.line(ind + "    " * i, f"return {name}_{i}")
        return f"{name}_0"

    def later(self, e, env, ind):
        """(text, may it be a Thunk): e, computed now only if that costs next to nothing."""
        if e[0] == "l":
            return e[1], bool(env.get(e[1]))
        if self.cheap(e, env):
            return self.value(e, env, ind), False
        return f"Thunk({self.function([], e, env, ind)})" if self.needs_def(e, env) else f"Thunk(lambda: {self.value(e, env, ind)})", True

    def needs_def(self, e, env):
        trial = []
        t = Emit(self.p, trial)
        labels = len(self.p.labels)
        t.value(e, dict(env), "")
        del self.p.labels[labels:]
        return bool(trial)

    def cheap(self, e, env):
        kind = e[0]
        if kind == "l":
            return not env.get(e[1])
        if kind in ("n", "lam"):
            return True
        if kind == "proj":
            return self.cheap(e[1], env)
        if kind in ("c", "rec", "tup"):
            return all(self.cheap(a, env) for a in (e[2] if kind != "tup" else e[1]))
        if kind == "b":
            return e[1].name in CHEAP and all(self.cheap(a, env) for a in e[2])
        if kind == "g":
            return 0 < e[1].arity and len(e[2]) < e[1].arity and all(self.cheap(a, env) for a in e[2])
        return False

    def applied(self, arity, text, e, env, ind):
        """A library function or constructor at its arguments, too few or too many as well."""
        args, tok = e[2], e[3]
        if len(args) >= arity:
            texts = []
            for i, a in enumerate(args[:arity]):
                t = self.value(a, env, ind)
                if e[0] == "b" and e[1].name in LAZY_TAIL and i:
                    t = self.covered(tok, f"{e[1].name} second" if arity == 2 else f"cond {i}", t)
                texts.append(t)
            return text.format(*texts) + "".join(f"({self.value(a, env, ind)})" for a in args[arity:])
        given = [self.p.fresh("p") for _ in args]
        wanted = [self.p.fresh("q") for _ in range(arity - len(args))]
        inner = "".join(f"lambda {w}: " for w in wanted) + text.format(*(given + wanted))
        if not args:
            return f"({inner})"
        return f"(lambda {', '.join(given)}: {inner})({', '.join(self.value(a, env, ind) for a in args)})"

    def call(self, e, env, ind):
        d, args, tok = e[1], e[2], e[3]
        n = d.arity
        if n == 0:
            return f"{d.py}.get()" + "".join(f"({self.value(a, env, ind)})" for a in args)
        if len(args) < n:
            return self.applied(n, f"{d.py}({', '.join('{%d}' % i for i in range(n))})", ("g", None, args, tok), env, ind)
        if d.selector:
            c, a, b = (args[i] for i in d.selector)
            c, a, b = self.value(c, env, ind), self.value(a, env, ind), self.value(b, env, ind)
            out = f"({self.covered(tok, 'true', a)} if {c} else {self.covered(tok, 'false', b)})"
        else:
            texts = [self.value(a, env, ind) if strict else self.later(a, env, ind)[0] for a, strict in zip(args, d.strict)]
            out = f"{d.py}({', '.join(texts)})"
        return out + "".join(f"({self.value(a, env, ind)})" for a in args[n:])

    def elim(self, e, env, ind):
        go, x = self.p.fresh("elim"), self.p.fresh("x")
        self.line(ind, f"def {go}({x}):")
        inner = ind + "    "
        for k, (p, body) in enumerate(e[2]):
            local, tests, binds = dict(env), [], []
            self.match(p, x, tests, binds, local, go=go)
            deeper = inner
            if tests:
                self.line(inner, f"if {' and '.join(tests)}:")
                deeper += "    "
            for b in binds:
                self.line(deeper, b)
            if self.p.coverage:
                self.line(deeper, f"HITS[{self.label(f'{self.name} elim case {k + 1}')}] += 1")
            self.tail(body, local, deeper)
        self.line(inner, f"raise RunError({('no case of an elim in ' + self.name + ' fits')!r})")
        return go if e[1] is None else f"{go}({self.value(e[1], env, ind)})"
