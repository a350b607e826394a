"""Names are resolved: declarations become core expressions and patterns.

Core expressions:
  ("l", v)  ("n", int)  ("g", Defn, args, tok)  ("b", Builtin, args, tok)  ("c", Con, args, tok)  ("a", f, args)
  ("proj", e, field)  ("lam", [v], body)  ("let", v, e, body)  ("rec", cls, [e])  ("tup", [e])
  ("elim", e or None, [(pattern, body)])  ("where", [Defn], body)
Core patterns: ("v", v)  ("_",)  ("n", int)  ("c", Con, [p])  ("t", [p])  ("r", [(field, p)])  ("ih", p, v)
"""
from .entities import Defn, Skipped, TypeName, Unknown
from .expressions import Parser
from .values import SUPPLIED, Builtin, Con, Kind
from .tokens import Unread, depths, fail, find, split


class Resolver:
    """The part of a `Program` that reads definitions."""

    # ------------------------------------------------------------ which definitions run

    def runs(self, toks, scope, at):
        """Can values of this type be computed: is it no law, no type?"""
        bound = set()
        for i, (t, d) in enumerate(depths(toks)):
            if t.is_(":") and d:
                while i and toks[i - 1].kind == "name":
                    i -= 1
                    bound.add(toks[i].text)
        result = split(toks, "→")[-1]
        while result and result[0].is_("(") and result[-1].is_(")") and all(d for _, d in list(depths(result))[1:-1]):
            inner = result[1:-1]
            colon = find(inner, ":")
            result = split(inner[colon + 1:] if colon is not None else inner, "→")[-1]
        parts = split(result, "×")
        if len(parts) > 1:
            return all(self.runs(p, scope, at) for p in parts)
        if not result:
            fail(at, "a type that cannot be read")
        for t, d in depths(result):
            entity = scope.names.get(f"◌{t.text}◌") if d == 0 else None
            if isinstance(entity, Kind):
                return entity.runs
            if isinstance(entity, Unknown):
                fail(t, f"{entity.name} is a library name that this interpreter does not know")
            if d == 0 and t.is_("≡", "≤", "<", "↔", "≢"):
                return False
        head = result[0].text
        if result[0].is_("Type"):
            return False
        if head in scope.names:
            entity = scope.names[head]
            if isinstance(entity, Kind):
                return entity.runs
            fail(result[0], "a type that is not known here")
        if isinstance(scope.names.get(f"{head}◌"), Kind):
            return scope.names[f"{head}◌"].runs
        if head in bound:
            return True
        fail(result[0], "a type that is not known")

    def head(self, d):
        """Sets a definition's arity, or skips it."""
        tok = d.decl.tok
        if not self.runs(d.decl.sig, d.scope, tok):
            d.arity = -1
            self.skipped.append((d.name, "a law"))
            for names in (d.scope.own, d.scope.names):
                names[d.decl.name] = Skipped(d.name, "a law")
            return
        self.lefts(d)

    def lefts(self, d):
        d.lefts = []
        for c in d.decl.clauses:
            e = Parser(c.left, d.scope.ops, c.left[0]).whole()
            f, args = (e[1], e[2]) if e[0] == "app" else (e, [])
            if f[0] != "name" or f[1] != [d.decl.name]:
                fail(c.left[0], f"a clause of {d.decl.name} was expected")
            d.lefts.append(args)
        if len({len(a) for a in d.lefts}) != 1:
            fail(d.decl.tok, "clauses of different lengths")
        d.arity = len(d.lefts[0])
        d.strict = [True] * d.arity

    # ------------------------------------------------------------ resolving

    def resolve_def(self, d, env=None):
        if d.arity == -1:
            return
        d.clauses = []
        for left, c in zip(d.lefts, d.decl.clauses):
            inner = dict(env or {})
            seen = set()
            patterns = [self.pattern(p, inner, d.scope, seen) for p in left]
            helpers = []
            for h in c.where:
                if split(h.sig, "→")[-1][0].is_("Type"):
                    continue
                defn = Defn(f"{d.name}.{h.name}", h, d.scope, self.fresh(h.name))
                defn.local = True
                if not self.runs(h.sig, d.scope, h.tok):
                    continue
                self.lefts(defn)
                inner[h.name] = defn
                self.resolve_def(defn, inner)
                helpers.append(defn)
            right = Parser(c.right, d.scope.ops, c.left[0]).whole()
            body = self.resolve(right, inner, d.scope)
            d.clauses.append((patterns, ("where", helpers, body) if helpers else body, c.left[0]))
        d.selector = self.selects(d)

    def selects(self, d):
        """(column, argument if true, argument if false), for a definition like if◌then◌else◌."""
        if len(d.clauses) != 2:
            return None
        found = {}
        for patterns, body, _ in d.clauses:
            cons = [i for i, p in enumerate(patterns) if p[0] == "c"]
            if len(cons) != 1 or patterns[cons[0]][1].name not in ("true", "false") or body[0] != "l" or any(p[0] not in "cv" for p in patterns):
                return None
            places = [i for i, p in enumerate(patterns) if p == ("v", body[1])]
            if not places:
                return None
            found[patterns[cons[0]][1].name] = (cons[0], places[0])
        if set(found) != {"true", "false"} or found["true"][0] != found["false"][0]:
            return None
        return (found["true"][0], found["true"][1], found["false"][1])

    def bind(self, name, env, seen, tok):
        if name in seen:
            fail(tok, f"{name} is bound twice")
        seen.add(name)
        env[name] = ("v", self.fresh(name))
        return env[name][1]

    def pattern(self, e, env, scope, seen):
        if e[0] == "num":
            return ("n", e[1])
        if e[0] == "tuple":
            return ("t", [self.pattern(p, env, scope, seen) for p in e[1]])
        if e[0] == "record":
            return ("r", [(f, self.pattern(p, env, scope, seen)) for f, p in e[1]])
        if e[0] == "ih":
            p = self.pattern(e[1], env, scope, seen)
            env[e[2]] = ("v", self.fresh(e[2]))
            return ("ih", p, env[e[2]][1])
        f, args = (e[1], e[2]) if e[0] == "app" else (e, [])
        if f[0] != "name":
            raise Unread(f"{scope.key[1]}: a pattern that cannot be read: {e}")
        con = self.lookup(f[1], scope) if len(f[1]) > 1 or f[1][0] in scope.names else None
        if isinstance(con, Con):
            if con.arity != len(args):
                fail(f[2], f"{con.name} has {con.arity} fields")
            return ("c", con, [self.pattern(p, env, scope, seen) for p in args])
        if args or len(f[1]) > 1:
            fail(f[2], "no constructor")
        if f[1][0] == "_":
            return ("_",)
        if f[1][0] in self.all_cons:
            self.warnings.append(f"{f[2].where()}: a variable spelled like a constructor: {f[1][0]}")
        return ("v", self.bind(f[1][0], env, seen, f[2]))

    def lookup(self, parts, scope):
        """The entity that a name or path means, or None."""
        if len(parts) == 1:
            return scope.names.get(parts[0])
        first = scope.names.get(parts[0])
        if isinstance(first, TypeName) and parts[1] in first.members:
            return first.members[parts[1]]
        if isinstance(first, Kind):
            for library in SUPPLIED.values():
                if library.get(parts[0]) is first and isinstance(library.get(parts[1]), Con):
                    return library[parts[1]]
        if parts[0] in scope.aliases and len(parts) == 2:
            module = scope.aliases[parts[0]]
            if isinstance(module, str):
                return SUPPLIED.get(module, {}).get(parts[1], Unknown(f"{module}.{parts[1]}"))
            return self.scope(*module).own.get(parts[1])
        return None

    def resolve(self, e, env, scope):
        kind = e[0]
        if kind == "num":
            return ("n", e[1])
        if kind == "name":
            return self.resolve_name(e, env, scope)
        if kind == "app":
            f = self.resolve(e[1], env, scope)
            args = [self.resolve(a, env, scope) for a in e[2]]
            if f[0] in "gbc":
                return (f[0], f[1], f[2] + args, f[3])
            return ("a", f, args)
        if kind == "proj":
            return ("proj", self.resolve(e[1], env, scope), e[2])
        if kind == "tuple":
            return ("tup", [self.resolve(x, env, scope) for x in e[1]])
        if kind == "record":
            return self.resolve_record(e, env, scope)
        if kind == "lam":
            inner, names, wraps = dict(env), [], []
            for b in e[1]:
                v = self.fresh("x")
                names.append(v)
                wraps += self.binder(b, ("l", v), inner)
            return ("lam", names, self.wrapped(wraps, self.resolve(e[2], inner, scope)))
        if kind == "let":
            inner, v = dict(env), self.fresh("let")
            value = self.resolve(e[2], env, scope)
            wraps = self.binder(e[1], ("l", v), inner)
            return ("let", v, value, self.wrapped(wraps, self.resolve(e[3], inner, scope)))
        if kind == "elim":
            cases = []
            for p, body in e[2]:
                inner = dict(env)
                pattern = self.pattern(p, inner, scope, set())
                cases.append((pattern, self.resolve(body, inner, scope)))
            return ("elim", self.resolve(e[1], env, scope) if e[1] is not None else None, cases)
        raise Unread(f"{scope.key[1]}: an expression that cannot be read: {kind}")

    def binder(self, b, value, env):
        """Binds a λ's or let's binder to a value; the lets that take it apart."""
        if b[0] == "name":
            if b[1][0] == "_":
                return []
            if value[0] == "l":
                env[b[1][0]] = ("v", value[1])
                return []
            v = self.fresh(b[1][0])
            env[b[1][0]] = ("v", v)
            return [(v, value)]
        parts = enumerate(b[1]) if b[0] == "tuple" else b[1]
        return [w for f, p in parts for w in self.binder(p, ("proj", value, str(f)), env)]

    @staticmethod
    def wrapped(wraps, body):
        for v, value in reversed(wraps):
            body = ("let", v, value, body)
        return body

    def resolve_name(self, e, env, scope):
        parts, tok = e[1], e[2]
        if parts[0] in env:
            local = env[parts[0]]
            out, rest = (("g", local, [], tok) if isinstance(local, Defn) else ("l", local[1])), parts[1:]
        else:
            entity, rest = self.lookup(parts, scope), []
            if entity is None:
                entity, rest = scope.names.get(parts[0]), parts[1:]
            if entity is None:
                fail(tok, f"the name {'.'.join(parts)} is not known")
            if isinstance(entity, Skipped) or (isinstance(entity, Defn) and entity.arity == -1):
                fail(tok, f"{entity.name} is not run, but stands in what is")
            if isinstance(entity, Unknown):
                fail(tok, f"{entity.name} is a library name that this interpreter does not know")
            if isinstance(entity, Kind):
                fail(tok, f"the type {entity.name} stands where a value is computed")
            out = ({Defn: "g", Builtin: "b", Con: "c"}[type(entity)], entity, [], tok)
        for f in rest:
            out = ("proj", out, f)
        return out

    def resolve_record(self, e, env, scope):
        fields = dict(e[1])
        if len(fields) != len(e[1]):
            raise Unread(f"{scope.key[1]}: a record with a field twice: {[f for f, _ in e[1]]}")
        key = frozenset(fields)
        if key not in self.records:
            raise Unread(f"{scope.key[1]}: no record has exactly the fields {sorted(fields)}")
        cls = self.records[key][0]
        return ("rec", cls, [self.resolve(fields[f], env, scope) for f in cls.FIELDS])
