"""A crate's specifications as a running program: modules are read, definitions become Python functions."""
import os
import sys

from . import declared
from .declarations import Data, Record, read_module
from .emit import Emit
from .entities import Defn, Scope, Skipped, TypeName, Unknown, remember
from .expressions import Parser
from .values import FIXITIES, SUPPLIED, NAMES, Con, Kind, attr, con_class, inward, outward, record_class
from .resolve import Resolver
from .strictness import Strictness
from .tokens import Unread, fail, split, tokens

sys.setrecursionlimit(1_000_000)


class Program(Resolver, Strictness):
    def __init__(self, specs, coverage=False, memo=()):
        specs = os.path.normpath(specs)
        if os.path.basename(specs) != "specs":
            raise Unread(f"{specs}: not a crate's specs directory")
        self.crates, self.crate = os.path.split(os.path.dirname(os.path.abspath(specs)))
        self.scopes, self.defs, self.records, self.skipped, self.warnings = {}, [], {}, [], []
        self.count, self.space, self.declared = 0, dict(NAMES), {}
        self.coverage, self.labels = coverage, []
        self.all_cons = set()
        self.roots(self.crate)
        for d in self.defs:
            self.head(d)
        for d in self.defs:
            self.resolve_def(d)
        self.strictness()
        lines = []
        for d in self.defs:
            Emit(self, lines).definition(d, "")
        self.source = "\n".join(lines) + "\n"
        self.hits = [0] * len(self.labels)
        self.space["HITS"] = self.hits
        self.space["hit"] = self.hit
        exec(compile(self.source, f"<antt {self.crate}>", "exec"), self.space)
        for name in memo:
            path, _, last = name.rpartition(".")
            py = self.scopes[self.crate, path].own[last].py
            self.space[py] = remember(self.space[py])

    # ------------------------------------------------------------ for users

    def __getitem__(self, name):
        """A definition (called with all its arguments), a constructor, or a record's maker, named as on a use line: of this crate
        `m["specs.Base.place"]`, of another `m["Rattle.ident.specs.Number.place"]`, of the code
        `m["Rattle.ident.specs.declared.Kind.TheVariants.Txid"]`."""
        path, _, last = name.rpartition(".")
        crate, module = self.find_module(path) if name.startswith("Rattle.") else (self.crate, path)
        if module.startswith("specs.declared."):
            own = {}
            self.use_declared(own, crate, module, [(last, last)], None)
        else:
            own = self.scopes[crate, module].own if self.scopes.get((crate, module)) else {}
        if last not in own:
            raise KeyError(name)
        return self.wrap(own[last], name)

    def wrap(self, entity, name):
        if isinstance(entity, Skipped):
            raise KeyError(f"{name} is not run: {entity.reason}")
        if isinstance(entity, Con):
            if entity.arity == 0:
                return eval(entity.build, self.space)
            build = eval(f"lambda *a: {entity.build.format(*(f'a[{i}]' for i in range(entity.arity)))}", self.space)
            return lambda *args: build(*map(inward, args))
        if isinstance(entity, TypeName):
            cls = entity.cls
            names = [attr(f) for f in cls.FIELDS]

            def make(*args, **fields):
                if args:
                    fields.update(zip(names, args))
                if set(fields) != set(names):
                    raise TypeError(f"{name} has the fields {names}")
                return cls(*(inward(fields[n]) for n in names))
            return make
        f, n = self.space[entity.py], entity.arity
        if n == 0:
            return outward(f.get())

        def call(*args):
            if len(args) < n:
                raise TypeError(f"{name} takes {n} arguments")
            r = f(*map(inward, args[:n]))
            for a in args[n:]:
                r = r(inward(a))
            return outward(r)
        call.raw = f      # on the run's own values, with nothing turned
        return call

    def names(self):
        """All definitions that run."""
        return [d.name for d in self.defs if not d.local]

    def eval(self, module, text):
        """The value of an antt expression, read in a module such as "specs.Base"."""
        scope = self.scopes[self.crate, module]
        toks = tokens(text, "<expression>")
        e = self.resolve(Parser(toks, scope.ops, toks[0]).whole(), {}, scope)
        lines = ["def expression_():"]
        Emit(self, lines).tail(e, {}, "    ")
        self.hits.extend([0] * (len(self.labels) - len(self.hits)))
        exec("\n".join(lines), self.space)
        return outward(self.space["expression_"]())

    def hit(self, i):
        self.hits[i] += 1

    def unreached(self):
        """With coverage: the clauses and branches that no run has entered."""
        return [label for label, n in zip(self.labels, self.hits) if not n]

    # ------------------------------------------------------------ modules

    def fresh(self, name):
        self.count += 1
        return f"{''.join(c if c.isascii() and c.isalnum() else '_' for c in name)}_{self.count}"

    def roots(self, crate):
        self.scope(crate, "specs", "Lib.antt")

    def scope(self, crate, path, file=None):
        """The scope of a module, read when first asked for."""
        key = (crate, path)
        if key in self.scopes:
            if self.scopes[key] is None:
                raise Unread(f"{path}: modules use each other")
            return self.scopes[key]
        self.scopes[key] = None
        base = os.path.join(self.crates, crate)
        where = os.path.join(base, "specs", file) if file else os.path.join(base, *path.split(".")) + ".antt"
        short = os.path.relpath(where, self.crates)
        if not os.path.exists(where):
            raise Unread(f"{short}: no such module")
        with open(where, encoding="utf-8") as f:
            module = read_module(f.read(), short)
        scope = Scope(key)
        for name, entity in SUPPLIED["Prim"].items():
            scope.names[name] = entity
        scope.fixities.update({n: FIXITIES[n] for n in scope.names if n in FIXITIES})
        self.scopes[key] = scope
        for used in module.uses:
            self.use(scope, used)
        for name in module.passed:
            scope.own[name] = scope.names[name]
        for name, fixity in module.fixities.items():
            scope.fixities[name] = fixity
        for d in module.decls:
            self.declare(scope, d)
        for name, fixity in scope.fixities.items():
            if "◌" in name:
                scope.ops.add(name, fixity)
        for child in module.mods:
            self.scope(crate, f"{path}.{child}")
        return scope

    def find_module(self, path):
        """(crate, module) of a use line's path, or a library module's name."""
        first, *rest = path.split(".", 2)
        if first == "Rattle" and path not in SUPPLIED and len(rest) == 2:
            return tuple(rest)
        return path

    def use(self, scope, used):
        path, names, alias, tok = used
        module = self.find_module(path)
        if ".declared." in path:
            self.use_declared(scope.names, *module, names, tok)
            return
        if names is None:
            scope.aliases[alias] = module
            return
        for name, local in names:
            entity, fixity = self.member(module, name, tok)
            scope.names[local] = entity
            if fixity:
                scope.fixities[local] = fixity

    # ------------------------------------------------------------ types that the code declares

    def use_declared(self, names, crate, path, wanted, tok):
        """`specs.declared.T.{T}` and, for an enum, `specs.declared.T.TheVariants.{V, ..}`; the code's module stands before T."""
        parts = path.split(".")[2:]
        rest = [parts.pop()] if parts[-1] == "TheVariants" else []
        name = parts[-1]
        kind = self.declared_type(crate, name)
        known = {} if kind is None else kind.members if rest else {name: kind}
        for given, local in wanted or []:
            if given in known:
                names[local] = known[given]
            elif tok is not None:
                fail(tok, f"the code of {crate} declares no {'.'.join([name, *rest, given])}")

    def declared_type(self, crate, name):
        if (crate, name) not in self.declared:
            enums, structs = declared.read(os.path.join(self.crates, crate, "src"))
            kind = TypeName(name, lambda: True)
            if name in enums:
                kind.members.update({v: self.constructor(v, arity) for v, arity in enums[name]})
            elif name in structs:
                kind.cls = self.record(name, structs[name], kind)
            else:
                return None
            self.declared[crate, name] = kind
        return self.declared[crate, name]

    def member(self, module, name, tok):
        if isinstance(module, str):
            known = SUPPLIED.get(module, {})
            return (known[name], FIXITIES.get(name)) if name in known else (Unknown(f"{module}.{name}"), None)
        target = self.scope(*module)
        if name not in target.own:
            fail(tok, f"{module[1]} has no {name}")
        return target.own[name], target.fixities.get(name)

    def constructor(self, name, arity):
        py = self.fresh("C_" + name)
        cls = self.space[py] = con_class(name)
        self.all_cons.add(name)
        if arity == 0:
            self.space[py + "_"] = cls()
            return Con(name, 0, py + "_", "{0} is " + py + "_", [])
        holes = ", ".join("{%d}" % i for i in range(arity))
        return Con(name, arity, f"{py}({holes})", "type({0}) is " + py, ["{0}.args[%d]" % i for i in range(arity)])

    def record(self, name, fields, kind):
        """The class of the records with these fields, one for all types that have them."""
        key = frozenset(fields)
        if key not in self.records:
            cls = record_class(name, fields)
            cls.PY = f"R{len(self.records) + 1}"
            self.records[key] = (cls, kind)
            self.space[cls.PY] = cls
        return self.records[key][0]

    def declare(self, scope, d):
        def put(name, entity):
            if name in scope.own:
                fail(d.tok, f"{name} is declared twice")
            scope.own[name] = scope.names[name] = entity

        if isinstance(d, Data):
            members = {}
            put(d.name, TypeName(d.name, lambda: True, members))
            for name, arity, tok in d.cons:
                members[name] = self.constructor(name, arity)
                put(name, members[name])
        elif isinstance(d, Record):
            kind = TypeName(d.name, lambda: all(self.runs(t, scope, d.tok) for _, t in d.fields))
            put(d.name, kind)
            kind.cls = self.record(d.name, [f for f, _ in d.fields], kind)
        elif split(d.sig, "→")[-1][0].is_("Type"):
            rights = [c.right for c in d.clauses]
            put(d.name, TypeName(d.name, lambda: len(rights) == 1 and self.runs(rights[0], scope, d.tok)))
            self.skipped.append((f"{scope.key[1]}.{d.name}", "a type"))
        else:
            defn = Defn(f"{scope.key[1]}.{d.name}", d, scope, self.fresh(d.name))
            put(d.name, defn)
            self.defs.append(defn)
