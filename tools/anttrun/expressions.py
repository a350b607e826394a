"""antt's expressions.

Expressions are tuples whose first element says what they are:
  ("name", [part, ..], tok)          a name, or a path or tight projections  a.b.c
  ("num", n)                         a numeral
  ("app", f, [arg, ..])              application; an operator's use is the application of its full name
  ("proj", e, field)                 e .field
  ("lam", [binder, ..], body)        λ x y. body
  ("let", binder, e, body)
  ("record", [(field, e), ..])
  ("tuple", [e, ..])
  ("elim", e or None, [(pattern, e), ..])
Patterns are read as expressions; `(n → ih)` is ("ih", name, name).
Binders of λ and let are ("name", ..), ("tuple", ..) or ("record", ..) of names; `_` is the name "_".
"""
from dataclasses import dataclass

from .tokens import RESERVED, fail


@dataclass
class Op:
    """An operator in scope: its name there, its parts (empty where a name begins or ends with `◌`), its fixity."""
    name: str
    assoc: str
    level: int

    def __post_init__(self):
        self.parts = self.name.split("◌")
        self.words = [p for p in self.parts if p]


class Ops:
    """The operators in scope, by their first word."""

    def __init__(self):
        self.infix, self.prefix, self.words = {}, {}, set()

    def add(self, name, fixity):
        op = Op(name, *fixity)
        table = self.infix if op.parts[0] == "" else self.prefix
        table[op.words[0]] = op
        self.words.update(op.words)


class Parser:
    def __init__(self, toks, ops, at):
        self.toks, self.ops, self.i, self.at = toks, ops, 0, at

    def peek(self):
        return self.toks[self.i] if self.i < len(self.toks) else None

    def next(self):
        if self.i >= len(self.toks):
            fail(self.at, "an expression ends too early")
        self.i += 1
        return self.toks[self.i - 1]

    def expect(self, text):
        t = self.next()
        if not t.is_(text):
            fail(t, f"expected `{text}`")
        return t

    def sees(self, *texts):
        t = self.peek()
        return t is not None and t.is_(*texts)

    def whole(self):
        e = self.expr(0)
        if self.peek() is not None:
            fail(self.peek(), "the expression should end here")
        return e

    def expr(self, least=0):
        left = self.operand()
        while True:
            t = self.peek()
            if t is None or t.plain or t.kind != "name":
                return left
            op = self.ops.infix.get(t.text)
            if op is None or op.level < least:
                return left
            if self.i + 1 < len(self.toks) and self.toks[self.i + 1].is_(")") and op.parts[-1] == "":
                fail(t, "an operator without its right side")
            self.next()
            left = ("app", ("name", [op.name], t), [left] + self.holes(op))

    def holes(self, op):
        """The operands after an operator's first word."""
        args = []
        for word in op.words[1:]:
            args.append(self.expr(0))
            self.expect(word)
        if op.parts[-1] == "":
            args.append(self.expr(op.level if op.assoc == "infixr" else op.level + 1))
        return args

    def operand(self):
        t = self.peek()
        if t is None:
            fail(self.at, "an expression ends too early")
        if t.is_("λ", "let", "elim", "do", "unfold"):
            return self.binding()
        if t.kind == "name" and not t.plain and t.text in self.ops.prefix:
            op = self.ops.prefix[self.next().text]
            return ("app", ("name", [op.name], t), self.holes(op))
        return self.application()

    def starts_atom(self, t):
        if t is None:
            return False
        if t.kind == "num" or t.plain or t.is_("(", "record"):
            return True
        if t.kind != "name" or t.text in RESERVED or t.text in self.ops.words:
            return False
        return not (t.text.endswith("◌") and t.text[:-1] in self.ops.infix)     # the `+◌` of a section

    def application(self):
        if not self.starts_atom(self.peek()):
            fail(self.peek(), "no expression begins so")
        e = self.atom()
        args = []

        def done():
            return ("app", e, args) if args else e

        while True:
            t = self.peek()
            if t is None:
                return done()
            if t.kind == "dot" and not t.tight:
                self.next()
                name = self.next()
                if not name.tight or name.kind not in ("name", "num"):
                    fail(name, "a projection")
                e, args = ("proj", done(), name.text), []
            elif t.is_("{"):
                self.skip_braces()
            elif t.is_("λ", "let", "elim", "do"):
                args.append(self.binding())
                return done()
            elif self.starts_atom(t):
                args.append(self.atom())
            else:
                return done()

    def skip_braces(self):
        """Implicit arguments and levels play no part in a run."""
        depth = 0
        while True:
            t = self.next()
            depth += t.is_("{") - t.is_("}")
            if depth == 0:
                return

    def atom(self):
        t = self.next()
        if t.kind == "num":
            return ("num", int(t.text.replace("_", ""), 0) if t.text[:1] == "0" and len(t.text) > 1 and not t.text.isdigit()
                    else int(t.text.replace("_", "")))
        if t.is_("("):
            return self.projected(self.parens(t))
        if t.is_("record"):
            return self.projected(self.record())
        parts = [t.text]
        while True:     # a tight dot: a path, or projections of a name
            d = self.peek()
            after = self.toks[self.i + 1] if self.i + 1 < len(self.toks) else None
            if d is None or d.kind != "dot" or not d.tight or after is None or not after.tight or after.kind == "punct":
                return ("name", parts, t)
            self.next()
            parts.append(self.next().text)

    def projected(self, e):
        """A tight dot behind a bracket: (f x).a"""
        while self.i + 1 < len(self.toks) and self.toks[self.i].kind == "dot" and self.toks[self.i].tight and self.toks[self.i + 1].tight:
            self.next()
            name = self.next()
            if name.kind not in ("name", "num"):
                fail(name, "a projection")
            e = ("proj", e, name.text)
        return e

    def parens(self, start):
        t = self.peek()
        if t.kind == "name" and not t.plain and t.text.startswith("◌") and t.text[1:] in self.ops.infix:
            op = self.ops.infix[self.next().text[1:]]       # (◌+ 1)
            right = self.expr(0)
            self.expect(")")
            x = ("name", ["«section»"], t)
            return ("lam", [x], ("app", ("name", [op.name], t), [x, right]))
        parts = [self.expr(0)]
        t = self.peek()
        if t is not None and t.kind == "name" and t.text.endswith("◌") and t.text[:-1] in self.ops.infix:
            op = self.ops.infix[self.next().text[:-1]]      # (1 +◌)
            self.expect(")")
            return ("app", ("name", [op.name], t), parts)
        if self.sees("→"):                                  # (n → ih)
            self.next()
            ih = self.next()
            self.expect(")")
            return ("ih", parts[0], ih.text)
        while self.sees(","):
            self.next()
            parts.append(self.expr(0))
        self.expect(")")
        return parts[0] if len(parts) == 1 else ("tuple", parts)

    def record(self):
        self.expect("{")
        fields = []
        while not self.sees("}"):
            name = self.next()
            self.expect("=")
            fields.append((name.text, self.expr(0)))
            if self.sees(";"):
                self.next()
        self.expect("}")
        return ("record", fields)

    def skip_type(self, *ends):
        depth = 0
        while not (depth == 0 and self.sees(*ends)):
            t = self.next()
            depth += t.is_("(", "{") - t.is_(")", "}")

    def binder(self):
        if self.sees("("):
            self.next()
            parts = [self.binder()]
            if self.sees(":"):
                self.skip_type(")")
            while self.sees(","):
                self.next()
                parts.append(self.binder())
            self.expect(")")
            return parts[0] if len(parts) == 1 else ("tuple", parts)
        if self.sees("record"):
            self.next()
            self.expect("{")
            fields = []
            while not self.sees("}"):
                name = self.next().text
                self.expect("=")
                fields.append((name, self.binder()))
                if self.sees(";"):
                    self.next()
            self.expect("}")
            return ("record", fields)
        t = self.next()
        if t.kind != "name" or (t.text in RESERVED and not t.plain):
            fail(t, "a binder")
        return ("name", [t.text], t)

    def binding(self):
        t = self.next()
        if t.is_("λ"):
            binders = []
            while self.peek() is not None and self.peek().kind != "dot":
                binders.append(self.binder())
            self.next()
            return ("lam", binders, self.expr(0))
        if t.is_("let"):
            binder = self.binder()
            if self.sees(":"):
                self.skip_type("=")
            self.expect("=")
            value = self.expr(0)
            self.expect("in")
            return ("let", binder, value, self.expr(0))
        if t.is_("elim"):
            scrutinee = None
            if not self.sees("["):
                scrutinee = self.expr(0)
            if self.sees("as"):
                self.skip_type("[")
            self.expect("[")
            cases = []
            while not self.sees("]"):
                pattern = self.expr(0)
                self.expect("↦")
                cases.append((pattern, self.expr(0)))
                if not self.sees("]"):
                    self.expect("|")
            self.expect("]")
            return ("elim", scrutinee, cases)
        if t.is_("unfold"):
            while not self.sees("in"):
                self.next()
            self.next()
            return self.expr(0)
        fail(t, "not supported")
