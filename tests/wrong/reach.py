"""What a declaration in the specs and proofs of a crate rests on, by the words of its text: a word stands for a declaration of the same file, or for what a `use`
line brings. It may find more than that, and nothing less; a text that it does not understand is Unclear. A tactic that picks lemmas may pick all that its file has."""
import functools
import os
import re

WORD = re.compile(r"[^\s(){}\[\],;.«»]+")
USE = re.compile(r"\s*(?:pub )?use (\S*?)\.?(\{.*\})?(?: as .*)?$")
BEFORE_A_NAME = ("pub", "abbrev", "unfoldable", "record", "data", "ruleset")
PICKING = {"search", "grind", "simp", "auto"}


class Unclear(Exception):
    pass


def words_of(text):
    return set(WORD.findall(text))


def owned_lines(text):
    """The lines of a file's declarations: the declaration's name, the line and its words. In a module within the file a declaration stands further in, and rests
    on the module's parameters."""
    name, modules = None, []
    for line in text.split("\n"):
        bare = line.strip()
        if not bare or bare.startswith("--") or USE.match(line):
            continue
        indent, goes_on = len(line) - len(line.lstrip()), bare[0] in "}])" or bare.split()[0] in ("unfolding", "where")
        while modules and indent <= modules[-1][0] and not goes_on:
            modules.pop()
        if bare.startswith("module "):
            modules.append((indent, words_of(line)))
            continue
        if indent == (modules[-1][0] + 2 if modules else 0) and not goes_on:
            name = next(word for word in WORD.findall(bare) if word not in BEFORE_A_NAME)
        if name in (None, "use") or "◌" in name:
            raise Unclear(line)     # an import over several lines; an operator of the crate's own, whose name no text has
        yield name, line, words_of(line).union(*(words for _, words in modules))


class Crate:
    def __init__(self, folder):
        self.folder, self.name = folder, os.path.basename(folder)

    def text(self, path):
        if not path.endswith(".antt"):
            raise Unclear(path)
        with open(os.path.join(self.folder, path), encoding="utf-8") as file:
            return file.read()

    @functools.cache
    def declarations(self, path):
        """The declarations of a file, each with its words."""
        found = {}
        for name, _, words in owned_lines(self.text(path)):
            found.setdefault(name, set()).update(words)
        return found

    @functools.cache
    def imports(self, path):
        """The words that a file imports from its own crate, each with the declarations that it stands for."""
        found = {}
        for line in self.text(path).split("\n"):
            use = USE.match(line)
            if not use or not f"{use[1]}.".startswith(f"Rattle.{self.name}."):
                continue
            module = "/".join(use[1].split(".")[2:]) + ".antt"
            if not use[2] or not os.path.exists(os.path.join(self.folder, module)):
                raise Unclear(line)     # a whole module, or one that is made of the code
            there = self.declarations(module)
            for item in use[2].strip("{}").split(","):
                name, _, here = item.strip().partition(" as ")
                speak = {(module, name)} if name in there else {(module, one) for one in there if name in there[one]}     # as of a variant
                found[here or name] = speak | self.imports(module).get(name, set())
                if not found[here or name]:
                    raise Unclear(line)
        return found

    def rests(self, path, name, changed):
        """Whether a declaration, or the field of one, may rest on what is changed."""
        try:
            return not self.reached(path + ".antt", name.split(".")[0], changed).isdisjoint(changed)
        except Unclear:
            return True

    def changed(self, replacements):
        """The declarations that replacements change, each with its new words."""
        found = {}
        for path, old, new in replacements:
            names = {name for name, line, _ in owned_lines(self.text(path)) if old in line}
            if not names:
                raise Unclear(old)      # as of an import
            for name in names:
                found.setdefault((path, name), set()).update(words_of(new))
        return found

    def reached(self, path, name, changed):
        """What a declaration rests on, itself among it, before and after a change."""
        if name not in self.declarations(path):
            raise Unclear(f"{path} {name}")
        seen, left = set(), [(path, name)]
        while left:
            at = left.pop()
            if at in seen:
                continue
            seen.add(at)
            known, imports = self.declarations(at[0]), self.imports(at[0])
            words = known[at[1]] | changed.get(at, set())
            if words & PICKING:
                words = words | set(known) | set(imports)
            left += [(at[0], word) for word in words if word in known]
            left += [one for word in words if word in imports for one in imports[word]]
        return seen


crate = functools.cache(Crate)


def apart(one, other):
    """Whether two edits of laws, each by what it changes and what its fact rests on, may be checked at once: neither reaches the other's fact."""
    return not set(one[0]) & other[1] and not set(other[0]) & one[1]
