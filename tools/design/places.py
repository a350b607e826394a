"""places.py [-l] [ROOT]: counts the places that docs/DESIGN-PASS.md speaks of, point by point, in crates/*/src (and proofs/, for the last) below ROOT, by default here. -l lists them."""
import collections
import glob
import os
import re
import sys

CLAUSES = ("requires", "ensures", "ghost")
RUST = set("fn pub let mut if else match while for in return as struct enum impl use mod const true false self Self loop break".split())


def files(root):
    return sorted(glob.glob(os.path.join(root, "crates/*/src/**/*.rt"), recursive=True))


def functions(path):
    """Each function of a file: its line, name, signature, clauses, body lines."""
    lines = open(path, encoding="utf-8").read().split("\n")
    at = 0
    while at < len(lines):
        head = re.match(r"^(\s*)(?:pub(?:\([a-z]+\))? )?(?:unsafe )?(?:extern \"C\" )?fn ([a-z_0-9]+)", lines[at])
        if not head:
            at += 1
            continue
        begin, depth, signature, clauses = at, 0, "", []
        while at < len(lines) and lines[at] != head.group(1) + "{":
            words = lines[at].strip()
            if words.endswith(";") and not clauses and at == begin:
                break
            if words.startswith(CLAUSES) or clauses:
                clauses.append(words)
            else:
                signature += " " + words
                if signature.count("{") > signature.count("}"):
                    break
            at += 1
        body = []
        while at < len(lines) and lines[at] != head.group(1) + "}":
            body.append(lines[at].strip())
            at += 1
        yield begin + 1, head.group(2), signature.strip(), clauses, [line for line in body[1:] if line and not line.startswith("//")]
        at += 1


def enums(path):
    text = open(path, encoding="utf-8").read()
    for found in re.finditer(r"^(?:pub )?enum (\w+)[^{]*\{\n(.*?)^\}", text, re.M | re.S):
        variants = [v.strip() for v in re.findall(r"^    (\w+[^\n]*),$", found.group(2), re.M) if not v.strip().startswith("//")]
        yield text[:found.start()].count("\n") + 1, found.group(1), variants


def structs(path):
    text = open(path, encoding="utf-8").read()
    for found in re.finditer(r"^(?:pub )?struct (\w+)[^{;(]*\{\n(.*?)^\}", text, re.M | re.S):
        yield text[:found.start()].count("\n") + 1, found.group(1), re.findall(r"^    (?:pub )?(\w+): ([^\n]*),$", found.group(2), re.M)


def parameters(signature):
    inside = re.search(r"\((.*)\)", signature)
    return re.findall(r"(\w+): ([^,()]+|\([^)]*\))", inside.group(1)) if inside else []


def result_of(signature):
    found = re.search(r"\) -> (.*)$", signature)
    return found.group(1).strip() if found else ""


def facts_of(clauses):
    text = " ".join(clauses)
    for found in re.finditer(r"requires(?: \w+)? \{(.*?)\}(?= requires| ensures|$)", text):
        depth, part = 0, ""
        for sign in found.group(1) + "×":
            depth += (sign == "(") - (sign == ")")
            if sign == "×" and depth == 0:
                fact = part.strip()
                while fact.startswith("(") and fact.endswith(")"):
                    fact = fact[1:-1].strip()
                yield fact
                part = ""
            else:
                part += sign


def shape(words):
    return re.sub(r"[A-Za-z_]\w*|\d[\d_a-fx]*", lambda w: w.group(0) if w.group(0) in RUST else "N", words)


def main():
    listed = "-l" in sys.argv
    root = ([a for a in sys.argv[1:] if a != "-l"] or ["."])[0]
    found = collections.OrderedDict((name, []) for name in (
        "1 enums: a value or nothing, or a value or a refusal", "1 flags: structs with a bool beside other fields", "1 numbers for kinds, stages, tags, refusals",
        "2 twins: functions of one shape", "3 loops that are no `for`", "4 comparisons", "4 conversions",
        "5 facts in the `requires` of three functions or more", "5 parameters: three that three functions or more share", "6 a buffer and a count beside it",
        "7 a bool that picks a step", "8 answers"))
    keys = list(found)
    shapes, facts, runs = collections.defaultdict(list), collections.defaultdict(list), collections.defaultdict(list)
    for path in files(root):
        name = os.path.relpath(path, os.path.join(root, "crates"))
        for line, enum, variants in enums(path):
            if len(variants) == 2 and any(re.match(r"(None|Not|Refused|Bad|Wrong|Nothing|Missing|End)\b", v) for v in variants):
                found[keys[0]].append("%s:%d %s" % (name, line, enum))
        for line, struct, fields in structs(path):
            if len(fields) > 1 and any(kind == "bool" for _, kind in fields):
                found[keys[1]].append("%s:%d %s" % (name, line, struct))
            for field, kind in fields:
                if field in ("tag", "kind", "stage") and re.match(r"u\d|usize", kind):
                    found[keys[2]].append("%s:%d %s.%s" % (name, line, struct, field))
        text = open(path, encoding="utf-8").read().split("\n")
        for number, line in enumerate(text, 1):
            if re.match(r"^\s*(while|loop)\b", line):
                found[keys[4]].append("%s:%d %s" % (name, number, line.strip()))
        for line, function, signature, clauses, body in functions(path):
            place = "%s:%d %s" % (name, line, function)
            given, gives = parameters(signature), result_of(signature)
            kinds = [kind.strip() for _, kind in given]
            if "refusals" in name and gives == "u64" or re.search(r"\b(tag|stage|kind): u\d", signature):
                found[keys[2]].append(place)
            if len(body) >= 3:
                shapes[(shape(re.sub(r"\w+ *$", "", signature.split("(")[0]) + "(" + ", ".join(kinds) + ")"), shape(" ".join(body)))].append(place)
            if len(kinds) == 2 and kinds[0] == kinds[1] and gives in ("bool", "Order", "Ordering") and kinds[0] not in ("u64", "usize", "bool", "&[u8]", "u8", "u32"):
                found[keys[5]].append(place)
            if len(kinds) == 1 and gives and kinds[0] != gives and not re.match(r"&", kinds[0]) and not re.search(r"[&]|Option|Result", gives) and len(body) <= 14 \
                    and re.search(r"^(match|[\w:]+ \{|\w+ as |if )", " ".join(body[-12:])) and (re.search("[A-Z]", kinds[0]) or re.search("[A-Z]", gives) or kinds[0] == "bool"):
                found[keys[6]].append(place)
            for fact in set(facts_of(clauses)):
                facts[fact].append(place)
            pairs = ["%s: %s" % pair for pair in given]
            for i in range(len(pairs) - 2):
                runs[", ".join(pairs[i:i + 3])].append(place)
            names = [n for n, k in given if k.strip() in ("usize", "u64")]
            slices = [n for n, k in given if "[" in k]
            if any(re.search(r"\b%s\b[^≤<×]*[≤<] *length %s\b" % (n, s), " ".join(facts_of(clauses))) for n in names for s in slices):
                found[keys[9]].append(place)
            if any(kind == "bool" for kind in kinds):
                found[keys[10]].append(place)
    for places in shapes.values():
        if len(places) > 1:
            found[keys[3]].append(" = ".join(places))
    for fact, places in facts.items():
        if len(places) > 2:
            found[keys[7]].append("%s (%d)" % (fact, len(places)))
    for run, places in runs.items():
        if len(places) > 2:
            found[keys[8]].append("%s (%d)" % (run, len(places)))
    for path in sorted(glob.glob(os.path.join(root, "crates/*/proofs/**/Answers.antt"), recursive=True)):
        found[keys[11]] += ["%s %s" % (os.path.relpath(path, root), a) for a in re.findall(r"^pub ([\w.+-]+) : goal", open(path, encoding="utf-8").read(), re.M)]
    for name, places in found.items():
        print("%5d  %s" % (len(places), name))
        if listed and name != keys[11]:
            for place in places:
                print("         " + place)


main()
