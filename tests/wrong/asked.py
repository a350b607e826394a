"""asked.py COPY EDIT..: what the check of a copy of a crate that has these edits is asked for, a function a line: those whose facts the edits name. A law is no
function's: the proof of one that no edit names is made to import, in the copy, the file of each law that is named, so that it is read. What else the crate has may
go unread: a fact rests on what its own file imports, and all of that is read. Nothing is printed if an edit names no fact: then the whole crate is to be checked."""
import glob
import os
import re
import sys

import batches
import facts

IMPL = re.compile(r"impl (?:\w+ for )?(\w+)")


def functions(crate):
    """The functions of a crate that have a file of answers, the shortest first; of a crate without such files those of its sources."""
    files = glob.glob(f"{crate}/proofs/**/Answers.antt", recursive=True)
    for file in sorted(files, key=lambda one: (os.path.getsize(one), one)):
        yield os.path.relpath(os.path.dirname(file), f"{crate}/proofs").replace("/", "::")
    for file in [] if files else sorted(glob.glob(f"{crate}/src/**/*.rt", recursive=True)):
        path, of = os.path.relpath(file, f"{crate}/src").removesuffix(".rt").split("/"), []
        with open(file, encoding="utf-8") as lines:
            for line in lines:
                if line[0] in "i}":
                    of = IMPL.findall(line)
                if batches.FUNCTION.match(line):
                    yield "::".join([one for one in path if one != "lib"] + of + [batches.FUNCTION.match(line)[2]])


def asked(copy, edits):
    named = [batches.parts(edit)[1] for edit in edits]
    if "" in named:
        return []
    wanted = sorted({batches.function_of(fact) for fact in named} - {None})
    laws = sorted({fact.split()[0].replace("/", ".") for fact in named if not batches.function_of(fact)})
    if laws:
        importing = next(function for function in functions(copy) if function not in wanted)
        answers, before = os.path.join(copy, "proofs", *importing.split("::"), "Answers.antt"), ""
        os.makedirs(os.path.dirname(answers), exist_ok=True)
        if os.path.exists(answers):
            with open(answers, encoding="utf-8") as file:
                before = file.read()
        with open(answers, "w", encoding="utf-8") as file:
            file.writelines(f"use Rattle.{facts.parts(edits[0])[0]}.{law} as law_{at}\n" for at, law in enumerate(laws))
            file.write(before)
        wanted.append(importing)
    return wanted


if __name__ == "__main__":
    sys.stdout.writelines(f"{function}\n" for function in asked(sys.argv[1], sys.argv[2:]))
