#!/usr/bin/env python3
"""Brings the names of definitions and lemmas in specs/ and proofs/ to snake case.

Run once at the top of the repository. A definition or lemma whose name starts with a small letter and has a capital or a
dash is respelled everywhere in .antt files and in the ghost text of .rt files. A name that Rattle makes (the goals in
proofs/F/, their labels) is left alone, and so are types, facts and modules. Where a lemma would fall together with a
definition, the lemma gets the ending _lem.
"""
import glob
import re
import sys

# A signature: at the margin, or inside a module, a record or a data type.
SIGNATURE = re.compile(r"^ *(?:(?:abbrev|pub|unfoldable) )*([a-z][^\s{(:.]*)(?: ?\{[^\n]*?\})? :(?= |$)(.*)$", re.M)


def snake(name):
    name = name.replace("-", "_")
    name = re.sub(r"(?<=[a-z0-9])([A-Z])", lambda m: "_" + m.group(1).lower(), name)
    return re.sub(r"(?<=[A-Z])([A-Z])", lambda m: "_" + m.group(1).lower(), name)


def own_names(paths):
    names = set()
    for path in paths:
        for m in SIGNATURE.finditer(open(path, encoding="utf-8").read()):
            if "goal." not in m.group(2):
                names.add(m.group(1))
    return names


def main():
    specs = glob.glob("crates/*/specs/**/*.antt", recursive=True)
    proofs = glob.glob("crates/*/proofs/**/*.antt", recursive=True)
    defined = own_names(specs)
    proved = own_names(proofs)
    every = defined | proved
    turn = {}
    for name in sorted(every):
        if not re.match(r"[a-z]", name) or snake(name) == name:
            continue
        new = snake(name)
        if name in proved and name not in defined:
            others = {n for n in every if n != name and snake(n) == new}
            if others & defined or (others and min(others) < name):
                new += "_lem"
        turn[name] = new
    names = "|".join(sorted(map(re.escape, turn), key=len, reverse=True))
    word = re.compile(r"(?<![\w'\-·₀-₉])(" + names + r")(?![\w'\-₀-₉])")
    # Behind a dot, the files of a function's proof name what Rattle made.
    bare = re.compile(r"(?<![\w'\-·₀-₉.])(" + names + r")(?![\w'\-₀-₉])(?! = c\.)")
    for path in specs + proofs + glob.glob("crates/*/src/**/*.rt", recursive=True):
        text = open(path, encoding="utf-8").read()
        made = "/proofs/" in path and path.split("/proofs/")[1].count("/") > 0
        new = (bare if made else word).sub(lambda m: turn[m.group(1)], text)
        if new != text:
            open(path, "w", encoding="utf-8").write(new)
    if "--list" in sys.argv:
        for name in sorted(turn):
            print(name, turn[name])


main()
