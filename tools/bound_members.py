#!/usr/bin/env python3
"""Names a bound's ghost member by the parameter alone, as R.cards for R.ReadableShelf.cards, in the clauses of src/.

Run once at the top of the repository, after tools/snake_names.py. A member that stands bare in a generic function's clause gets
its parameter, as C.meaning for meaning.
"""
import glob
import re

PATH = re.compile(r"\b(R|W|C|Self)\.(?:ReadableShelf|WritableShelf|Checksum)\.([a-z_]+)")
BARE_SUM = re.compile(r"(?<![\w.'])(meaning|marked)(?!\w)(?! \{)")
BARE_SHELF = re.compile(r"(?<![\w.'])(cards|blocks|holds) (?=shelf\.now)")


def clause(path, line):
    """The line, if it is a clause outside the traits and the table of faults, whose own words these are."""
    if not re.match(r" *(ensures|requires)\b", line) or path.endswith("faults/src/table.rt"):
        return line
    if path.endswith("checksum/src/sum.rt") and line.startswith("        "):
        return line
    return BARE_SHELF.sub(r"R.\1 ", BARE_SUM.sub(r"C.\1", line))


for path in glob.glob("crates/*/src/**/*.rt", recursive=True):
    with open(path, encoding="utf-8") as file:
        text = file.read()
    new = "\n".join(clause(path, line) for line in PATH.sub(r"\1.\2", text).split("\n"))
    if new != text:
        with open(path, "w", encoding="utf-8") as file:
            file.write(new)
