#!/usr/bin/env python3
"""Lists the places of src/ that an older form of the language may have left, by kind.

    python3 tools/places.py [ROOT]          a count for each kind
    python3 tools/places.py [ROOT] KIND     the places of one kind

ROOT is a checkout, by default this one. docs/DESIGN-PASS.md says what was done with the places.
"""
import collections
import pathlib
import re
import sys

ROOT = pathlib.Path(__file__).resolve().parent.parent


def balanced(text, at, opener, closer):
    depth = 0
    for i in range(at, len(text)):
        if text[i] == opener:
            depth += 1
        elif text[i] == closer:
            depth -= 1
            if depth == 0:
                return i
    return len(text) - 1


def sources(root):
    for path in sorted(root.glob("crates/*/src/**/*.rt")):
        text = re.sub(r"//[^\n]*", lambda m: " " * len(m.group()), path.read_text())
        yield str(path.relative_to(root)), text


Function = collections.namedtuple("Function", "file line name params clauses body")


def functions(root):
    for name, text in sources(root):
        for m in re.finditer(r"\bfn ([a-z_0-9]+)", text):
            start = text.index("(", m.end())
            end = balanced(text, start, "(", ")")
            params = re.sub(r"\s+", " ", text[start + 1:end])
            i = end + 1
            result = re.compile(r"\s*->\s*").match(text, i)
            if result:
                i = result.end()
                while text[i] not in "{;" and not re.compile(r"\s(requires|ensures|where)\b").match(text, i):
                    i = balanced(text, i, "[", "]") + 1 if text[i] == "[" else i + 1
            clauses = []
            while True:
                hit = re.compile(r"\b(requires|ensures\*?)\b[^{]*\{|[;{]").search(text, i)
                if hit is None or hit.group() in ";{":
                    break
                close = balanced(text, hit.end() - 1, "{", "}")
                clauses.append((hit.group(1), re.sub(r"\s+", " ", text[hit.end():close]).strip()))
                i = close + 1
            body = ""
            if hit is not None and hit.group() == "{":
                body = text[hit.start():balanced(text, hit.start(), "{", "}") + 1]
            yield Function(name, text.count("\n", 0, m.start()) + 1, m.group(1), params, clauses, body)


def lines(root, pattern):
    for name, text in sources(root):
        for n, line in enumerate(text.splitlines(), 1):
            if "ghost" not in line and "ensures" not in line and "requires" not in line and re.search(pattern, line):
                yield f"{name}:{n}: {line.strip()}"


def own_enums(root):
    """Enums of the shape of Option or Result: two variants, of which one or both have one field."""
    for name, text in sources(root):
        for m in re.finditer(r"\benum ([A-Za-z]+)[^{]*\{", text):
            body = text[m.end():balanced(text, m.end() - 1, "{", "}")]
            variants = re.findall(r"^\s{4}([A-Z][A-Za-z]*)(\([^,()]*\))?,", body, re.M)
            fields = sorted(bool(field) for _, field in variants)
            if fields in ([False, True], [True, True]):
                uses = sum(len(re.findall(rf"\b{m.group(1)}::", t)) for _, t in sources(root))
                yield f"{name}: {m.group(1)} of {', '.join(v for v, _ in variants)}, named {uses} times"


def flags(root):
    """Fields and parameters that are a bool."""
    yield from lines(root, r"\b[a-z_]+: bool\b")


def numbers(root):
    """Cases that are turned into a number, and numbers into cases."""
    yield from lines(root, r"=> [0-9]+,$|^\s*[0-9]+ => |\.number\(\)")


def passed_errors(root):
    """Errors that are only passed on, and errors turned into others, by a match."""
    yield from lines(root, r"Err\([a-z_]+\) => (return )?Err\(|Err\(_\) => ")


def twins(root):
    """Functions of one shape: their bodies differ in names and numbers alone."""
    groups = collections.defaultdict(list)
    for f in functions(root):
        words = re.findall(r"[A-Za-z_][A-Za-z_0-9]*|[0-9]+|[^\sA-Za-z_0-9]", f.body)
        words = [w for w in words if w != ","]
        if len(words) < 14:
            continue
        keep = {"if", "else", "match", "for", "in", "while", "let", "mut", "return", "Ok", "Err", "Some", "None", "self"}
        shape = " ".join(w if w in keep or not w[0].isalnum() and w[0] != "_" else "0" if w[0].isdigit() else "x" for w in words)
        groups[shape].append(f"{f.file}:{f.line} {f.name}")
    for members in groups.values():
        if len(members) > 1:
            yield " ~ ".join(members)


def loops(root):
    """Loops over a range or by `while`."""
    yield from lines(root, r"\bfor [a-z_]+ in [^\[{]*\.\.|\bwhile ")


def by_hand(root):
    """Equality, order, conversion and copying by hand."""
    yield from lines(root, r"=> (true|false),$|\.slot == [a-z]+ && |if a < b|< 4294967295|let number = [a-z]+\.number|\b[a-z]+\[i\] = [a-z]+\[i\]")
    for f in functions(root):
        if re.fullmatch(r"\{\s*match \*?[a-z_]+ \{\s*(?:[A-Za-z_:]+(?:\((?:_|[a-z]+)\))? => [A-Za-z_:]+(?:\([a-z]+\))?,\s*)+\}\s*\}", f.body):
            yield f"{f.file}:{f.line}: {f.name} turns each case into another"


def facts(root):
    """Facts that stand in the clauses of three or more functions."""
    where = collections.defaultdict(set)
    for f in functions(root):
        for _, text in f.clauses:
            where[text].add(f"{f.file}:{f.line}")
    for text, places in sorted(where.items(), key=lambda p: -len(p[1])):
        if len(places) >= 3:
            yield f"{len(places)} functions: {text}"


def together(root):
    """Three or more parameters that travel together through three or more functions, the largest sets first."""
    sets = []
    for f in functions(root):
        params = frozenset(p.strip() for p in re.split(r",(?![^\[<(]*[\]>)])", f.params) if ":" in p)
        if len(params) >= 3:
            sets.append((params, f"{f.file}:{f.line}"))
    groups = collections.defaultdict(set)
    for a, _ in sets:
        for b, _ in sets:
            common = a & b
            if len(common) >= 3:
                groups[common] = {w for p, w in sets if common <= p}
    maximal = [(g, w) for g, w in groups.items() if len(w) >= 3 and not any(g < h and len(groups[h]) == len(w) for h in groups)]
    for group, places in sorted(maximal, key=lambda p: -len(p[1])):
        yield f"{len(places)} functions: {'; '.join(sorted(group))}"


def lengths(root):
    """Fields that say how much of the buffer beside them is used, or how far it was read."""
    yield from lines(root, r"^\s*(pub )?(used|len|at|length): usize,$")


def switches(root):
    """A match of which every arm calls a function."""
    for f in functions(root):
        for m in re.finditer(r"\bmatch [^{]*\{", f.body):
            arms = f.body[m.end():balanced(f.body, m.end() - 1, "{", "}")]
            heads = re.findall(r"=>\s*([^,\n]*)", arms)
            calls = [h for h in heads if re.match(r"(self\.)?[a-z_]+(::<[^>]*>)?\(", h)]
            if len(heads) >= 2 and len(calls) >= len(heads) - 1 and len(calls) >= 2:
                yield f"{f.file}:{f.line}: {f.name}"


KINDS = [own_enums, flags, numbers, passed_errors, twins, loops, by_hand, facts, together, lengths, switches]


def main(args):
    names = {k.__name__: k for k in KINDS}
    root = ROOT
    if args and args[0] not in names:
        root = pathlib.Path(args.pop(0))
    if args:
        for place in names[args[0]](root):
            print(place)
        return
    for kind in KINDS:
        print(f"{len(list(kind(root))):4} {kind.__name__}: {kind.__doc__.splitlines()[0]}")


if __name__ == "__main__":
    main(sys.argv[1:])
