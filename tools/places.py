#!/usr/bin/env python3
"""Lists, for each point of docs/DESIGN-PASS.md, the places of src/ that a reader has to look at.

    python3 tools/places.py [POINT..] [FOLDER]

FOLDER is a checkout, this one where none is given. Each place is printed as PATH:LINE: TEXT, and each point ends with
how many there are. Tests count too.
"""
import collections
import pathlib
import re
import sys

FOLDERS = [a for a in sys.argv[1:] if not a.isdigit()]
ROOT = pathlib.Path(FOLDERS[0] if FOLDERS else __file__).resolve()
ROOT = ROOT if FOLDERS else ROOT.parent.parent
SOURCES = sorted(ROOT.glob("crates/*/src/**/*.rt"))

PATTERNS = {
    # own enums; flags; numbers that tell kinds, encodings, calls or refusals apart
    1: [
        r"^\s*(pub )?enum \w+",
        r"let mut \w+ = (true|false)",
        r"\b(kind|encoding|code|id) [=!]= [0-9]",
        r"\b(encoding|kind): [0-9]+,",
        r"const [A-Z_]+: u8 = ",
        r"\bcount [=!]= 0",
        r"=> [0-9]+,$",
        r"^\s*&?\[0x",
    ],
    # loops over an index, and loops that could be a chain or a method
    3: [r"^\s*(for|while|loop)\b"],
    # comparing, copying, converting and printing by hand; tests of a variant that a method has
    4: [
        r"^impl.*\b(PartialEq|Eq|PartialOrd|Ord|Clone|Copy|Default|Debug|Display|From|TryFrom)\b",
        r"^\s*(None|Some\(\w+\)|Ok\(.*\)|Err\(.*\)) => ",
        r"let Some\(\w+\) = .* else",
        r"if let (None|Some\(\w+\)) = ",
        r"if \w+ < \w+ \{ \w+ \} else \{ \w+ \}",
    ],
    # a length or a place beside a buffer, and indices in the place of references
    6: [
        r"\[0\.\.\w+\]",
        r"\blimit\b.*usize",
        r"\bplace: ",
        r"\bnode: u8",
        r"Option<u8>; ",
        r"&\w+(\.\w+)*\[\w+( \* \w+)?\.\.\w+ [*+]",
        r"&mut \w+(\.\w+)*\[\w+\.\.",
        r"self\.words\[from\.\.",
    ],
    # choosing a step by its name or number, and functions held in values
    7: [r"match (call|bytes)\b", r"if kind == ", r"if self\.adds\(", r"\bfn\(", r"\bdyn\b"],
}


def lines_of(point):
    pattern = re.compile("|".join(PATTERNS[point]))
    for path in SOURCES:
        for n, line in enumerate(path.read_text().splitlines(), 1):
            if pattern.search(line):
                yield f"{path.relative_to(ROOT)}:{n}: {line.strip()}"


def functions():
    """Each function's head: the path, the name, the parameters, the clauses."""
    for path in SOURCES:
        head = None
        for n, line in enumerate(path.read_text().splitlines(), 1):
            start = re.match(r"\s*(pub(\(crate\))? )?fn (\w+)", line)
            if start:
                head = [f"{path.relative_to(ROOT)}:{n}", start.group(3), "", []]
            if head:
                clause = re.match(r"\s*(requires|ensures)\*?\s*\w*\s*\{ (.*) \}", line)
                if clause:
                    head[3].append(clause.group(2))
                elif not re.match(r"\s*(requires|ensures)", line):
                    head[2] += line
                if line.rstrip().endswith("};") or line.rstrip().endswith(("{", ";", "}")) and not clause:
                    yield head
                    head = None


def twins():
    """Pairs of functions whose bodies are the same once names and numbers are taken away."""
    bodies = collections.defaultdict(list)
    for path in SOURCES:
        text = path.read_text()
        for m in re.finditer(r"^( *)(?:pub(?:\(crate\))? )?fn (\w+)[^;]*?\n?\1\{\n(.*?)\n\1\}|^( *)(?:pub(?:\(crate\))? )?fn (\w+)[^\n;]*\{\n(.*?)\n\4\}", text, re.S | re.M):
            name, body = (m.group(2), m.group(3)) if m.group(2) else (m.group(5), m.group(6))
            shape = re.sub(r"\w+", "x", re.sub(r"\s+", " ", body)).strip()
            line = text[: m.start()].count("\n") + 1
            bodies[shape].append(f"{path.relative_to(ROOT)}:{line}: {name}")
    for shape, places in bodies.items():
        if len(places) > 1 and len(shape) > 12:
            yield from places


def travellers():
    """Clauses that stand in three functions or more, and sets of three parameters or more that do."""
    clauses, heads = collections.defaultdict(set), {}
    for place, name, text, facts in functions():
        for fact in facts:
            clauses[re.sub(r"\b(old|now|new|entry)\b", "_", fact)].add(f"{place}: {name}")
        names = re.findall(r"\b_?([a-z]\w*): |&(?:mut )?(self)\b", text.split("->")[0])
        heads[f"{place}: {name}"] = frozenset(a or b for a, b in names)
    shared = {a & b for a in heads.values() for b in heads.values() if len(a & b) > 2}
    groups = {s: [h for h in heads if s <= heads[h]] for s in shared}
    for what, where in list(clauses.items()) + [(", ".join(sorted(s)), g) for s, g in groups.items()]:
        if len(where) > 2:
            yield f"{what}: {len(where)} functions, {', '.join(sorted(where))}"


def proofs():
    """The files of proofs, with their lines."""
    for path in sorted(ROOT.glob("crates/*/proofs/**/*.antt")):
        yield f"{path.relative_to(ROOT)}: {len(path.read_text().splitlines())} lines"


def main():
    points = [int(a) for a in sys.argv[1:] if a.isdigit()] or range(1, 9)
    for point in points:
        found = {2: twins, 5: travellers, 8: proofs}.get(point, lambda: lines_of(point))
        found = list(found())
        print(f"\npoint {point}")
        print("\n".join(found))
        print(f"point {point}: {len(found)}")


main()
