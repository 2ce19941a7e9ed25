#!/usr/bin/env python3
"""Brings this repository's own definitions, lemmas, fields and local names to today's spelling of Rattle.

usage: python3 tools/spell_names.py [--list]     at the top of the repository, after port.py; a second run changes nothing

Types are in upper camel case, everything else is in snake case. A name counts as ours where a file of specs/ or
proofs/ defines or binds it. Names that the library has, that Rattle makes for a goal or a step of the code, and all
names of src/ keep their spelling. With --list nothing is written: the renamings are printed.
"""
import collections
import glob
import re
import sys

NAME = r"[A-Za-z_\u0391-\u03c9][\w'\u2032]*(?:-[\w'\u2032]+)*"
TOKEN = re.compile(r"(?<![\w'\u2032\u00b7\u25cc-])" + NAME + r"(?![\w'\u2032-])")
TOP = re.compile(r"^(?:[ \t]*)(?:(?:abbrev|unfoldable|pub|record|data)[ \t]+)*(" + NAME + r")(?:[ \t]+\(.*\))?[ \t]+:[ \t]+(.*)$")
USE = re.compile(r"^[ \t]*(?:pub[ \t]+)?(?:ghost[ \t]+)?use[ \t]+([^\s{]+?)(?:\.\{([^}]*)\})?(?:[ \t]+as[ \t]+\S+)?;?[ \t]*$", re.M)
BINDS = re.compile(r"\blet[ \t]+(" + NAME + r")[ \t]*[:=]|\(((?:" + NAME + r"[ \t]+)+):|\{((?:" + NAME + r"[ \t]+)+):|\u03bb[ \t]+((?:" + NAME + r"[ \t]+)*" + NAME + r")[ \t]*\.[ \t]")


def files():
    return sorted(glob.glob("crates/*/specs/**/*.antt", recursive=True) + glob.glob("crates/*/proofs/**/*.antt", recursive=True))


def sources():
    return sorted(glob.glob("crates/*/src/**/*.rt", recursive=True))


def ours_of():
    """Our names with a dash or an old prime, and the names that come from outside or are made for a goal."""
    ours, outside, made = collections.defaultdict(set), set(), set()
    for p in files() + sources():
        text = open(p, encoding="utf-8").read()
        for m in USE.finditer(text):
            names = [n.split(" as ")[0].strip() for n in (m.group(2) or "").split(",")]
            own = re.match(r"Rattle\.(\w+)\.(specs|proofs)", m.group(1)) and not m.group(1).startswith("Rattle.std")
            if not own:
                outside.update(names)
        if p.endswith(".rt"):
            continue
        made.update(re.findall(r"\b(?:goal|Goals|Given)\.(" + NAME + r")", text))
        for line in text.split("\n"):
            if line.lstrip().startswith("--"):
                continue
            m = TOP.match(line)
            if m and not m.group(2).startswith("goal."):
                ours[m.group(1)].add(p)
            c = re.match(r"^(" + NAME + r")((?:[ \t]+[^=]+)?)[ \t]=(?:[ \t]|$)", line)
            if c:
                for w in TOKEN.findall(c.group(2)):
                    if not re.search(r"\." + re.escape(w), c.group(2)):
                        ours[w].add(p)
            for b in BINDS.finditer(line):
                for w in " ".join(g for g in b.groups() if g).split():
                    ours[w].add(p)
    return ours, outside, made


# Definitions with the capital of a type that are none.
NO_TYPES = {"Tidy": "tidy_by"}


def spelled(name):
    if name in NO_TYPES:
        return NO_TYPES[name]
    if name[0].isupper():
        return "".join(part[:1].upper() + part[1:] for part in name.split("-")).replace("\u2032", "'")
    snake = re.sub(r"(?<=[a-z0-9])[A-Z]", lambda m: "_" + m.group(0).lower(), name)
    return snake.replace("-", "_").replace("\u2032", "'")


def main():
    ours, outside, made = ours_of()
    turn = {w: spelled(w) for w in ours if spelled(w) != w and w not in outside and w not in made}
    both = sorted(w for w in ours if "-" in w and w in made)
    together = collections.defaultdict(set)
    for w, s in turn.items():
        together[s].add(w)
    taken = {w for w in ours if w not in turn}
    for s, ws in sorted(together.items()):
        if len(ws) > 1 or s in taken or s in outside:
            print("falls together:", sorted(ws), "->", s, "ours" if s in taken else "", "outside" if s in outside else "")
    print("both ours and made for a goal, kept:", both)
    if "--list" in sys.argv:
        for w in sorted(turn):
            print(w, "->", turn[w])
        return
    for p in files() + sources():
        text = open(p, encoding="utf-8").read()
        ghost = p.endswith(".rt")
        new = TOKEN.sub(lambda m: turn.get(m.group(0), m.group(0)), text)
        if ghost:
            lines = [a if "//" in b and "-" in b.split("//", 1)[1] and not b.split("//", 1)[0].strip() else b for a, b in zip(text.split("\n"), new.split("\n"))]
            new = "\n".join(a if a.lstrip().startswith("//") else b for a, b in zip(text.split("\n"), lines))
        if new != text:
            open(p, "w", encoding="utf-8").write(new)


main()
