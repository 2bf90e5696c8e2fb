#!/usr/bin/env python3
"""Brings the repository's own definitions and lemmas to today's spelling: names in snake case, facts and types in camel case.

usage: python3 tools/respell.py [FOLDER]     run once, after /opt/rattle/port/port.py; rewrites crates/ and docs/ in FOLDER (default: here)

A name is this repository's own where a file of specs/ or proofs/ declares it. A dash in it becomes '_', but in a lemma's name for a dash that joins
the names of two functions, as in `length-placed` (the length of `placed`). Names that Rattle makes (goals, steps, their fields) are left as they are.
"""

import os
import re
import sys

TOKEN = re.compile(r"[^\s(){}\[\];,.|@`\"λ]+")
DECLARED = re.compile(r"^ *((?:abbrev |unfoldable |pub )*)([^\s(){};,.|]+)((?: *\([^=\n]*?\)| *\{[^=\n]*?\})*) *:(?= |$)(.*)$", re.M)
# Functions that stand first in a lemma's name, before a dash and the function that they are taken of.
OUTER = {"length", "sum_by"}
# What no rule says.
SPECIAL = {"held_by": "HeldBy"}
# Names of Rattle's own that read like a declaration.
LEFT = set()


def files(top, endings):
    for folder, dirs, names in os.walk(os.path.join(top, "crates")):
        dirs[:] = sorted(d for d in dirs if d not in ("out", ".git"))
        for name in sorted(names):
            if name.endswith(endings):
                yield os.path.join(folder, name)


def read(path):
    with open(path, encoding="utf-8") as f:
        return f.read()


def declared(top):
    """Each declared name with a dash or a capital inside, and the functions of specs/."""
    found, functions = {}, set()
    for path in files(top, ".antt"):
        text = read(path)
        for m in DECLARED.finditer(text):
            marks, name, told = m.group(1), m.group(2), m.group(4)
            if re.match(r" *goal\.", told) or name.startswith("--"):
                continue
            found[name] = path
            if "abbrev" in marks or "unfoldable" in marks:
                functions.add(name)
    return found, functions


def spelled(name, functions):
    if name in SPECIAL:
        return SPECIAL[name]
    new = re.sub(r"^sumBy\b", "sum_by", name)
    first, dash, rest = new.partition("-")
    if dash and first in OUTER and rest in functions and name not in functions:
        return new
    return new.replace("-", "_")


def turned(text, table):
    def one(m):
        word = m.group(0)
        if word in table:
            return table[word]
        return word

    return TOKEN.sub(one, text)


def outside(text, comment):
    """The text in parts: (is it code, part). Comments and string literals of a line are no code."""
    for line in text.splitlines(keepends=True):
        at = line.find(comment)
        if at >= 0 and (at == 0 or line[at - 1].isspace()):
            yield True, line[:at]
            yield False, line[at:]
        else:
            yield True, line


def headed(line, table):
    """A line of a file's list of words: the words stand left of a wide gap."""
    m = re.match(r"(--   \S(?:.(?!   ))*.)(.*)", line, re.S)
    return turned(m.group(1), table) + m.group(2) if m else line


def quoted(text, table):
    return re.sub(r"`[^`\n]*`", lambda m: turned(m.group(0), table), text)


def main(argv):
    top = argv[0] if argv else "."
    names, functions = declared(top)
    table = {n: spelled(n, functions) for n in names if n not in LEFT}
    table = {n: t for n, t in table.items() if t != n}
    taken = {}
    for n in sorted(names):
        taken.setdefault(table.get(n, n), []).append(n)
    for new, olds in sorted(taken.items()):
        if len(olds) > 1:
            print(f"fall together: {', '.join(olds)} -> {new}")
    for path in files(top, (".antt", ".rt", ".edit")):
        text = read(path)
        if path.endswith(".edit"):
            new = turned(text, table)
        else:
            mark = "--" if path.endswith(".antt") else "//"
            new = "".join(turned(part, table) if code else headed(quoted(part, table), table) for code, part in outside(text, mark))
        if new != text:
            with open(path, "w", encoding="utf-8") as f:
                f.write(new)
    pages = [os.path.join(top, "README.md")] + [os.path.join(top, "docs", f) for f in sorted(os.listdir(os.path.join(top, "docs"))) if f.endswith(".md")]
    for path in pages:
        text = read(path)
        new = quoted(text, table)
        if new != text:
            with open(path, "w", encoding="utf-8") as f:
                f.write(new)
    print(f"{len(table)} names respelled")
    if "--table" in argv:
        for n in sorted(table):
            print(n, table[n])
    return 0


if __name__ == "__main__":
    raise SystemExit(main(sys.argv[1:]))
