#!/usr/bin/env python3
"""Counts the places in crates/*/src (and the answers in crates/*/proofs) that read like an older Rattle.

usage: python3 tools/count_places.py [-l] [FOLDER]     FOLDER: a checkout, here where none is named; -l lists each place

Each kind is a pattern or a small search: it shows where to look, and a reader decides. It reads text and writes nothing.
"""
import re
import sys
from collections import defaultdict
from pathlib import Path

LISTED = "-l" in sys.argv[1:]
FOLDERS = [a for a in sys.argv[1:] if a != "-l"]
ROOT = Path(FOLDERS[0] if FOLDERS else ".") / "crates"


def sources():
    for path in sorted(ROOT.glob("*/src/**/*.rt")):
        yield path, path.read_text().split("\n")


def matching(pattern):
    found = []
    for path, lines in sources():
        for number, line in enumerate(lines, 1):
            if line.strip().startswith("//") or line.strip().startswith("ghost use"):
                continue
            if re.search(pattern, line):
                found.append((path, number, line.strip()))
    return found


def enums():
    """Every enum with its variants: one of the shape of Option or Result shows in the list."""
    found = []
    for path, lines in sources():
        for number, line in enumerate(lines, 1):
            if re.match(r"\s*(pub(\(crate\))? )?enum ", line):
                end = next((k for k in range(number, len(lines)) if lines[k].startswith("}")), number)
                variants = [v.strip().rstrip(",") for v in lines[number:end] if not v.strip().startswith("//")]
                if any(re.match(r"(None|Some|Ok|Err|Not\w*|No[A-Z]\w*|Out\w*|Nothing|Refused|Done|Plain)\b", v) for v in variants):
                    found.append((path, number, line.strip() + " " + "; ".join(variants)))
    return found


def repeated(pattern, facts):
    """What stands in the clauses of three functions or more: `facts` gives those of a clause that matches."""
    where = defaultdict(list)
    for path, lines in sources():
        for number, line in enumerate(lines, 1):
            match = re.match(pattern, line)
            for fact in facts(match.group(1)) if match else []:
                where[fact].append((path, number))
    return [(p[0][0], p[0][1], f"{len(p)} x  {fact}") for fact, p in sorted(where.items()) if len(p) >= 3]


def requires():
    """A fact that stands in the requires of three functions or more, with numbers and names as they are."""
    def facts(clause):
        parts = [fact.strip().strip("()").strip() for fact in re.split(r" × ", clause)]
        return [re.sub(r"\b\w+\.(?=\w)", "", fact) for fact in parts]

    return repeated(r"\s*requires (?:\w+ )?\{ (.*) \}$", facts)


def premises():
    """A premise of an ensures that stands in three functions or more."""
    return repeated(r"\s*ensures \w+ \{ (.*?) → ", lambda premise: [] if premise.startswith("(") else [premise])


def shapes():
    """Function bodies of three lines or more that are the same but for names and numbers, in pairs or larger groups."""
    where = defaultdict(list)
    for path, lines in sources():
        number = 0
        while number < len(lines):
            match = re.match(r"(\s*)(pub(\(crate\))? )?fn (\w+)", lines[number])
            if not match:
                number += 1
                continue
            start, indent, name = number, match.group(1), match.group(4)
            while number < len(lines) and lines[number] != indent + "{" and not lines[number].endswith(" {"):
                if lines[number].endswith(";"):
                    break
                number += 1
            body = []
            number += 1
            while number < len(lines) and lines[number] != indent + "}":
                body.append(lines[number].strip())
                number += 1
            text = "\n".join(b for b in body if not b.startswith("//"))
            shape = re.sub(r"\b[a-zA-Z_]\w*\b|\b[0-9_]+\b", "x", text)
            if shape.count("\n") >= 2:
                where[shape].append((path, start + 1, name))
    return [(g[0][0], g[0][1], f"{len(g)} x  " + ", ".join(f"{p.parts[-3] if p.parts[-2] == 'src' else p.parts[-4]}::{n}" for p, _, n in g))
            for g in where.values() if len(g) >= 2]


def answers():
    found = []
    for path in sorted(ROOT.glob("*/proofs/**/*.antt")):
        found.append((path, len(path.read_text().split("\n")) - 1, ""))
    return found


KINDS = [
    ("1 enums that may be an Option or a Result of the project's own", enums),
    ("1 a flag or a number as a field or an answer: bool, u8", lambda: matching(r"(: (bool|u8),$|-> (bool|u8)$)")),
    ("2 groups of functions of one shape", shapes),
    ("3 loops over a range of numbers", lambda: matching(r"\bfor \w+ in [^{]*\.\.")),
    ("3 loops by while", lambda: matching(r"\bwhile\b")),
    ("3 loops by enumerate", lambda: matching(r"\bfor .*enumerate\(\)")),
    ("3 the lesser or the greater of two by hand", lambda: matching(r"if (\w+) [<>]=? (\w+) \{ (\1|\2) \} else")),
    ("3 a range tested by hand", lambda: matching(r">= \w+ && .* <= |<= \w+ && \w+ <= |< [0-9_]+ \|\| .* > ")),
    ("4 impls of comparison, copying, conversion and printing", lambda: matching(r"^impl.* (PartialEq|Eq|PartialOrd|Ord|Clone|Copy|Debug|(fmt::)?Display|From<.*>|TryFrom<.*>) for ")),
    ("4 conversions by as", lambda: matching(r" as (u8|u16|u32|u64|u128|usize)\b")),
    ("4 functions that print into a String", lambda: matching(r"format!\(")),
    ("5 facts in the requires of three functions or more", requires),
    ("5 premises in the ensures of three functions or more", premises),
    ("6 arrays of a fixed length", lambda: matching(r"\[[A-Za-z_]\w*; \w+\]")),
    ("7 closures, impl Fn and dyn in use", lambda: matching(r"[(,] ?(move )?\|[a-z_&][a-z_&, ():0-9A-Z]*\| |impl Fn|\bdyn\b|: Fn(Once|Mut)?\(")),
    ("8 law terms that a script wrote", lambda: matching(r"first_of \(Prim")),
]

for title, search in KINDS:
    found = search()
    print(f"{len(found):5}  {title}")
    if LISTED:
        for path, number, text in found:
            print(f"         {path.relative_to(ROOT)}:{number}  {text[:150]}")
files = answers()
print(f"{len(files):5}  8 proof files, {sum(n for _, n, _ in files)} lines")
