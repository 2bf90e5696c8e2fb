#!/usr/bin/env python3
"""Gives the steps and goals that Rattle names after the source today's spelling, in the proof files of functions.

usage: python3 tools/rename_steps.py [FOLDER] [CRATE ..]    after tools/respell.py; rewrites crates/CRATE/proofs/F/*.antt (default: every crate)

An older Rattle joined the words of a source name by dashes (`as_bytes` was `as-bytes`), and its own words too (`in-err`). Names that a proof
file imports, or that files of specs/ and proofs/ declare, stay.
"""

import os
import re
import sys

TOKEN = re.compile(r"[^\s(){}\[\];,.|@`\"λ]+")
NAME = re.compile(r"\b(?:[a-z][a-z0-9]*(?:_[a-z0-9]+)+|[A-Z][A-Z0-9]*(?:_[A-Z0-9]+)+)\b")
OWN = ["in-err", "in-ok", "in-default", "type-inv", "invariant-of", "slice-bounds", "offset-bounds", "overflow-add", "overflow-sub", "overflow-mul", "overflow-shl", "overflow-shr", "overflow-cast", "overflow-step", "nonzero-div", "nonzero-rem", "from-residual"]


def texts(folder, ending):
    for where, dirs, names in os.walk(folder):
        dirs[:] = sorted(d for d in dirs if d != "out")
        for name in sorted(names):
            if name.endswith(ending):
                yield os.path.join(where, name)


def read(path):
    with open(path, encoding="utf-8") as f:
        return f.read()


def main(argv):
    top = argv[0] if argv else "."
    crates = argv[1:] or sorted(os.listdir(os.path.join(top, "crates")))
    names = set()
    for path in texts(os.path.join(top, "crates"), ".rt"):
        names.update(NAME.findall(re.sub(r"//.*", "", read(path))))
    dashed = {n.replace("_", "-"): n for n in names}
    dashed.update({n: n.replace("-", "_") for n in OWN})
    order = sorted(dashed, key=len, reverse=True)
    rule = re.compile(r"(?<![A-Za-z0-9_'])(" + "|".join(map(re.escape, order)) + r")(?![A-Za-z0-9_'])")
    declared = set()
    for path in texts(os.path.join(top, "crates"), ".antt"):
        declared.update(re.findall(r"^ *(?:abbrev |unfoldable |pub )*([^\s(){};,.|]+)(?: *\([^=\n]*?\))* *:(?= |$)(?! *goal\.)", read(path), re.M))
    for crate in crates:
        proofs = os.path.join(top, "crates", crate, "proofs")
        for path in texts(proofs, ".antt"):
            if os.path.dirname(path) == proofs:
                continue
            text = read(path)
            kept = set(declared)
            for module, listed in re.findall(r"^use ([^\s{]*?)\.\{([^}]*)\}", text, re.M):
                if not re.search(r"\.(Goals|Given|Needs)$", module):
                    kept.update(w.strip().split(" as ")[-1] for w in listed.split(","))
            def one(m):
                word = m.group(0)
                return word if word in kept or "-" not in word else rule.sub(lambda k: dashed[k.group(1)], word)
            new = "\n".join(line if line.startswith("--") else TOKEN.sub(one, line) for line in text.split("\n"))
            if new != text:
                with open(path, "w", encoding="utf-8") as f:
                    f.write(new)


if __name__ == "__main__":
    main(sys.argv[1:])
