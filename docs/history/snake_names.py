#!/usr/bin/env python3
"""Spells the definitions and lemmas of specs/ and proofs/ in snake case: usage: python3 tools/snake_names.py [FOLDER], once, at the top of the repository.

port.py respells the library's words and only some of the repository's own. This turns the others in every .rt and .antt file below crates/: names in camel case
that begin with a small letter, also as a part of a lemma's name (andThen-ok), the two tests that ended in a question mark, and a record's field with a dash.
Rust code is in snake case already, so in a .rt file only words of clauses change. It stops where a new name stands already as a name of its own.
"""

import os
import re
import sys

OTHERS = {"free?": "is_free", "ready?": "is_ready", "low-back": "low_back"}
LOCAL = {"hT"}
CAMEL = re.compile(r"(?<![\w'.?])[a-z][a-z0-9]*(?:[A-Z][a-z0-9]*)+(?![\w'?])")
# a definition's or lemma's own line
DEFINED = re.compile(r"(?m)^\s*(?:abbrev |unfoldable |pub |data |record )*([^\s:(){}\[\].,;\"]+)\s*(?:\{[^}]*\}\s*|\([^)]*\)\s*)*:(?!=)")


def texts(root):
    for folder, dirs, files in os.walk(os.path.join(root, "crates")):
        dirs[:] = sorted(d for d in dirs if d != "out")
        for f in sorted(files):
            if f.endswith((".rt", ".antt")):
                yield os.path.join(folder, f)


def snake(name):
    return re.sub(r"(?<=[a-z0-9])([A-Z])", lambda m: "_" + m[1].lower(), name)


def main(root):
    old = {p: open(p, encoding="utf-8").read() for p in texts(root)}
    names = dict(OTHERS)
    defined = set()
    for p, t in old.items():
        if p.endswith(".antt"):
            defined |= {m[1] for m in DEFINED.finditer(t)}
            names |= {n: snake(n) for n in CAMEL.findall(t) if n not in LOCAL}
    clash = sorted(n for o, n in names.items() if n in defined and o in defined)
    if clash:
        raise SystemExit("these new names stand already: " + " ".join(clash))
    word = re.compile(r"(?<![\w'?])(" + "|".join(re.escape(n) for n in sorted(names, key=len, reverse=True)) + r")(?![\w'?])")
    for p, t in old.items():
        new = word.sub(lambda m: names[m[1]], t)
        if new != t:
            open(p, "w", encoding="utf-8").write(new)
    for n in sorted(names):
        print(n, "->", names[n])


if __name__ == "__main__":
    main(sys.argv[1] if len(sys.argv) > 1 else ".")
