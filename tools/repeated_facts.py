#!/usr/bin/env python3
"""Facts that stand in the contracts of three or more functions, and parameters that travel together through three or more.

usage: python3 tools/repeated_facts.py            at the top of the repository
A clause over several lines is read as one; a conjunction is taken apart; `.now`, `.old` and `.new` are left away.
"""

import collections
import glob
import itertools
import re

FN = re.compile(r"\s*(?:pub(?:\(\w+\))? )?fn (\w+)(?:<[^(]*>)?\((.*)$")


def parts(clause):
    """The conjuncts of a clause."""
    out, depth, at = [], 0, 0
    for i, ch in enumerate(clause):
        depth += (ch in "({") - (ch in ")}")
        if ch == "×" and depth == 0:
            out.append(clause[at:i].strip())
            at = i + 1
    out.append(clause[at:].strip())
    if len(out) > 1 or not (out[0].startswith("(") and out[0].endswith(")")):
        found = []
        for p in out:
            found += parts(p[1:-1]) if len(out) > 1 and p.startswith("(") and p.endswith(")") else [p]
        return found
    return parts(out[0][1:-1]) if out[0].count("(") == out[0].count(")") and balanced(out[0][1:-1]) else out


def balanced(text):
    depth = 0
    for ch in text:
        depth += (ch == "(") - (ch == ")")
        if depth < 0:
            return False
    return depth == 0


def functions():
    """Name, parameters and clauses of every function."""
    for path in sorted(glob.glob("crates/*/src/**/*.rt", recursive=True)):
        if path.endswith("_tests.rt"):
            continue
        text = open(path, encoding="utf-8").read()
        for m in re.finditer(r"^ *(?:pub(?:\(\w+\))? )?fn (\w+)(?:<.*?>)?\((.*?)\)(?: -> [^\n{]*)?\n((?: +(?:where|requires|ensures)\b.*?\n)?.*?)(?:^ *\{$|^[^\n]*;$|\Z)", text, re.M | re.S):
            name = path[len("crates/"):] + ":" + m.group(1)
            params = [" ".join(p.split()) for p in re.split(r",(?![^<(\[]*[>)\]])", m.group(2)) if p.strip()]
            head = m.group(0)[m.start(3) - m.start(0):]
            clauses = [" ".join(c.split()) for c in re.findall(r"^ *(?:requires|ensures)(?: \w+)? \{ (.*?) \}\s*;?$", head, re.M | re.S)]
            yield name, params, clauses


def main():
    facts, groups = collections.defaultdict(set), collections.defaultdict(set)
    for name, params, clauses in functions():
        for clause in clauses:
            for fact in parts(clause):
                facts[re.sub(r"\.(now|old|new)\b", "", fact)].add(name)
        for pair in itertools.combinations(sorted(p for p in params if "self" not in p), 2):
            groups[pair].add(name)
    print("facts in three contracts or more")
    for fact, names in sorted(facts.items(), key=lambda x: (-len(x[1]), x[0])):
        if len(names) >= 3:
            print(f"  {len(names)}  {fact}    {', '.join(sorted(names))}")
    print("parameters together in three functions or more")
    for pair, names in sorted(groups.items(), key=lambda x: (-len(x[1]), x[0])):
        if len(names) >= 3:
            print(f"  {len(names)}  {', '.join(pair)}    {', '.join(sorted(names))}")


if __name__ == "__main__":
    main()
