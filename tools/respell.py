#!/usr/bin/env python3
"""Respells the repository's own definitions, lemmas and record fields as Rattle spells names.

Words of specs/ and proofs/ are in snake case, facts and types in camel case. A dash is left to the names that the check makes.
Run once, at the top of the checkout, after the toolchain's own script: python3 tools/respell.py [--dry]
"""

import glob
import re
import sys

SIGNATURE = re.compile(r"^\s*(?:(?:pub|abbrev|unfoldable|ruleset|record|data)\s+)*([^\s:(){}\[\]]+)\s*:\s*(.*)")
HEAD = re.compile(r"\b(?:record|data)\s+([\w'-]+)\s*[({]")
BOUND = re.compile(r"[({]((?:[\w'-]+ )+): ")
ALIAS = re.compile(r"\bas ([\w'-]+)[,}]")
GOAL = re.compile(r"(?:goal|given|need)\.")
LETTER = r"[\w'·′-]"


def proof_files():
    return sorted(glob.glob("crates/*/specs/**/*.antt", recursive=True) + glob.glob("crates/*/proofs/**/*.antt", recursive=True))


def respelled(name):
    """The name's new spelling: a fact joins its words by capitals, everything else by underscores."""
    words = name.split("-")
    if name[0].isupper() and not name.isupper():
        return "".join(w[0].upper() + w[1:] for w in words)
    return "_".join(words)


def source_files():
    return sorted(glob.glob("crates/*/src/**/*.rt", recursive=True))


def own_names():
    """The names that files of the repository declare, but for answers, which are named after goals."""
    found = set()
    for path in proof_files() + source_files():
        with open(path, encoding="utf-8") as f:
            for line in f:
                found |= {a for a in ALIAS.findall(line) if "use" in line}
                if path.endswith(".rt") or line.lstrip().startswith("--"):
                    continue
                m = SIGNATURE.match(line)
                if m and not GOAL.match(m.group(2)):
                    found.add(m.group(1))
                found |= set(HEAD.findall(line))
                found |= {n for names in BOUND.findall(line) for n in names.split()}
    return found


def turned(text, table, clauses_only):
    """The text with each whole name of the table respelled; of a source file only the lines that are clauses."""
    pattern = re.compile(f"(?<!{LETTER})(" + "|".join(sorted(map(re.escape, table), key=len, reverse=True)) + f")(?!{LETTER})")

    def line(l):
        if clauses_only and not re.search(r"ghost|requires|ensures|[≡×λ→≤⊎]|tactic", l):
            return l
        return pattern.sub(lambda m: table[m.group(1)], l)

    return "".join(line(l) for l in text.splitlines(keepends=True))


def main():
    names = own_names()
    table = {n: respelled(n) for n in names if "-" in n and respelled(n) != n}
    taken = {}
    for old, new in sorted(table.items()):
        if new in names or new in taken:
            print(f"falls together: {old} and {taken.get(new, new)} would both be {new}")
        taken[new] = old
    if "--dry" in sys.argv:
        for old, new in sorted(table.items()):
            print(old, new)
        return
    for path in proof_files() + source_files() + sorted(glob.glob("crates/*/must-fail/*.edit")):
        with open(path, encoding="utf-8") as f:
            text = f.read()
        new = turned(text, table, not path.endswith(".antt"))
        if new != text:
            with open(path, "w", encoding="utf-8") as f:
                f.write(new)


main()
