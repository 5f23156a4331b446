#!/usr/bin/env python3
"""Spells steps and goals in proof files as the check names them now: one named after `read_on` was `read-on`, and is `read_on`.

Run once, at the top of the checkout, after tools/respell.py: python3 tools/keep_source_names.py
"""

import glob
import re

# words of the check's own in the names of steps and goals
MADE = ["in_ok", "in_err", "in_default", "from_residual", "overflow_add", "overflow_sub", "overflow_mul", "invariant_of"]


def words(crate):
    found = set()
    for path in glob.glob(f"{crate}/src/**/*.rt", recursive=True):
        with open(path, encoding="utf-8") as f:
            for line in f:
                code = line.split("//")[0]
                if not re.match(r"\s*(ghost|requires|ensures)", code):
                    found |= {w for w in re.findall(r"[A-Za-z]\w*", code) if "_" in w.strip("_")}
    return found


for crate in sorted(glob.glob("crates/*")):
    table = {w.replace("_", "-"): w for w in words(crate) | set(MADE)}
    pattern = re.compile(r"(?<![\w'])(" + "|".join(sorted(map(re.escape, table), key=len, reverse=True)) + r")(?![\w'])")
    for path in sorted(glob.glob(f"{crate}/proofs/*/**/*.antt", recursive=True)):
        with open(path, encoding="utf-8") as f:
            text = f.read()
        new = "".join(l if l.startswith("use ") and ".Goals." not in l else pattern.sub(lambda m: table[m.group(1)], l) for l in text.splitlines(keepends=True))
        if new != text:
            with open(path, "w", encoding="utf-8") as f:
                f.write(new)
