#!/usr/bin/env python3
"""Finds forms of the older language in src/: a line for each place, and a count for each point of docs/DESIGN-PASS.md.

At the top of the checkout: python3 tools/forms.py [POINT]
Patterns find lines; some lines are no place, and docs/DESIGN-PASS.md says which.
"""

import glob
import re
import sys

POINTS = {
    "1": [
        ("an error or a None handed on by hand", r"return None;|Err\((fault|refusal|e|f)\) => (return )?Err\(|Err\(_\) =>|=> Ok\((?!\(\)\)).*\),$|None => Err\("),
        ("a flag in a record", r"^\s*(pub(\(crate\))? )?\w+: bool,$"),
        ("a number for a kind", r"::\w+(\(\w+\))? => -?[\d_]+,$"),
    ],
    "2": [
        ("functions of one shape", None),
    ],
    "3": [
        ("a loop with a counter", r"^\s*while\b|^\s*\w+(\.\w+)? \+= 1;"),
    ],
    "4": [
        ("a cast", r" as (u8|u16|u32|u64|usize|i16|i32|i64)\b"),
        ("a record written anew from its own fields", r"^\s*\w+: self\.\w+(\.\w+)?,$"),
        ("bytes of a number or a name put by hand", r"\bput_(signed|unsigned|numeral|named|part|position|number|digits)\(|=> b\""),
        ("a range tested by two comparisons", r"<= .* && .* <=|< .* \|\| .* > "),
    ],
    "5": [
        ("a fact that is asked of a caller", r"^\s*requires\b"),
        ("the same clause in three or more contracts", None),
    ],
    "6": [
        ("an array in a record", r"^\s*(pub(\(crate\))? )?\w+: \[\w+; \w+\],$"),
        ("a length or a count in a record", r"^\s*(pub(\(crate\))? )?(filled|count|len|used)(: usize)?,$"),
    ],
    "7": [
        ("a call of one record among many", r"&mut self\.records\[axis\]"),
    ],
}

SIGNATURE = re.compile(r"\bfn (\w+)")


def lines():
    for path in sorted(glob.glob("crates/*/src/**/*.rt", recursive=True)):
        with open(path, encoding="utf-8") as f:
            for number, line in enumerate(f, 1):
                if not line.lstrip().startswith(("//", "ghost use")):
                    yield path, number, line.rstrip("\n")


def bodies():
    """Each function's text with its name, by its signature line."""
    for path in sorted(glob.glob("crates/*/src/**/*.rt", recursive=True)):
        with open(path, encoding="utf-8") as f:
            text = f.read()
        for m in re.finditer(r"^( *)(pub(?:\(crate\))? )?fn (\w+)[^\n]*\n(?:.*\n)*?\1}", text, re.M):
            yield path, text[: m.start()].count("\n") + 1, m.group(3), m.group(0)


def shape(body):
    """A body without clauses, numbers and names of variants: what twins have in common."""
    code = "\n".join(l for l in body.splitlines() if not re.match(r"\s*(requires|ensures|ghost|//)", l))
    code = re.sub(r"fn \w+", "fn", code)
    code = re.sub(r"-?\b\d[\d_]*\b", "N", code)
    code = re.sub(r"\b[A-Z]\w*::[A-Z]\w*", "V", code)
    code = re.sub(r"\b(true|false)\b", "B", code)
    code = re.sub(r"\b(u8|u16|u32|u64|usize|i16|i32|i64)\b", "T", code)
    return re.sub(r"\s+", " ", code)


def twins():
    seen = {}
    for path, number, name, body in bodies():
        if body.rstrip().endswith("{}"):
            continue
        seen.setdefault(shape(body), []).append((path, number, name))
    return [group for group in seen.values() if len(group) > 1]


def repeated():
    """Clauses of one line, without their labels, that stand in three or more contracts."""
    seen = {}
    for path, number, line in lines():
        m = re.match(r"\s*(requires|ensures)( \w+)? (\{.*\})$", line)
        if m:
            seen.setdefault(m.group(1) + " " + m.group(3), []).append((path, number))
    return {clause: places for clause, places in seen.items() if len(places) > 2}


def groups(point):
    if point == "2":
        return [f"{p}:{n}: fn {name}" for group in twins() for p, n, name in group]
    return [f"{p}:{n}: {clause}" for clause, places in repeated().items() for p, n in places]


def main():
    asked = sys.argv[1:] or list(POINTS)
    for point in asked:
        total = 0
        for what, pattern in POINTS[point]:
            if pattern is None:
                found = groups(point)
            else:
                found = [f"{p}:{n}: {l.strip()}" for p, n, l in lines() if re.search(pattern, l)]
            for line in found:
                print(f"{point}  {line}")
            print(f"{point}  -- {what}: {len(found)}")
            total += len(found)
        print(f"{point}  == {total}")


main()
