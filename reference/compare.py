#!/usr/bin/env python3
"""Holds the program `tables` to the reader in table_reader.py, on 1,000 texts.

    python3 reference/compare.py [SEED]

Run it after `rt run` in crates/tables, which leaves the program there. It prints the seed, so that a run can be had again.
"""

import collections
import pathlib
import random
import subprocess
import sys

sys.dont_write_bytecode = True

from damaged_texts import texts
from table_reader import answer

COUNT = 1000
PROGRAM = pathlib.Path(__file__).resolve().parent.parent / "crates" / "tables" / "out" / "tables"


def main():
    seed = int(sys.argv[1]) if len(sys.argv) > 1 else random.SystemRandom().randrange(2**32)
    print(f"seed={seed} texts={COUNT}")
    outcomes, differences = collections.Counter(), 0
    for text in texts(random.Random(seed), COUNT):
        expected = answer(text)
        run = subprocess.run([PROGRAM], input=text, stdout=subprocess.PIPE, check=False)
        outcomes[expected.split()[0].decode() if expected.startswith(b"refused=") else "read"] += 1
        if run.returncode != 0 or run.stdout != expected:
            differences += 1
            print(f"differs: {text!r}\n  reader  {expected!r}\n  program {run.stdout!r} status {run.returncode}")
    print(" ".join(f"{name}:{outcomes[name]}" for name in sorted(outcomes)), f"differences={differences}")
    return 1 if differences else 0


if __name__ == "__main__":
    sys.exit(main())
