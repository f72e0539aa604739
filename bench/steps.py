#!/usr/bin/env python3
"""How many steps a solve takes on each kind of site, beside the bound that is proved, beside an engine that searches anew for each unit, and beside
LEMON's Preflow.

    bench/steps.py [KIND ..]

The sites are those of `graphs.py`, all kinds where none is named. `steps.rs` counts: a model of the engine in plain Rust, since no command
can print the steps of the proved one, whose count has no bytes. Times are the model's too. `preflow.cpp` tells those of LEMON's three solves, without
the making of its graphs. Both are built first, by `rustc` and `g++`. Nothing depends on these numbers.
"""

import subprocess
import sys
import tempfile
from pathlib import Path

from graphs import KINDS

BENCH = Path(__file__).resolve().parent


def main():
    kinds = sys.argv[1:] or list(KINDS)
    if not set(kinds) <= set(KINDS):
        sys.exit(f"usage: bench/steps.py [{' | '.join(KINDS)}] ..")
    with tempfile.TemporaryDirectory() as folder:
        program, other, site = (Path(folder) / name for name in ("steps", "preflow", "limits.site"))
        subprocess.run(["rustc", "-O", "-o", program, BENCH / "steps.rs"], check=True)
        subprocess.run(["g++", "-O2", "-o", other, BENCH / "preflow.cpp"], check=True)
        for kind in kinds:
            with open(site, "w") as out:
                KINDS[kind](out)
            print(kind, flush=True)
            subprocess.run([program, site], check=True)
            with open(site, "rb") as source:
                told = subprocess.run([other], stdin=source, capture_output=True, text=True, check=True)
            print(f"  LEMON's three solves {float(told.stderr.split()[1]) * 1000:.1f} ms", flush=True)


if __name__ == "__main__":
    main()
