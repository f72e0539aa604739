#!/usr/bin/env python3
"""Readers and workers at a large site: a look at the last publication, the waits of certificates beside a worker's rounds, and grades solved at once.

    bench/rounds.py [CERTIFICATES [ACCOUNTS [RUNS]]]

The program of the crate `seat_cases` grows a site by so many certificates at random among so many accounts (1,980,000 and 100,000 where none are named), of
whom four are seeds, over the usual table. Then it does one of these, and what a run without it takes is taken off:

- 100,000,000 looks whether a cache holds the last publication. The aim is under 100 nanoseconds each;
- 5 solves of the site's graph at three grades, one grade after another, and 5 with all grades at once. On four processors the aim is at most 0.6 of the time;
- 10,000 certificates, one after another with a pause before each, while rounds of a worker follow each other in another thread. The program says itself
  how long the middle one and the slowest took, and the slowest freeze of the rounds; the aim is that no certificate waits longer than one freeze.

The time is what passes. Nothing depends on these numbers. The program is built first where it has to be. Each runs so many times (3 where none is named), and
the least time is shown.
"""

import re
import sys
import tempfile
from pathlib import Path

from measured import build_cases, measure_in_turn, run_once

CRATE = Path(__file__).resolve().parent.parent / "crates" / "seat_cases"
PROGRAM = [CRATE / "out" / "seat_cases"]
SEEDS = 4
LOOKS = 100_000_000
SOLVES = 5
TIMED = 10_000


def written(path, accounts, certificates, steps):
    """The path of a scene in which a site grows and takes these steps."""
    seeds = [f"1: n{number} is a seed" for number in range(SEEDS)]
    grown = ["a site that grows", f"large grow {accounts} {certificates}", *seeds, "1: the usual table"]
    path.write_text("".join(f"{step}\n" for step in [*grown, *steps, "close", ""]), encoding="ascii")
    return path


def main():
    words = [int(word) for word in sys.argv[1:]]
    certificates, accounts, runs = words + [1_980_000, 100_000, 3][len(words) :]
    build_cases(CRATE)
    with tempfile.TemporaryDirectory() as folder:
        path = Path(folder) / "steps"

        def seconds(*steps):
            [run] = measure_in_turn([PROGRAM], written(path, accounts, certificates, steps), runs)
            return run.elapsed

        looks = seconds("1: publish", f"large look {LOOKS}") - seconds("1: publish", "large look 1")
        print(f"a look at the last publication: {looks / LOOKS * 1e9:.1f} ns", flush=True)
        once = seconds("large solve 1")
        apart = (seconds(f"large solve {SOLVES + 1}") - once) / SOLVES
        wide = (seconds(f"large solve-at-once {SOLVES + 1}") - seconds("large solve-at-once 1")) / SOLVES
        print(f"three grades one after another: {apart:.3f} s; at once: {wide:.3f} s, {wide / apart:.2f} of it", flush=True)
        steps = [f"rounds beside {accounts} {TIMED}"]
        for _ in range(runs):
            run = run_once(PROGRAM, written(path, accounts, certificates, steps))
            told = re.search(r"(\d+) replies, the middle one after (\d+), the slowest after (\d+); (\d+) publications, the slowest freeze (\d+)", run.output)
            replies, middle, slowest, rounds, freeze = (int(number) for number in told.groups())
            print(
                f"{replies:,} certificates beside {rounds} rounds: the middle one {middle / 1000:.1f} µs, "
                f"the slowest {slowest / 1000:.0f} µs; the slowest freeze {freeze / 1000:.0f} µs",
                flush=True,
            )


main()
