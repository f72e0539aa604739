#!/usr/bin/env python3
"""Time and memory of `virgule check` on proof texts at the limits, beside those of `sha256sum` on the same texts.

    bench/check.py [RUNS]

Each text has 100,000 accounts and 2,000,000 certificates, and its verdict is `greatest 1999`: one canonical, and one with the
same certificates in random order. The aim is at most five times the time of `sha256sum` on each. Nothing depends on these
numbers. The program is built first where it has to be. The two programs run in turn, each so many times (5 where none is named), and
the least of each time and the most memory are shown.
"""

import multiprocessing
import random
import subprocess
import sys
import tempfile
from pathlib import Path

from measured import measure_in_turn

TOP = Path(__file__).resolve().parent.parent
ACCOUNTS = 100_000
CERTIFICATES = 2_000_000
SEEDS = 10
CHILDREN = 199  # of each seed but the last, which has one less


def children(seed):
    """The accounts that a seed certifies and serves."""
    first = SEEDS + seed * CHILDREN
    return range(first, first + CHILDREN - (seed == SEEDS - 1))


def certificates():
    """Each giver's takers, in rising order."""
    draw = random.Random(1)
    served = sum(len(children(seed)) for seed in range(SEEDS))
    others = ACCOUNTS - SEEDS
    each, more = divmod(CERTIFICATES - served, others)
    for seed in range(SEEDS):
        yield seed, children(seed)
    for giver in range(SEEDS, ACCOUNTS):
        takers = draw.sample(range(ACCOUNTS - 1), each + (giver - SEEDS < more))
        yield giver, sorted(taker + (taker >= giver) for taker in takers)


def certificate_lines():
    """The lines of the certificates, in canonical order."""
    levels = ("Master", "Journeyer", "Apprentice")
    for giver, takers in certificates():
        for taker in takers:
            yield f"cert u{giver} u{taker} {levels[0 if giver < SEEDS else (giver + taker) % 3]}\n"


def shuffled(lines):
    """The lines in random order."""
    lines = list(lines)
    random.Random(3).shuffle(lines)
    return lines


def write_text(path, in_order):
    """A proof text at the limits: canonical, or with its certificates in random order."""
    with open(path, "w", encoding="ascii") as out:
        out.write("caps 2000 200 1\n")
        out.writelines(f"account u{number}\n" for number in range(ACCOUNTS))
        out.writelines(f"seed u{number}\n" for number in range(SEEDS))
        out.writelines(certificate_lines() if in_order else shuffled(certificate_lines()))
        out.write("level Apprentice\n")
        out.writelines(f"flow - u{seed} {1 + len(children(seed))}\n" for seed in range(SEEDS))
        for seed in range(SEEDS):
            out.writelines(f"flow u{seed} u{child} 1\n" for child in children(seed))
        out.write("pass -\n")
        out.writelines(f"pass u{seed}\n" for seed in range(SEEDS))
        out.writelines(f"full u{child}\n" for seed in range(SEEDS) for child in children(seed))


def print_measures(title, text, program, runs):
    """Runs both programs over the text, and prints what they took."""
    size = text.stat().st_size / 2**20
    hashed, checked = measure_in_turn([["sha256sum"], [program, "check"]], text, runs)
    print(f"{title}: {size:.1f} MB")
    for name, run in (("sha256sum", hashed), ("virgule check", checked)):
        first = run.output.split("\n")[0]
        print(f"{name:<14} {run.processor:6.2f} s processor, {run.elapsed:6.2f} s passed, {run.memory:7.1f} MB   {first[:32]}")
    times = checked.processor / hashed.processor
    print(f"times: {times:.1f} of the time, {checked.memory / size:.1f} of the text's size in memory")


def main():
    runs = int(sys.argv[1]) if len(sys.argv) > 1 else 5
    subprocess.run([TOP / "virgule", "check"], stdin=subprocess.DEVNULL, stdout=subprocess.DEVNULL, check=False)
    program = TOP / "crates" / "virgule" / "out" / "virgule"
    with tempfile.TemporaryDirectory() as folder:
        text = Path(folder) / "limits.proof"
        for title, in_order in (("canonical", True), ("in random order", False)):
            # In a process of its own, so that this one stays small.
            writer = multiprocessing.Process(target=write_text, args=(text, in_order))
            writer.start()
            writer.join()
            print_measures(title, text, program, runs)


if __name__ == "__main__":
    main()
