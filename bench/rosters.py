#!/usr/bin/env python3
"""`virgule rosters all` beside a C++ program over LEMON on the same site texts, and `virgule check` on an audit.

    bench/rosters.py [RUNS [BUILD ..]]

The sites are those of `graphs.py`, one of each kind, with 100,000 accounts and about 2,000,000 certificates but for the star. For each kind it
shows the user seconds of both programs, those of virgule also as a part of the other's (the aim is at most a half), and for LEMON's
also those of its three solves alone; the most memory that each one held, that of virgule also as a multiple of the text's size
(the aim is at most six); and whether both accept equally many accounts at each level. Then `check` reads the audit of one of these
sites, beside `sha256sum` on it. Nothing depends on these numbers.

The programs run in turn, each so many times (3 where none is named), and the least time and the most memory are shown. Other builds of
virgule that are named by their paths run among them: behind each line stand the user seconds of each, how many times ours they are, its memory,
and whether it wrote the same bytes.
virgule is built first where it has to be; the other needs `g++` and LEMON's headers (Debian's `liblemon-dev`).
"""

import subprocess
import sys
import tempfile
from pathlib import Path

from graphs import KINDS
from measured import measure_in_turn

TOP = Path(__file__).resolve().parent.parent
PROGRAM = TOP / "crates" / "virgule" / "out" / "virgule"
AUDITED = ("random", "Apprentice")


def counts(output):
    """How many accounts are accepted at each level."""
    return [line.split()[:2] for line in output.splitlines()]


def write_site(kind, text):
    """Writes the site of this kind, in a process of its own, so that this one stays small."""
    with open(text, "wb") as out:
        subprocess.run([sys.executable, TOP / "bench" / "graphs.py", kind], stdout=out, check=True)


def print_rosters(kind, text, other, builds, runs):
    """Runs both programs, and other builds of ours, over a site's text, and prints a line on them."""
    size = text.stat().st_size / 2**20
    commands = [[PROGRAM, "rosters", "all"], [other], *([build, "rosters", "all"] for build in builds)]
    ours, theirs, *others = measure_in_turn(commands, text, runs)
    solves = float(theirs.notes.split()[1])
    found = counts(ours.output)
    agree = "agree" if found == counts(theirs.output) else "DIFFER"
    print(
        f"{kind:<10} {size:7.1f} {ours.user:9.2f} {ours.user / theirs.user:6.2f} {ours.memory:8.1f} {ours.memory / size:6.1f}"
        f" {theirs.user:9.2f} {solves:7.2f} {theirs.memory:8.1f}"
        f"   {' '.join(number for _, number in found)} {agree}"
        + "".join(
            f"   {run.user:.2f} ({run.user / ours.user:.2f}) {run.memory:.1f} {'the same' if run.output == ours.output else 'DIFFERS'}" for run in others
        ),
        flush=True,
    )


def print_check(site, level, proof, runs):
    """Writes the audit of a site, and prints what `check` takes to read it."""
    with open(site, "rb") as source, open(proof, "wb") as out:
        subprocess.run([PROGRAM, "audit", level], stdin=source, stdout=out, check=True)
    size = proof.stat().st_size / 2**20
    checked, hashed = measure_in_turn([[PROGRAM, "check"], ["sha256sum"]], proof, runs)
    print(
        f"check of its audit at {level}, {size:.1f} MB: {checked.user:.2f} s, {checked.memory:.1f} MB, {checked.output.strip()};"
        f" sha256sum: {hashed.user:.2f} s",
        flush=True,
    )


def main():
    runs = int(sys.argv[1]) if len(sys.argv) > 1 else 3
    builds = sys.argv[2:]
    subprocess.run([TOP / "virgule", "check"], stdin=subprocess.DEVNULL, stdout=subprocess.DEVNULL, check=False)
    print(f"{'':<10} {'text':>7} {'virgule':>32} {'LEMON':>26}   accepted")
    print(
        f"{'':<10} {'MB':>7} {'user s':>9} {'part':>6} {'MB':>8} {'times':>6} {'user s':>9} {'solves':>7} {'MB':>8}   lowest level first"
    )
    with tempfile.TemporaryDirectory() as folder:
        other, site, proof = (Path(folder) / name for name in ("preflow", "limits.site", "limits.proof"))
        subprocess.run(["g++", "-O2", "-o", other, TOP / "bench" / "preflow.cpp"], check=True)
        for kind in KINDS:
            write_site(kind, site)
            print_rosters(kind, site, other, builds, runs)
            if kind == AUDITED[0]:
                print_check(site, AUDITED[1], proof, runs)


if __name__ == "__main__":
    main()
