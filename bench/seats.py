#!/usr/bin/env python3
"""Acts a second through one seat of a shared site, alone and beside seven threads that load the news, and the same acts on a book that nobody shares.

    bench/seats.py [ACTS [RUNS]]

The program of the crate `seat_cases` submits the same diary entry so many times (200,000 where none is named) through a seat: alone, and while seven
readers, each with a seat in a thread of its own, look at the news without a pause. The program of `site_cases` submits the same entries to a book. What
a run without entries takes is taken off. The time is what passes, since the readers' processors aren't the writer's: with fewer than eight
processors the readers also take from the writer what is its own.

Nothing depends on these numbers. The programs are built first where they have to be. Each runs so many times (3 where none is named), and the least time is
shown.
"""

import sys
import tempfile
from pathlib import Path

from measured import build_cases, measure_in_turn

CRATES = Path(__file__).resolve().parent.parent / "crates"
READERS = 7


def seconds(crate, path, steps, runs):
    """Seconds that pass while the crate's program takes these steps."""
    path.write_text("".join(f"{step}\n" for step in steps) + "\n", encoding="ascii")
    [run] = measure_in_turn([[CRATES / crate / "out" / crate]], path, runs)
    return run.elapsed


def through_seat(path, count, readers, runs):
    return seconds("seat_cases", path, ["a load", "1: raph joins", f"load {count} beside {readers}: raph writes of the sea", "close"], runs)


def on_book(path, count, runs):
    return seconds("site_cases", path, ["book: a load", "open", "join raph", f"times {count} raph: diary of the sea"], runs)


def show(title, count, taken, before):
    print(f"{title:<56} {count / (taken - before):>12,.0f}", flush=True)


def main():
    words = [int(word) for word in sys.argv[1:]]
    count, runs = words + [200_000, 3][len(words) :]
    for crate in ("seat_cases", "site_cases"):
        build_cases(CRATES / crate)
    with tempfile.TemporaryDirectory() as folder:
        path = Path(folder) / "steps"
        print(f"{'acts a second':<56}")
        show("on a book", count, on_book(path, count, runs), on_book(path, 1, runs))
        show("through a seat", count, through_seat(path, count, 0, runs), through_seat(path, 1, 0, runs))
        show(f"through a seat beside {READERS} readers of the news", count, through_seat(path, count, READERS, runs), through_seat(path, 1, READERS, runs))


main()
