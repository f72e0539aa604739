#!/usr/bin/env python3
"""Time of reading and of writing rows, beside that of Python's json over the same records.

    bench/records.py [RUNS]

A thousand rows of a kind are read a thousand times each by the program of the crate `record_cases`, and read and written again as often; the
difference is the time of writing. The processor time of a run, divided by a million, is shown in nanoseconds a row. Python reads and
writes each record once, as json. The aim is at most 1,000 nanoseconds for the row of a certificate each way. Nothing depends on these
numbers. The program is built first where it has to be. It runs so many times (5 where none is named), and the least time is shown.
"""

import json
import subprocess
import sys
import tempfile
import time
from pathlib import Path
from urllib.parse import parse_qsl

from measured import measure_in_turn

CRATE = Path(__file__).resolve().parent.parent / "crates" / "record_cases"
ROWS = 1_000
MILLION = ROWS * 1_000
LEVELS = "Apprentice Journeyer Master Fellow Warden Elder".split()

KINDS = {
    "certificate": lambda n: f"v=2&k=cert&m={1735689600 + n}&a={n * 97}&b={n * 89 + 1}&l={LEVELS[n % 6]}",
    "certificate, version 1": lambda n: f"v=1&k=cert&m={1735689600 + n}&a={n * 97}&b={n * 89 + 1}&l={LEVELS[n % 3]}",
    "join with a digest": lambda n: f"v=2&k=join&m={1735689600 + n}&n=name{n}&s={n:064x}",
    "table": lambda n: f"v=2&k=table&m={1735689600 + n}&g=4&c=800+200+50+12+4+2+1",
    "diary, 100 letters": lambda n: f"v=2&k=diary&m={1735689600 + n}&a={n}&t={'ten+words+' * 10}",
    "diary, 1,000 letters": lambda n: f"v=2&k=diary&m={1735689600 + n}&a={n}&t={'ten%2C+words' * 100}",
}


def build():
    with open(CRATE / "stdin", "rb") as cases:
        subprocess.run(["rt", "run"], cwd=CRATE, stdin=cases, stdout=subprocess.DEVNULL, stderr=subprocess.DEVNULL, check=True)


def by_program(path, heading, rows, runs):
    """Nanoseconds a row."""
    path.write_text(f"{heading}: {len(rows)} rows\n" + "\n".join(rows) + "\n\n", encoding="ascii")
    [run] = measure_in_turn([[CRATE / "out" / "record_cases"]], path, runs)
    return run.processor / MILLION * 1e9


def nanoseconds(work, values):
    start = time.process_time()
    for value in values:
        work(value)
    return (time.process_time() - start) / len(values) * 1e9


def main():
    runs = int(sys.argv[1]) if len(sys.argv) > 1 else 5
    build()
    print(f"{'nanoseconds a row':<24} {'read':>8} {'written':>8} {'json read':>10} {'json written':>13}")
    with tempfile.TemporaryDirectory() as folder:
        for title, row in KINDS.items():
            rows = [row(n) for n in range(ROWS)]
            path = Path(folder) / "rows"
            read = by_program(path, "reads", rows, runs)
            both = by_program(path, "writes", rows, runs)
            records = [dict(parse_qsl(row, keep_blank_values=True)) for row in rows] * 20
            texts = [json.dumps(record) for record in records]
            print(
                f"{title:<24} {read:>8.0f} {both - read:>8.0f}"
                f" {nanoseconds(json.loads, texts):>10.0f} {nanoseconds(json.dumps, records):>13.0f}",
                flush=True,
            )


if __name__ == "__main__":
    main()
