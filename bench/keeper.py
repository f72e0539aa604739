#!/usr/bin/env python3
"""Rows a second that are kept in SQLite, in memory and in a file, and the time of reading them all again, beside Python's sqlite3.

    bench/keeper.py [KEPT] [READ]

The program of the crate `keeper_cases` keeps so many rows (20,000 where none is named), each committed before the next: in memory, in a file, and
in a file of a folder in memory (/dev/shm), where no disk is waited for. Then it opens a file of so many rows (1,000,000) that Python wrote, and reads
them all in order; the aim is at most 10 seconds. Python does the same with one insert a commit, with a log as this keeper's (`journal_mode` wal), and with
one query. It also looks each file over with `integrity_check`, and counts its rows. Wall-clock time; nothing depends on these numbers. The program is
built first where it has to be.
"""

import sqlite3
import subprocess
import sys
import tempfile
import time
from pathlib import Path

CRATE = Path(__file__).resolve().parent.parent / "crates" / "keeper_cases"


def build():
    with open(CRATE / "stdin", "rb") as cases:
        subprocess.run(["rt", "run"], cwd=CRATE, stdin=cases, stdout=subprocess.DEVNULL, stderr=subprocess.DEVNULL, check=True)


def by_program(steps, folder, wanted):
    """Seconds of a run of these steps, which should show each of these answers."""
    begun = time.monotonic()
    run = subprocess.run([CRATE / "out" / "keeper_cases"], input="bench\n" + "\n".join(steps) + "\n", cwd=folder, text=True, stdout=subprocess.PIPE, check=True)
    spent = time.monotonic() - begun
    for answer in wanted:
        assert f"    {answer}\n" in run.stdout, run.stdout
    return spent


def by_python(path, kept):
    """Seconds for one insert a commit."""
    begun = time.monotonic()
    with sqlite3.connect(path, isolation_level=None) as database:
        database.execute("PRAGMA journal_mode = wal")
        database.execute("CREATE TABLE kept (seq INTEGER PRIMARY KEY, body BLOB NOT NULL)")
        for n in range(kept):
            database.execute("INSERT INTO kept (body) VALUES (?)", (b"row %d" % n,))
    return time.monotonic() - begun


def look_over(path, kept):
    with sqlite3.connect(path) as database:
        assert database.execute("PRAGMA integrity_check").fetchone() == ("ok",)
        assert database.execute("SELECT count(*), max(seq) FROM kept").fetchone() == (kept, kept)


def fill(path, kept):
    with sqlite3.connect(path) as database:
        database.execute("CREATE TABLE kept (seq INTEGER PRIMARY KEY, body BLOB NOT NULL)")
        database.executemany("INSERT INTO kept (body) VALUES (?)", ((b"v=2&k=cert&m=0&a=%d&b=%d&l=Master" % (n, n + 1),) for n in range(kept)))


def main():
    kept = int(sys.argv[1]) if len(sys.argv) > 1 else 20_000
    read = int(sys.argv[2]) if len(sys.argv) > 2 else 1_000_000
    build()
    print(f"{'rows a second':<24} {'here':>9} {'Python':>9}")
    with tempfile.TemporaryDirectory() as disk, tempfile.TemporaryDirectory(dir="/dev/shm") as memory:
        here = by_program(["memory", f"appends {kept}"], disk, [f"{kept} kept"])
        print(f"{'kept in memory':<24} {kept / here:>9.0f} {kept / by_python(':memory:', kept):>9.0f}", flush=True)
        for title, folder in ("kept in a file", disk), ("kept in /dev/shm", memory):
            here = by_program(["file kept.db", f"appends {kept}"], folder, [f"{kept} kept"])
            look_over(Path(folder) / "kept.db", kept)
            print(f"{title:<24} {kept / here:>9.0f} {kept / by_python(Path(folder) / 'python.db', kept):>9.0f}", flush=True)
        fill(Path(disk) / "many.db", read)
        here = by_program(["file many.db", "count"], disk, [])
        begun = time.monotonic()
        with sqlite3.connect(Path(disk) / "many.db") as database:
            assert sum(1 for _ in database.execute("SELECT body FROM kept ORDER BY seq")) == read
        print(f"{f'{read:,} rows read, s':<24} {here:>9.2f} {time.monotonic() - begun:>9.2f}")


if __name__ == "__main__":
    main()
