#!/usr/bin/env python3
"""What a process that is killed leaves of a site's rows: a first part of them, and nothing else.

    checks/keeper_killed.py [TIMES] [SEED]

The program of the crate `keeper_cases` keeps 20,000 rows in a file and is killed at a random moment (SIGKILL), so many times (50 where none is named).
Each time the file is opened again by the program itself, which goes on with one more row, and by Python's sqlite3, which looks it over: it has
`row 0`, `row 1` and so on up to some place, and then the row that was added. It ends with status 1 at the first file that hasn't. The program
is built first where it has to be.
"""

import random
import sqlite3
import subprocess
import sys
import tempfile
import time
from pathlib import Path

CRATE = Path(__file__).resolve().parent.parent / "crates" / "keeper_cases"
PROGRAM = CRATE / "out" / "keeper_cases"
ROWS = 20_000


def build():
    with open(CRATE / "stdin", "rb") as cases:
        subprocess.run(["rt", "run"], cwd=CRATE, stdin=cases, stdout=subprocess.DEVNULL, stderr=subprocess.DEVNULL, check=True)


def steps(*lines):
    return "killed\n" + "\n".join(("file kept.db", *lines)) + "\n"


def kill_one(folder, seconds):
    """Keeps rows, and is killed after so many seconds."""
    child = subprocess.Popen([PROGRAM], cwd=folder, stdin=subprocess.PIPE, stdout=subprocess.DEVNULL, text=True)
    child.stdin.write(steps(f"appends {ROWS}"))
    child.stdin.close()
    time.sleep(seconds)
    child.kill()
    child.wait()


def rows_left(folder):
    """How many rows the file has before the one that the program adds now. They should be those that were kept first."""
    subprocess.run([PROGRAM], cwd=folder, input=steps("append behind"), text=True, stdout=subprocess.PIPE, check=True)
    with sqlite3.connect(Path(folder) / "kept.db") as database:
        rows = database.execute("SELECT seq, body FROM kept ORDER BY seq").fetchall()
        whole = database.execute("PRAGMA integrity_check").fetchone() == ("ok",)
    kept = len(rows) - 1
    wanted = [(n + 1, b"row %d" % n) for n in range(kept)] + [(kept + 1, b"behind")]
    return kept if whole and rows == wanted else None


def main():
    times = int(sys.argv[1]) if len(sys.argv) > 1 else 50
    moments = random.Random(int(sys.argv[2]) if len(sys.argv) > 2 else 1)
    build()
    counts = []
    for _ in range(times):
        with tempfile.TemporaryDirectory() as folder:
            kill_one(folder, moments.uniform(0.0, 1.0))
            kept = rows_left(folder)
        if kept is None:
            print("a file that isn't a first part of the rows")
            return 1
        counts.append(kept)
    print(f"{times} times killed: from {min(counts)} to {max(counts)} of {ROWS} rows were left, each time the first ones")
    return 0


if __name__ == "__main__":
    sys.exit(main())
