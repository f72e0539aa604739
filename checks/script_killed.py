#!/usr/bin/env python3
"""What a script that is killed leaves of a site in a file: the records of its first lines, and nothing else.

    checks/script_killed.py [TIMES] [SEED]

`virgule script --db FILE` runs a script of 20,000 lines, each of which adds a record, and is killed at a random moment (SIGKILL), so many times (50
where none is named). Each time the site is opened again by `virgule script --db FILE` itself, which adds one account more, and the file is looked over
by Python's sqlite3: it is whole, it has the rows of the script's first lines up to some line, as FORMATS says them, and then the row of that
account. It ends with status 1 at the first file that hasn't. The program is built first where it has to be.
"""

import random
import sqlite3
import subprocess
import sys
import tempfile
import time
from pathlib import Path

TOP = Path(__file__).resolve().parent.parent
PROGRAM = TOP / "crates" / "virgule" / "out" / "virgule"
NAMES = 10_000
LEVELS = ("Apprentice", "Journeyer", "Master")


def build():
    subprocess.run([TOP / "virgule", "check"], stdin=subprocess.DEVNULL, stdout=subprocess.DEVNULL, check=False)


def lines_and_rows():
    """The lines of the script behind its table, and the row that each adds: 10,000 accounts join, and then each certifies the next."""
    for n in range(NAMES):
        yield f"join n{n}", b"v=2&k=join&m=0&n=n%d&s=" % n
    for n in range(NAMES):
        level = LEVELS[n % len(LEVELS)]
        yield f"cert n{n} n{(n + 1) % NAMES} {level}", b"v=2&k=cert&m=0&a=%d&b=%d&l=%s" % (n, (n + 1) % NAMES, level.encode())


def run_killed(folder, script, seconds):
    """Runs the script, and kills it after so many seconds."""
    with open(script, "rb") as source:
        child = subprocess.Popen([PROGRAM, "script", "--db", "site.db"], cwd=folder, stdin=source, stdout=subprocess.DEVNULL)
        time.sleep(seconds)
        child.kill()
        child.wait()


def rows_left(folder, wanted):
    """How many rows the file has before the one that a second script adds. They should be those of the first lines."""
    script = "caps 3 2 1\njoin behind\n"
    run = subprocess.run([PROGRAM, "script", "--db", "site.db"], cwd=folder, input=script, text=True, stdout=subprocess.PIPE, check=True)
    with sqlite3.connect(Path(folder) / "site.db") as database:
        rows = [body for (body,) in database.execute("SELECT body FROM kept ORDER BY seq")]
        whole = database.execute("PRAGMA integrity_check").fetchone() == ("ok",)
    kept = len(rows) - 1
    accounts = min(kept, NAMES)
    right = rows == [*wanted[:kept], b"v=2&k=join&m=0&n=behind&s="] and run.stdout == f"joined {accounts}\n"
    return kept if whole and right else None


def main():
    times = int(sys.argv[1]) if len(sys.argv) > 1 else 50
    moments = random.Random(int(sys.argv[2]) if len(sys.argv) > 2 else 1)
    build()
    lines, rows = zip(*lines_and_rows())
    counts = []
    for n in range(times):
        # Every second file lies in memory, where many more rows are kept before the program is killed.
        with tempfile.TemporaryDirectory(dir="/dev/shm" if n % 2 else None) as folder:
            script = Path(folder) / "script"
            script.write_text("\n".join(("caps 3 2 1", *lines)) + "\n")
            run_killed(folder, script, moments.uniform(0.0, 2.0))
            kept = rows_left(folder, list(rows))
        if kept is None:
            print("a file that isn't a first part of the script's records")
            return 1
        counts.append(kept)
    print(f"{times} times killed: from {min(counts)} to {max(counts)} of {len(rows)} records were left, each time the first ones")
    return 0


if __name__ == "__main__":
    sys.exit(main())
