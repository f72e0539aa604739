#!/usr/bin/env python3
"""A site that `virgule script --db FILE` keeps in a file, as Python's sqlite3 and the next run find it.

    checks/site_in_a_file.py

It plays a script over a new file twice, over a file of rows of version 1, over a file that is no database and over one that can't be made, and
names no file at all. It ends with status 1 at the first answer or row that isn't as FORMATS says. The program is built first where it has to be.
"""

import sqlite3
import subprocess
import sys
import tempfile
from contextlib import closing
from pathlib import Path

TOP = Path(__file__).resolve().parent.parent
PROGRAM = TOP / "crates" / "virgule" / "out" / "virgule"
OLD_ROWS = (
    b"v=1&k=join&m=0&n=raph&s=",
    b"v=1&k=join&m=1&n=alan&s=",
    b"v=1&k=seed&m=2&a=0",
    b"v=1&k=cert&m=3&a=0&b=1&l=Master",
    b"v=1&k=diary&m=86400&a=1&t=a+b%26c",
)


def build():
    subprocess.run([TOP / "virgule", "check"], stdin=subprocess.DEVNULL, stdout=subprocess.DEVNULL, check=False)


def play(file, *lines):
    """The status and the output of a script, whose table is `3 2 1`, over a file."""
    script = "\n".join(("caps 3 2 1", *lines)) + "\n"
    run = subprocess.run([PROGRAM, "script", "--db", file], input=script, text=True, stdout=subprocess.PIPE, stderr=subprocess.PIPE)
    return run.returncode, run.stdout


def rows(file):
    with closing(sqlite3.connect(file)) as database:
        if database.execute("PRAGMA integrity_check").fetchone() != ("ok",):
            return None
        return database.execute("SELECT seq, body FROM kept ORDER BY seq").fetchall()


def keep_old_rows(file):
    with closing(sqlite3.connect(file)) as database, database:
        database.execute("CREATE TABLE kept (seq INTEGER PRIMARY KEY, body BLOB NOT NULL)")
        database.executemany("INSERT INTO kept (body) VALUES (?)", ((row,) for row in OLD_ROWS))


def findings(folder):
    """What is found, and what should be."""
    site, old, text, missing = (str(Path(folder) / name) for name in ("site.db", "old.db", "text.db", "no/site.db"))
    kept = [(1, b"v=2&k=join&m=0&n=raph&s=")]
    yield "the first run", play(site, "join raph"), (0, "joined 0\n")
    yield "its rows", rows(site), kept
    yield "the second run", play(site, "join raph"), (0, "name taken 0\n")
    yield "its rows", rows(site), kept
    keep_old_rows(old)
    yield "rows of version 1", play(old, "join raph", "join mia", "cert raph alan Master"), (0, "name taken 0\njoined 2\nsame\n")
    behind = (b"v=2&k=join&m=0&n=mia&s=",)
    yield "the rows behind them", rows(old), [(n + 1, row) for n, row in enumerate(OLD_ROWS + behind)]
    Path(text).write_text("no database\n" * 100)
    yield "no database", play(text, "join raph"), (7, "keeper fault\n")
    yield "no folder", play(missing, "join raph"), (7, "keeper fault\n")
    yield "no file is named", play("", "join raph")[0], 2
    yield "a malformed script", play(text, "nonsense")[0], 3


def main():
    build()
    with tempfile.TemporaryDirectory() as folder:
        for title, found, wanted in findings(folder):
            if found != wanted:
                print(f"{title}: found {found}, not {wanted}")
                return 1
    print("each answer and each row is as it should be")
    return 0


if __name__ == "__main__":
    sys.exit(main())
