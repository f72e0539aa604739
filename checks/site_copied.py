#!/usr/bin/env python3
"""Copies of a site's file that `examples/copy_site.sh` makes while the site is served and members write.

    checks/site_copied.py [TIMES [PROGRAM]]

Members write as in `checks/served_site_killed.py`, in a folder in memory, and meanwhile the file is copied so many times (50 where none is named), one
copy behind the other. Each copy has to have first rows of the site's file as it is in the end, and no fewer than were answered for when the copy was
begun. A script goes on over the last one. sqlite3's own `.backup` has to be refused meanwhile. It ends with status 1 at the first copy that is
otherwise.
"""

import subprocess
import sys
import tempfile
import threading
from pathlib import Path

from served_site_killed import Community
from serving import TOP, Site, play, program_of, rows_of

MEMBERS = 4


def copy(file, name):
    target = file.parent / name
    subprocess.run([TOP / "examples" / "copy_site.sh", file, target], check=True)
    return target


def backup(file):
    """What sqlite3 says to a copy of its own."""
    run = subprocess.run(["sqlite3", file, f".backup {file.parent}/backup.db"], stderr=subprocess.PIPE, text=True, check=False)
    return run.stderr


def copies(program, community, times):
    """Serves while members write, and gives of each copy what was answered before it, and its rows."""
    found = []
    with Site(program, "--db", community.file) as site:
        writers = [threading.Thread(target=member.write, args=(site,)) for member in community.members]
        for writer in writers:
            writer.start()
        for n in range(times):
            answered = sum(member.answered for member in community.members)
            found.append((answered, rows_of(copy(community.file, f"copy{n}.db"))))
        refused = backup(community.file)
        if "locked" not in refused:
            sys.exit(f"a backup by sqlite3: {refused!r}")
        site.kill()
        for writer in writers:
            writer.join()
    return found


def main():
    words = sys.argv[1:]
    times = int(words[0]) if words else 50
    program = program_of(words, 1)
    with tempfile.TemporaryDirectory(dir="/dev/shm") as folder:
        community = Community(program, folder, MEMBERS)
        founding = len(community.rows)
        found = copies(program, community, times)
        answer = play(program, Path(folder) / f"copy{times - 1}.db", "caps 9 4 2 1", "join behind")
        rows = rows_of(community.file)
    for answered, copied in found:
        if copied != rows[: len(copied)] or len(copied) < founding + answered:
            sys.exit(f"a copy has {len(copied)} rows, and {founding + answered} were answered for")
    if answer != [f"joined {MEMBERS}"]:
        sys.exit(f"over the last copy: {answer}")
    print(f"{times} copies, from {len(found[0][1])} to {len(found[-1][1])} rows of {len(rows)}, each with first rows and all that was answered for")


if __name__ == "__main__":
    main()
