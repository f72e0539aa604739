#!/usr/bin/env python3
"""Time of a roster page of 1,999 names, beside reading the same bytes from a file.

    bench/pages.py [RUNS]

The program of the crate `page_cases` makes the page of a site's roster a thousand times in a run. From the processor time of the run that of a
run on the same site with one page is taken away, and the rest, divided by a thousand, is shown in microseconds a page. The aim is at most
100. Then the file of the page is read a thousand times. Nothing depends on these numbers. The program is built first where it has to be. It
runs so many times (5 where none is named), and the least time is shown.
"""

import subprocess
import sys
import tempfile
import time
from pathlib import Path

from measured import measure_in_turn

CRATE = Path(__file__).resolve().parent.parent / "crates" / "page_cases"
TIMES = 1_000
NAMES = 1_999


def site():
    """A site in which one seed certifies all others, and all are served."""
    lines = ["caps 2000 2000 1"]
    lines += [f"account member{number}" for number in range(NAMES)]
    lines.append("seed member0")
    lines += [f"cert member0 member{number} Master" for number in range(1, NAMES)]
    return ";".join(lines)


def write_block(path, heading, line):
    path.write_text(f"{heading}\n{line}\n\n", encoding="utf-8")


def build():
    with open(CRATE / "stdin", "rb") as cases:
        subprocess.run(["rt", "run"], cwd=CRATE, stdin=cases, stdout=subprocess.DEVNULL, stderr=subprocess.DEVNULL, check=True)


def processor_time(path, runs):
    [run] = measure_in_turn([[CRATE / "out" / "page_cases"]], path, runs)
    return run


def reading_time(page):
    """Microseconds for reading the page's file."""
    with tempfile.TemporaryDirectory() as folder:
        path = Path(folder) / "page"
        path.write_bytes(page)
        start = time.process_time()
        for _ in range(TIMES):
            with open(path, "rb") as file:
                file.read()
        return (time.process_time() - start) / TIMES * 1e6


def main():
    runs = int(sys.argv[1]) if len(sys.argv) > 1 else 5
    build()
    with tempfile.TemporaryDirectory() as folder:
        once, often = Path(folder) / "once", Path(folder) / "often"
        write_block(once, "rosters: once", f"0|GET /roster/Master HTTP/1.1|{site()}")
        write_block(often, "often: a thousand times", f"0|GET /roster/Master HTTP/1.1|{site()}")
        first, all_of_them = processor_time(once, runs), processor_time(often, runs)
    page = first.output.split("\n", 2)[2].replace("\\r\n", "\r\n").strip("\n").encode() + b"\n"
    each = int(all_of_them.output.split("\n")[2].split()[0]) // TIMES
    if each != len(page) or page.count(b"<li>") != NAMES:
        sys.exit(f"{each} bytes a page, and {len(page)} of the one that is shown, with {page.count(b'<li>')} names")
    microseconds = (all_of_them.processor - first.processor) / (TIMES - 1) * 1e6
    print(f"{NAMES} names, {each} bytes: {microseconds:.1f} microseconds a page; read from a file: {reading_time(page):.1f}")


if __name__ == "__main__":
    main()
