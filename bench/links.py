#!/usr/bin/env python3
"""Time of requests over a link in memory: pipelined rosters beside copies of their bytes, and a request that comes byte by byte beside one that comes whole.

    bench/links.py [RUNS]

The program of the crate `link_cases` serves a client over a site of its own. The client asks 10,000 times for the page of a roster with 1,999 names, all at once and over one link;
from the processor time that of a run with one request is taken off, and so it is of a run that copies the response's bytes 10,000 times instead. The aim is at most twice the time of the copies.
Then 10,000 requests with ten fields, which nothing answers to, come whole, and byte by byte, as their responses are taken. The aim is at most 20 times the time of those that come whole.
Nothing depends on these numbers. The program is built first where it has to be. It runs so many times (5 where none is named), and the least time is shown.
"""

import sys
import tempfile
from pathlib import Path

from measured import build_cases, measure_in_turn
from requests import FIELDS

CRATE = Path(__file__).resolve().parent.parent / "crates" / "link_cases"
TIMES = 9_999  # one fewer than a link answers
NAMES = 1_999
ROSTER = "GET /roster/Master HTTP/1.1\\r\\nHost: x\\r\\n\\r\\n"
NOTHING = f"GET /nothing HTTP/1.1\\r\\n{FIELDS}\\r\\n"
ENOUGH = 2 * 10**9  # bytes that all responses have room in


def site():
    """A script by which one seed certifies all others, and all are served."""
    yield "caps 2000 2000 1"
    for number in range(NAMES):
        yield f"join member{number}"
    yield "seed member0"
    for number in range(1, NAMES):
        yield f"cert member0 member{number} Master"
    yield from ("freeze w", "solve w", "publish w")


def processor_time(path, runs, heading, script, times, request):
    """Seconds that the program takes over one block, and what it shows."""
    path.write_text("\n".join([heading, *script, f"{times}> {request}", "", ""]), encoding="ascii")
    [run] = measure_in_turn([[CRATE / "out" / "link_cases"]], path, runs)
    return run.processor, run.output.strip().split("\n")[len(script) + 2 :]


def main():
    runs = int(sys.argv[1]) if len(sys.argv) > 1 else 5
    build_cases(CRATE)
    with tempfile.TemporaryDirectory() as folder:
        path = Path(folder) / "block"
        members = list(site())
        once, _ = processor_time(path, runs, f"room {ENOUGH}: one roster", members, 1, ROSTER)
        often, shown = processor_time(path, runs, f"room {ENOUGH}: rosters", members, TIMES, ROSTER)
        copied, copies = processor_time(path, runs, f"copies {TIMES - 1}: a roster", members, 1, ROSTER)
        print(f"{TIMES:,} rosters of {NAMES:,} names over a link: {often - once:.2f} s, {shown[-1]}, {shown[0]}")
        print(f"its bytes copied as often: {copied - once:.2f} s, {copies[-1]}; {(often - once) / (copied - once):.2f} times")
        empty = ["caps 3 2 1"]
        whole, _ = processor_time(path, runs, "a request", empty, TIMES, NOTHING)
        pieces, shown = processor_time(path, runs, "pieces 1: a request", empty, TIMES, NOTHING)
        print(f"{TIMES:,} requests with ten fields: {whole:.3f} s whole, {pieces:.3f} s byte by byte; {pieces / whole:.1f} times; {shown[0]}")


main()
