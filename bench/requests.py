#!/usr/bin/env python3
"""Time of reading a request.

    bench/requests.py [RUNS]

A thousand requests of a kind are read a thousand times each by the program of the crate `request_cases`, which keeps a `Progress`. The
processor time of a run, divided by a million, is shown in microseconds a request. The aim is at most 5 for a head of ten fields. Then a
thousand heads, or bodies, of a length come byte by byte. The time is shown in nanoseconds a byte: it grows with the length where the cost
isn't linear. Nothing depends on these numbers. The program is built first where it has to be. It runs so many times (5 where none is
named), and the least time is shown.
"""

import subprocess
import sys
import tempfile
from pathlib import Path

from measured import measure_in_turn

CRATE = Path(__file__).resolve().parent.parent / "crates" / "request_cases"
REQUESTS = 1_000
MILLION = REQUESTS * 1_000
FIELDS = "".join(
    f"{name}: {value}\\r\\n"
    for name, value in (
        ("Host", "www.advogato.org"),
        ("User-Agent", "Mozilla/5.0 (X11; Linux x86_64; rv:128.0) Gecko/20100101 Firefox/128.0"),
        ("Accept", "text/html,application/xhtml+xml,application/xml;q=0.9,*/*;q=0.8"),
        ("Accept-Language", "en-US,en;q=0.5"),
        ("Accept-Encoding", "gzip, deflate"),
        ("Connection", "keep-alive"),
        ("Referer", "http://www.advogato.org/person/raph"),
        ("Cookie", "id=raph:000102030405060708090a0b0c0d0e0f"),
        ("Upgrade-Insecure-Requests", "1"),
        ("Cache-Control", "max-age=0"),
    )
)

KINDS = {
    "a page, one field": lambda n: f"GET /person/name{n} HTTP/1.1\\r\\nHost: x\\r\\n\\r\\n",
    "a page, ten fields": lambda n: f"GET /person/name{n} HTTP/1.1\\r\\n{FIELDS}\\r\\n",
    "a certificate, ten fields": lambda n: f"POST /cert HTTP/1.1\\r\\n{FIELDS}Content-Length: 27\\r\\n\\r\\nsubject=n{n:04}&level=Master&",
    "no path, ten fields": lambda n: f"GET /nothing/{n} HTTP/1.1\\r\\n{FIELDS}\\r\\n",
}

LENGTHS = (1_024, 4_096, 16_384)


def head_of(length):
    return f"GET / HTTP/1.0\\r\\nx: \\{length - 23}y\\r\\n\\r\\n"


def body_of(length):
    return f"POST /logout HTTP/1.1\\r\\n{FIELDS}Content-Length: {length}\\r\\n\\r\\n\\{length}y"


def build():
    with open(CRATE / "stdin", "rb") as cases:
        subprocess.run(["rt", "run"], cwd=CRATE, stdin=cases, stdout=subprocess.DEVNULL, stderr=subprocess.DEVNULL, check=True)


def main():
    runs = int(sys.argv[1]) if len(sys.argv) > 1 else 5
    build()
    with tempfile.TemporaryDirectory() as folder:
        path = Path(folder) / "requests"

        def time_of(heading, lines):
            path.write_text(f"{heading}\n" + "\n".join(lines) + "\n\n", encoding="ascii")
            [run] = measure_in_turn([[CRATE / "out" / "request_cases"]], path, runs)
            return run.processor

        print(f"{'microseconds a request':<28} {'read':>8}")
        for kind, request in KINDS.items():
            time = time_of(f"reads: {kind}", map(request, range(REQUESTS)))
            print(f"{kind:<28} {time / MILLION * 1e6:>8.2f}")
        print(f"{'nanoseconds a byte':<28} {'head':>8} {'body':>8}")
        for length in LENGTHS:
            times = [time_of("byte by byte: one length", [text(length)] * REQUESTS) for text in (head_of, body_of)]
            head, body = (time / REQUESTS / length * 1e9 for time in times)
            print(f"{length:<28,} {head:>8.2f} {body:>8.2f}")


if __name__ == "__main__":
    main()
