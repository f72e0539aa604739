#!/usr/bin/env python3
"""Time of cleaning texts of members, also of texts made to hurt, beside that of Python's bleach.

    bench/markup.py [RUNS]

Each text has 16,384 bytes, but for that of 10,000 tags that stay open. The program of the crate `markup_cases` reads, cleans and
writes it 500 times in a run; the processor time of the run, divided by all bytes of the input, is shown in nanoseconds. The aim is
at most 50 nanoseconds a byte. Bleach cleans each text once, with the same elements; where the Python that runs this has none
(Debian's python3-bleach is for /usr/bin/python3), its column stays empty. Nothing depends on these numbers. The program is built
first where it has to be. It runs so many times (5 where none is named), and the least time is shown.
"""

import subprocess
import sys
import tempfile
import time
from pathlib import Path

from measured import measure_in_turn

try:
    import bleach
except ImportError:
    bleach = None

CRATE = Path(__file__).resolve().parent.parent / "crates" / "markup_cases"
SIZE = 16_384
COPIES = 500
ELEMENTS = set("a b i em strong tt code pre p blockquote ul ol li br".split())


def repeated(piece, size=SIZE):
    return (piece * (size // len(piece.encode()) + 1)).encode()[:size].decode(errors="ignore")


TEXTS = {
    "words": repeated("A few words with <b>markup</b>, as members write them. "),
    "two-byte letters": repeated("é"),
    "links": repeated('<person>raph</person> on <a href="http://example.org/?a=1&b=2">it</a> '),
    "<": repeated("<"),
    "&": repeated("&"),
    '<a href="http://': repeated('<a href="http://'),
    '<a href="http://xxx..': '<a href="http://' + "x" * (SIZE - 16),
    "<person>": repeated("<person>"),
    "10,000 open tags": "<b>" * 10_000,
    "64 <b>, then </i>": repeated("<b>", 192) + repeated("</i>", SIZE - 192),
}


def build():
    with open(CRATE / "stdin", "rb") as cases:
        subprocess.run(["rt", "run"], cwd=CRATE, stdin=cases, stdout=subprocess.DEVNULL, stderr=subprocess.DEVNULL, check=True)


def by_program(path, text, runs):
    """Nanoseconds a byte."""
    with open(path, "w", encoding="utf-8") as out:
        out.writelines(f"clean: {number}\n{text}\n\n" for number in range(COPIES))
    [run] = measure_in_turn([[CRATE / "out" / "markup_cases"]], path, runs)
    return run.processor / path.stat().st_size * 1e9


def by_bleach(text):
    """Nanoseconds a byte, or why there is no number."""
    if bleach is None:
        return ""
    start = time.process_time()
    try:
        bleach.clean(text, tags=ELEMENTS, attributes={"a": ["href"]}, protocols={"http", "https"})
    except RecursionError:
        return "too deep"
    return f"{(time.process_time() - start) / len(text.encode()) * 1e9:.1f}"


def main():
    runs = int(sys.argv[1]) if len(sys.argv) > 1 else 5
    build()
    print(f"{'nanoseconds a byte':<22} {'markup':>10} {'bleach':>10}")
    with tempfile.TemporaryDirectory() as folder:
        for title, text in TEXTS.items():
            print(f"{title:<22} {by_program(Path(folder) / 'texts', text, runs):>10.1f} {by_bleach(text):>10}", flush=True)


if __name__ == "__main__":
    main()
