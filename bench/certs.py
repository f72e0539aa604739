#!/usr/bin/env python3
"""Time and memory of certificates given in random order, beside Python's dictionaries and a table of SQLite in memory with two indexes.

    bench/certs.py [CERTIFICATES [ACCOUNTS [RUNS]]]

The program of the crate `cert_book_cases` gives so many certificates between so many accounts (2,000,000 and 100,000 where none are named), each
judged by the taker's name, with room made for it, and added to what its giver gives and its taker has taken. The processor time and the memory of a
run that gives none are taken off; the rest is shown a certificate. Python keeps a dictionary of takers for each giver and a set of givers for each
taker. SQLite keeps a table without row numbers, whose key is giver and taker, and an index on the taker. The aim is at most 1,000 nanoseconds and 64
bytes a certificate.

Then one account certifies all others, and one is certified by all, from the last on, so that each new one goes before all that were there. At last a
graph is frozen before each of 10,000 more certificates at random. Each is shown for the program alone.

Nothing depends on these numbers. The program is built first where it has to be. It runs so many times (3 where none is named), and the least time is
shown.
"""

import resource
import sqlite3
import sys
import tempfile
import time
from multiprocessing import get_context
from pathlib import Path

from measured import build_cases, measure_in_turn, random_pairs

CRATE = Path(__file__).resolve().parent.parent / "crates" / "cert_book_cases"
FREEZES = 10_000


def by_program(path, accounts, steps, runs):
    """Seconds of the processor, and MB, of these steps on a book of so many accounts."""
    path.write_text(f"book: a random one\ncrowd {accounts} n\n" + "".join(f"{step}\n" for step in steps) + "\n", encoding="ascii")
    [run] = measure_in_turn([[CRATE / "out" / "cert_book_cases"]], path, runs)
    return run.processor, run.memory


def in_dictionaries(pairs, accounts):
    given = [{} for _ in range(accounts)]
    taken = [set() for _ in range(accounts)]
    for giver, taker in pairs:
        given[giver][taker] = 2
        taken[taker].add(giver)
    return given, taken


def in_sqlite(pairs, accounts):
    base = sqlite3.connect(":memory:")
    base.execute("create table certs (giver integer, taker integer, level integer, primary key (giver, taker)) without rowid")
    base.execute("create index by_taker on certs (taker)")
    base.executemany("insert or replace into certs values (?, ?, 2)", pairs)
    base.commit()
    return base


def measure_alone(work, certificates, accounts, results):
    pairs = list(random_pairs(certificates, accounts))
    before = resource.getrusage(resource.RUSAGE_SELF).ru_maxrss
    start = time.process_time()
    kept = work(pairs, accounts)
    seconds = time.process_time() - start
    results.put((seconds, (resource.getrusage(resource.RUSAGE_SELF).ru_maxrss - before) / 1024))
    del kept


def apart(work, certificates, accounts):
    """Seconds and MB of the work in a process of its own."""
    context = get_context("spawn")
    results = context.Queue()
    process = context.Process(target=measure_alone, args=(work, certificates, accounts, results))
    process.start()
    answer = results.get()
    process.join()
    return answer


def show(title, seconds, megabytes, certificates):
    print(f"{title:<28} {seconds / certificates * 1e9:>12.0f} {megabytes * 2**20 / certificates:>8.0f}", flush=True)


def main():
    words = [int(word) for word in sys.argv[1:]]
    certificates, accounts, runs = words + [2_000_000, 100_000, 3][len(words) :]
    build_cases(CRATE)
    with tempfile.TemporaryDirectory() as folder:
        path = Path(folder) / "steps"
        empty, empty_held = by_program(path, accounts, ["certs 0"], runs)
        full, full_held = by_program(path, accounts, [f"certs {certificates}"], runs)
        print(f"{'a certificate':<28} {'nanoseconds':>12} {'bytes':>8}")
        show("cert_book", full - empty, full_held - empty_held, certificates)
        show("Python's dictionaries", *apart(in_dictionaries, certificates, accounts), certificates)
        show("SQLite in memory", *apart(in_sqlite, certificates, accounts), certificates)
        for title, step in (("all by one account", f"give n0 {accounts}"), ("all for one account", f"take n0 {accounts}")):
            seconds, held = by_program(path, accounts, ["certs 0", step], runs)
            show(title, seconds - empty, held - empty_held, accounts)
        half = certificates // 2
        before, _ = by_program(path, accounts, [f"certs {half}"], runs)
        seconds, _ = by_program(path, accounts, [f"certs {half}", f"freezes {FREEZES}"], runs)
        print(f"\na freeze and the certificate after it: {(seconds - before) / FREEZES * 1e6:.1f} microseconds")


if __name__ == "__main__":
    main()
