#!/usr/bin/env python3
"""Time of acts on a site's book over rows in memory, of opening it again, and of freezes, beside Python's dictionaries and SQLite in memory.

    bench/site.py [CERTIFICATES [ACCOUNTS [RUNS]]]

The program of the crate `site_cases` answers so many certificates between so many accounts (1,000,000 and 100,000 where none are named), given in random
order by name: each is judged, its row is written and kept, and then it counts. The processor time of a run that makes the same acts and submits none is
taken off. Then the rows are copied, and another book is opened over the copies. Python keeps a list of rows, a dictionary of numbers by name, a dictionary
of takers for each giver and a set of givers for each taker; it opens by the reader of forms of its library. SQLite keeps the same rows with one insert
each, in a table in memory. The aim is at most 2.5 seconds for a million of each.

At last a graph is frozen before each of 10,000 more certificates, among some 2,000,000. The aim is at most a millisecond.

Nothing depends on these numbers. The program is built first where it has to be. It runs so many times (3 where none is named), and the least time is
shown.
"""

import sqlite3
import sys
import tempfile
import time
from multiprocessing import get_context
from pathlib import Path
from urllib.parse import parse_qs

from measured import build_cases, measure_in_turn, random_pairs

CRATE = Path(__file__).resolve().parent.parent / "crates" / "site_cases"
FREEZES = 10_000
MILLION = 1_000_000


def named_pairs(certificates, accounts):
    """The names of the accounts of random pairs."""
    for giver, taker in random_pairs(certificates, accounts):
        yield f"n{giver}", f"n{taker}"


def by_program(path, accounts, steps, runs):
    """Seconds of the processor, and MB, of these steps on a site of so many accounts."""
    path.write_text(f"book: a random one\nopen\ncrowd {accounts} n\n" + "".join(f"{step}\n" for step in steps) + "\n", encoding="ascii")
    [run] = measure_in_turn([[CRATE / "out" / "site_cases"]], path, runs)
    return run.processor, run.memory


class Site:
    """A site in Python's dictionaries, over a list of rows."""

    def __init__(self):
        self.rows, self.numbers, self.given, self.taken = [], {}, [], []

    def add_account(self, name):
        self.numbers[name] = len(self.numbers)
        self.given.append({})
        self.taken.append(set())

    def add_cert(self, giver, taker, level):
        self.given[giver][taker] = level
        self.taken[taker].add(giver)

    def join(self, name):
        if name not in self.numbers:
            self.rows.append(b"v=2&k=join&m=0&n=%s&s=" % name.encode())
            self.add_account(name)

    def cert(self, giver, taker, level):
        giver, taker = self.numbers[giver], self.numbers[taker]
        if giver != taker and self.given[giver].get(taker) != level:
            self.rows.append(b"v=2&k=cert&m=0&a=%d&b=%d&l=%s" % (giver, taker, level.encode()))
            self.add_cert(giver, taker, level)

    def open(self, rows):
        for row in rows:
            fields = parse_qs(row.decode(), keep_blank_values=True)
            if fields["k"] == ["join"]:
                self.add_account(fields["n"][0])
            else:
                self.add_cert(int(fields["a"][0]), int(fields["b"][0]), fields["l"][0])
        self.rows = rows


def filled(pairs, accounts):
    """A site with so many accounts, and what gives it these certificates."""
    site = Site()
    for number in range(accounts):
        site.join(f"n{number}")

    def work():
        for giver, taker in pairs:
            site.cert(giver, taker, "Journeyer")

    return site, work


def give_in_python(pairs, accounts):
    return filled(pairs, accounts)[1]


def open_in_python(pairs, accounts):
    site, work = filled(pairs, accounts)
    work()
    other = Site()
    return lambda: other.open(site.rows)


def keep_in_sqlite(pairs, accounts):
    site, work = filled(pairs, accounts)
    work()
    database = sqlite3.connect(":memory:", isolation_level=None)
    database.execute("create table kept (seq integer primary key, body blob not null)")

    def insert():
        for row in site.rows[accounts:]:
            database.execute("insert into kept (body) values (?)", (row,))

    return insert


def measure_alone(prepared, certificates, accounts, results):
    work = prepared(list(named_pairs(certificates, accounts)), accounts)
    start = time.process_time()
    work()
    results.put(time.process_time() - start)


def apart(prepared, certificates, accounts):
    """Seconds of the work in a process of its own."""
    context = get_context("spawn")
    results = context.Queue()
    process = context.Process(target=measure_alone, args=(prepared, certificates, accounts, results))
    process.start()
    answer = results.get()
    process.join()
    return answer


def show(title, seconds, count):
    print(f"{title:<44} {seconds / count * MILLION:>8.2f}", flush=True)


def main():
    words = [int(word) for word in sys.argv[1:]]
    certificates, accounts, runs = words + [MILLION, 100_000, 3][len(words) :]
    rows = certificates + accounts
    build_cases(CRATE)
    with tempfile.TemporaryDirectory() as folder:
        path = Path(folder) / "steps"
        empty, _ = by_program(path, accounts, [f"drafts {certificates} n {accounts}"], runs)
        full, held = by_program(path, accounts, [f"certs {certificates} n {accounts}"], runs)
        opened, _ = by_program(path, accounts, [f"certs {certificates} n {accounts}", "reopen"], runs)
        print(f"{'a million':<44} {'seconds':>8}")
        show("certificates answered", full - empty, certificates)
        show("the same in Python's dictionaries", apart(give_in_python, certificates, accounts), certificates)
        show("their rows alone, in SQLite in memory", apart(keep_in_sqlite, certificates, accounts), certificates)
        show("rows copied and opened", opened - full, rows)
        show("rows opened in Python's dictionaries", apart(open_in_python, certificates, accounts), rows)
        print(f"\nmemory at {certificates:,} certificates of {accounts:,} accounts: {held:.0f} MB")
        before, _ = by_program(path, accounts, [f"certs {2 * MILLION - FREEZES} n {accounts}"], runs)
        frozen, _ = by_program(path, accounts, [f"certs {2 * MILLION - FREEZES} n {accounts}", f"freezes {FREEZES} n {accounts}"], runs)
        print(f"a freeze at 2,000,000 certificates, and the one after it: {(frozen - before) / FREEZES * 1000:.3f} milliseconds")


if __name__ == "__main__":
    main()
