#!/usr/bin/env python3
"""Site texts at the limits, for benches: 100,000 accounts and about 2,000,000 certificates.

    bench/graphs.py KIND > FILE

The kinds are those of `KINDS`. The lines stand in canonical order, the first accounts are the seeds, the table is the default one, and the
levels are drawn among the three grades of a table of four levels. The last two kinds are made to hurt an engine that searches anew for
each unit: their tables have greater entries, and the star is small. A kind gives the same text each time.
"""

import random
import sys

ACCOUNTS = 100_000
EACH = 20  # certificates that an account gives
SEEDS = 4
LEVELS = ("Apprentice", "Journeyer", "Master")


def write_site(out, takers, caps="default", accounts=ACCOUNTS, seeds=SEEDS, levels=LEVELS):
    """Writes the site whose accounts certify these others: for each account in order, takers in rising order."""
    draw = random.Random(2)
    out.write(f"caps {caps}\n")
    out.writelines(f"account u{number}\n" for number in range(accounts))
    out.writelines(f"seed u{number}\n" for number in range(seeds))
    for giver, row in enumerate(takers):
        out.writelines(f"cert u{giver} u{taker} {draw.choice(levels)}\n" for taker in row)


def random_site(out):
    """Each account certifies any others."""
    draw = random.Random(1)

    def row(giver):
        takers = draw.sample(range(ACCOUNTS - 1), EACH)
        return sorted(taker + (taker >= giver) for taker in takers)

    write_site(out, map(row, range(ACCOUNTS)))


def neighbours_site(out, reach=50):
    """Each account certifies others whose numbers are near its own."""
    draw = random.Random(1)

    def row(giver):
        near = [taker for taker in range(giver - reach, giver + reach + 1) if taker != giver and 0 <= taker < ACCOUNTS]
        return sorted(draw.sample(near, EACH))

    write_site(out, map(row, range(ACCOUNTS)))


def hubs_site(out, hubs=10):
    """A few hubs certify all others, and each account certifies the hubs. The seeds are hubs."""
    write_site(
        out,
        ([taker for taker in range(ACCOUNTS if giver < hubs else hubs) if taker != giver] for giver in range(ACCOUNTS)),
    )


def groups_site(out, size=20):
    """A long chain of groups: the accounts of a group certify one another, and each one also its like in the next group."""

    def row(giver):
        first = giver - giver % size
        takers = [taker for taker in range(first, first + size) if taker != giver]
        return takers + [giver + size] * (giver + size < ACCOUNTS)

    write_site(out, map(row, range(ACCOUNTS)))


def clique_site(out, clique=1_400):
    """A clique behind one bridge: one account of the others, who form a tree, certifies one of it."""
    draw = random.Random(1)
    first = ACCOUNTS - clique
    grown = 41_400  # the accounts of the tree; the others certify nobody
    takers = [[] for _ in range(first)]
    for taker in range(SEEDS, grown):
        takers[draw.randrange(max(SEEDS, taker // 4))].append(taker)
    takers[SEEDS].append(first)
    rows = takers + [[taker for taker in range(first, ACCOUNTS) if taker != giver] for giver in range(first, ACCOUNTS)]
    write_site(out, rows)


def spread_site(out, reach=200):
    """One seed, and each account certifies others not far from it, under a table of fifteen entries of 2,000: units spread out over ways that are
    longer and longer, and each search for one of them looks at all that the others have filled."""
    draw = random.Random(3)

    def row(giver):
        near = {giver + draw.randrange(-reach, reach + 1) for _ in range(EACH)}
        return sorted(taker for taker in near if taker != giver and 0 <= taker < ACCOUNTS)

    write_site(out, map(row, range(ACCOUNTS)), caps=" ".join(["2000"] * 15 + ["1"]), seeds=1)


def star_site(out, accounts=2_000):
    """One seed that certifies all others as Master, and a capacity for each of them."""
    write_site(out, [range(1, accounts)], caps="2000 2000 1", accounts=accounts, seeds=1, levels=("Master",))


KINDS = {
    "random": random_site,
    "neighbours": neighbours_site,
    "hubs": hubs_site,
    "groups": groups_site,
    "clique": clique_site,
    "spread": spread_site,
    "star": star_site,
}


def main():
    if len(sys.argv) != 2 or sys.argv[1] not in KINDS:
        sys.exit(f"usage: bench/graphs.py {' | '.join(KINDS)}")
    KINDS[sys.argv[1]](sys.stdout)


if __name__ == "__main__":
    main()
