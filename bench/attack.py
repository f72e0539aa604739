#!/usr/bin/env python3
"""An attack that grows: a community, and made-up accounts behind three bridges.

    bench/attack.py          prints the table
    bench/attack.py NUMBER   prints the site text with so many made-up accounts

To `examples/community.site` it adds accounts that certify each other at Master, and three members who certify one of them
each. For 10, 100, 1,000 and 10,000 of them the table says how many of the made-up accounts `virgule rosters Master` accepts, the
bound of their set, and how many members are accepted. The bound is worked out here anew: over the members who certify into
the set, the sum of capacity minus one. Nothing depends on this table: that the bound holds is proved.
"""

import subprocess
import sys
from collections import deque
from pathlib import Path

TOP = Path(__file__).resolve().parent.parent
BRIDGES = ("ben", "cal", "max")
SIZES = (10, 100, 1_000, 10_000)


def attack(size):
    """The lines of so many made-up accounts and of the bridges to them."""
    yield from (f"account x{number}" for number in range(size))
    for number in range(size):
        for other in sorted({(number + 1) % size, (2 * number + 1) % size, (3 * number + 2) % size} - {number}):
            yield f"cert x{number} x{other} Master"
    yield from (f"cert {member} x{place} Master" for place, member in enumerate(BRIDGES))


def attacked(size):
    """The lines of the community with so many made-up accounts behind the bridges."""
    return (TOP / "examples" / "community.site").read_text().splitlines() + list(attack(size))


def bound(lines):
    """The bound of the made-up accounts at Master."""
    table = [int(word) for word in lines[0].split()[1:]]
    words = [line.split() for line in lines]
    takers = {}
    for giver, taker, level in (parts[1:] for parts in words if parts[0] == "cert"):
        if level == "Master":
            takers.setdefault(giver, []).append(taker)
    distance = {parts[1]: 1 for parts in words if parts[0] == "seed"}
    queue = deque(distance)
    while queue:
        giver = queue.popleft()
        for taker in takers.get(giver, ()):
            if taker not in distance:
                distance[taker] = distance[giver] + 1
                queue.append(taker)
    capacity = {member: table[min(place, len(table) - 1)] for member, place in distance.items()}
    return sum(capacity.get(member, 1) - 1 for member in BRIDGES)


def print_table():
    print(f"{'made up':>8} {'accepted':>9} {'bound':>6} {'members':>8}")
    for size in SIZES:
        lines = attacked(size)
        run = subprocess.run(
            [TOP / "virgule", "rosters", "Master"],
            input="\n".join(lines) + "\n",
            capture_output=True,
            text=True,
            check=True,
        )
        accepted = run.stdout.split()[2:]
        made_up = sum(name[0] == "x" and name[1:].isdigit() for name in accepted)
        print(f"{size:>8} {made_up:>9} {bound(lines):>6} {len(accepted) - made_up:>8}")


def main():
    words = sys.argv[1:]
    if not words:
        print_table()
    elif len(words) == 1 and words[0].isdecimal() and int(words[0]) >= len(BRIDGES):
        print("\n".join(attacked(int(words[0]))))
    else:
        sys.exit("usage: bench/attack.py [NUMBER], a number from 3 on")


if __name__ == "__main__":
    main()
