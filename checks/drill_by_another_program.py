#!/usr/bin/env python3
"""The lines of `virgule drill N`, worked out from FORMATS by another program, with no line of virgule's own code.

    checks/drill_by_another_program.py [N]...

It draws the site of each N (1 and 4294967295 where none is named) and finds a maximum flow for each grade by Dinic's algorithm, with a node for each half of
an account. Then it compares its lines with those that are stored among the cases of `drill N`; a number without one has its lines printed alone.
It ends with status 1 where two differ.
"""

import sys
from collections import deque
from pathlib import Path

CASES = Path(__file__).resolve().parent.parent / "crates" / "cases" / "stdout"
GRADES = ("Apprentice", "Journeyer", "Master")
TABLE = (800, 200, 50, 12, 4, 2, 1)
ACCOUNTS, SEEDS, DRAWN = 2_000, 4, 20_000
ROOT, SINK = 2 * ACCOUNTS, 2 * ACCOUNTS + 1
ENOUGH = 10**9


def draw_certificates(number):
    """The level, from 0, of each certified pair."""
    state = number

    def draw(below):
        nonlocal state
        state = (state * 6364136223846793005 + 1442695040888963407) % 2**64
        return state // 2**33 % below

    standing = {}
    for _ in range(DRAWN):
        giver, taker, level = draw(ACCOUNTS), draw(ACCOUNTS), draw(len(GRADES))
        standing[giver, (giver + 1) % ACCOUNTS if taker == giver else taker] = level
    return standing


def capacities(takers):
    """The table's entry at each account's distance from the root, past the end its last; 0 where no walk leads."""
    distance = {seed: 1 for seed in range(SEEDS)}
    waiting = deque(distance)
    while waiting:
        giver = waiting.popleft()
        for taker in takers[giver]:
            if taker not in distance:
                distance[taker] = distance[giver] + 1
                waiting.append(taker)
    return [TABLE[min(distance[account], len(TABLE) - 1)] if account in distance else 0 for account in range(ACCOUNTS)]


class Network:
    """Arcs in pairs: behind each its residual twin."""

    def __init__(self):
        self.out = [[] for _ in range(2 * ACCOUNTS + 2)]
        self.to, self.room = [], []

    def add(self, tail, head, room):
        for node, other, units in ((tail, head, room), (head, tail, 0)):
            self.out[node].append(len(self.to))
            self.to.append(other)
            self.room.append(units)

    def layers(self):
        layer = {ROOT: 0}
        waiting = deque(layer)
        while waiting:
            node = waiting.popleft()
            for arc in self.out[node]:
                if self.room[arc] and self.to[arc] not in layer:
                    layer[self.to[arc]] = layer[node] + 1
                    waiting.append(self.to[arc])
        return layer

    def push(self, layer, left):
        """Sends units along one walk down the layers; 0 where none is left."""
        walk, node = [], ROOT
        while node != SINK:
            while left[node]:
                arc = left[node][-1]
                if self.room[arc] and layer.get(self.to[arc]) == layer[node] + 1:
                    break
                left[node].pop()
            if left[node]:
                walk.append(left[node][-1])
                node = self.to[walk[-1]]
            elif walk:
                walk.pop()
                node = self.to[walk[-1]] if walk else ROOT
                left[node].pop()
            else:
                return 0
        units = min(self.room[arc] for arc in walk)
        for arc in walk:
            self.room[arc] -= units
            self.room[arc ^ 1] += units
        return units

    def maximum(self):
        flow = 0
        while SINK in (layer := self.layers()):
            left = [list(arcs) for arcs in self.out]
            while units := self.push(layer, left):
                flow += units
        return flow


def accepted(standing, level):
    takers = [[] for _ in range(ACCOUNTS)]
    for (giver, taker), given in standing.items():
        if given >= level:
            takers[giver].append(taker)
    room = capacities(takers)
    network = Network()
    # An account's two halves are 2a and 2a + 1: it keeps one unit, and passes on one less than it may take.
    for account in range(ACCOUNTS):
        if room[account]:
            network.add(2 * account, SINK, 1)
            network.add(2 * account, 2 * account + 1, room[account] - 1)
            for taker in takers[account]:
                network.add(2 * account + 1, 2 * taker, ENOUGH)
    for seed in range(SEEDS):
        network.add(ROOT, 2 * seed, ENOUGH)
    # The root passes on one less than the table's first entry.
    return min(network.maximum(), TABLE[0] - 1)


def main():
    numbers = sys.argv[1:] or ["1", "4294967295"]
    stored = CASES.read_text()
    agree = True
    for number in numbers:
        standing = draw_certificates(int(number))
        counts = [accepted(standing, level) for level in range(len(GRADES))]
        lines = "".join(f"{grade} accepted {count} cut {count}\n" for grade, count in zip(GRADES, counts))
        print(f"drill {number}\n{lines}", end="")
        found = [block.split("\n", 1)[1] for block in stored.split("$ ") if block.startswith((f"drill {number}\n", f"drill {number}, read"))]
        agree = agree and all(block.startswith(lines + "[0]\n") for block in found)
        print(f"{len(found)} stored cases {'agree' if agree else 'DIFFER'}")
    return 0 if agree else 1


if __name__ == "__main__":
    sys.exit(main())
