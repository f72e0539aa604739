#!/usr/bin/env python3
"""Checks a well-formed proof text on standard input, with no line of virgule's own code.

It prints `greatest N`, with status 0, where the text's flow serves N accounts and its cut shows that no flow serves more; else
what fails, with status 1.
"""
import sys
from collections import Counter, deque

LEVELS, ROOT = ["Observer", "Apprentice", "Journeyer", "Master", "Fellow", "Warden", "Elder"], "-"


def refuse(*why):
    print("refused:", *why)
    sys.exit(1)


lines = [line.split() for line in sys.stdin]
of = lambda word: [line[1:] for line in lines if line[0] == word]
table = [800, 200, 50, 12, 4, 2, 1] if lines[0][1] == "default" else [int(entry) for entry in lines[0][1:]]
accounts = [name for (name,) in of("account")]
level = LEVELS.index(of("level")[0][0])
flow = {(giver, taker): int(units) for giver, taker, units in of("flow")}
side = {node: word for word in ("pass", "full") for (node,) in of(word)}

# The edges at the level: from the root to each seed, and along each certificate that stands at that level or above.
standing = {(giver, taker): LEVELS.index(word) for giver, taker, word in of("cert")}
edges = {(ROOT, name) for (name,) in of("seed")} | {pair for pair, given in standing.items() if given >= level}
takers = {node: [] for node in [ROOT, *accounts]}
for giver, taker in edges:
    takers[giver].append(taker)

# The capacity of a node: the table's entry at its distance from the root, the last entry past the end, 0 where no walk leads to it.
distance, waiting = {ROOT: 0}, deque([ROOT])
while waiting:
    giver = waiting.popleft()
    for taker in takers[giver]:
        if taker not in distance:
            distance[taker] = distance[giver] + 1
            waiting.append(taker)
capacity = {node: table[min(distance[node], len(table) - 1)] if node in distance else 0 for node in takers}

# The flow keeps to the edges and the capacities, and each account keeps one unit or none; who passes units on keeps one.
into, out = Counter(), Counter()
for (giver, taker), units in flow.items():
    (giver, taker) in edges or refuse("no edge", giver, taker)
    out[giver], into[taker] = out[giver] + units, into[taker] + units
out[ROOT] <= max(0, capacity[ROOT] - 1) or refuse("the root sends too much")
for node in accounts:
    into[node] - out[node] in (0, 1) or refuse(node, "keeps neither one unit nor none")
    out[node] <= max(0, capacity[node] - 1) and (capacity[node] > 0 or into[node] == 0) or refuse(node, "has no room")
    out[node] == 0 or into[node] == out[node] + 1 or refuse(node, "passes units on and isn't served")
served = sum(into[node] - out[node] for node in accounts)

# No edge leads from a passing node out of the cut, so no flow serves more than the cut is worth.
all(taker in side for giver, taker in edges if side.get(giver) == "pass") or refuse("the cut is open")
worth = sum(1 if word == "pass" else capacity[node] for node, word in side.items()) - 1  # the root passes one less
served == worth or refuse("the flow serves", served, "and the cut is worth", worth)
print("greatest", served)
