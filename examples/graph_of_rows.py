#!/usr/bin/env python3
"""The certificates of a site at a revision, from the rows of a copy of its file, with no line of virgule's own code.

    examples/graph_of_rows.py COPY REVISION [ENTRIES]

It prints them as the lines of a proof text in front of `level`, so that they can be compared with those of a proof that the site gave. ENTRIES are
those of the table with which the site is served, with single spaces; the default ones where none are named.
"""
import sqlite3
import sys
from urllib.parse import parse_qsl

changes = int(sys.argv[2])
table, levels = (sys.argv[3] if len(sys.argv) > 3 else "800 200 50 12 4 2 1"), 4
accounts, seeds, certs = [], set(), {}

for (body,) in sqlite3.connect(sys.argv[1]).execute("select body from kept order by seq"):
    row = dict(parse_qsl(bytes(body).decode(), keep_blank_values=True))
    if row["k"] not in ("join", "seed", "unseed", "cert", "table"):
        continue
    if changes == 0:
        break
    changes -= 1
    if row["k"] == "join":
        accounts.append(row["n"])
    elif row["k"] == "seed":
        seeds.add(int(row["a"]))
    elif row["k"] == "unseed":
        seeds.remove(int(row["a"]))
    elif row["k"] == "cert":
        certs[int(row["a"]), int(row["b"])] = row["l"]
    else:
        table, levels = row["c"], int(row["g"])

if changes:
    sys.exit(f"the file ends {changes} changes before that revision")
print("caps", table)
if levels != 4:
    print("levels", levels)
for name in accounts:
    print("account", name)
for number in sorted(seeds):
    print("seed", accounts[number])
for (giver, taker), level in sorted(certs.items()):
    if level != "Observer":
        print("cert", accounts[giver], accounts[taker], level)
