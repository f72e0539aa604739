#!/usr/bin/env python3
"""Reads the rows of crates/record_cases by a reader of its own, and compares with the stored output.

    checks/rows_by_another_program.py

A row is one where the form's pairs, read by urllib, are those of a kind, their values are of their forms, and the pairs written again are
the row, byte for byte.
"""

import re
import sys
from pathlib import Path
from urllib.parse import parse_qsl, quote_plus

CASES = Path(__file__).resolve().parent.parent / "crates" / "record_cases"
LEVELS = "Observer Apprentice Journeyer Master Fellow Warden Elder".split()


def is_number(most):
    return lambda text: re.fullmatch("0|[1-9][0-9]*", text) is not None and int(text) <= most


def is_name(text):
    return re.fullmatch("[a-z][a-z0-9]{0,19}", text) is not None


def is_secret(text):
    return re.fullmatch("(?:[0-9a-f]{64})?", text) is not None


def are_entries(text):
    words = text.split(" ")
    if len(words) > 16 or not all(map(is_number(2000), words)):
        return False
    entries = [int(word) for word in words]
    return entries[-1] == 1 and all(a >= b for a, b in zip(entries, entries[1:]))


def is_text(text):
    return True


NUMBER = is_number(2**32 - 1)
MOMENT = ("m", is_number(253_402_300_799))
KINDS = {
    "join": [("n", is_name), ("s", is_secret)],
    "seed": [("a", NUMBER)],
    "unseed": [("a", NUMBER)],
    "cert": [("a", NUMBER), ("b", NUMBER), ("l", LEVELS.__contains__)],
    "table": [("g", lambda text: text in "234567" and len(text) == 1), ("c", are_entries)],
    "diary": [("a", NUMBER), ("t", is_text)],
    "article": [("a", NUMBER), ("h", is_text), ("t", is_text)],
    "reply": [("a", NUMBER), ("i", NUMBER), ("t", is_text)],
    "project": [("a", NUMBER), ("n", is_name), ("t", is_text)],
}


def form(pairs):
    def encoded(text):
        return quote_plus(text, safe="*").replace("~", "%7E")

    return "&".join(f"{encoded(name)}={encoded(value)}" for name, value in pairs)


def written(row):
    """The row that is written of the row's record, or None where it is no row."""
    try:
        pairs = parse_qsl(row, keep_blank_values=True, strict_parsing=True, errors="strict")
    except ValueError:
        return None
    if form(pairs) != row or len(pairs) < 3 or pairs[0][0] != "v" or pairs[1][0] != "k":
        return None
    version, kind = pairs[0][1], pairs[1][1]
    if version not in ("1", "2") or kind not in KINDS:
        return None
    layout = [MOMENT] + KINDS[kind]
    if [name for name, _ in pairs[2:]] != [name for name, _ in layout]:
        return None
    if not all(test(value) for (_, value), (_, test) in zip(pairs[2:], layout)):
        return None
    if version == "1" and (kind in ("unseed", "table") or pairs[-1][1] in LEVELS[4:] and kind == "cert"):
        return None
    return form([("v", "2")] + pairs[1:])


def expected(block):
    heading, *rows = block.splitlines()
    yield heading
    if heading.startswith("fronts: "):
        rows = [front for row in rows for front in (row[:end] for end in range(len(row))) if written(front)]
    for row in rows:
        yield row
        new = written(row)
        if new is None:
            yield "    no row"
        else:
            yield "    RECORD"
            yield "    " + new


def main():
    cases = (CASES / "stdin").read_text(encoding="utf-8").strip("\n").split("\n\n")
    found = (CASES / "stdout").read_text(encoding="utf-8").strip("\n").split("\n\n")
    kinds = "|".join(kind.capitalize() for kind in KINDS)
    ok = len(cases) == len(found)
    for case, block in zip(cases, found):
        shown = [re.sub(rf"^    ({kinds}) {{.*", "    RECORD", line) for line in block.splitlines()]
        for want, got in zip(list(expected(case)) + [None], shown + [None]):
            if want != got:
                print(f"{case.splitlines()[0]}\n    wanted {want}\n    found  {got}")
                ok = False
                break
    print(f"{len(cases)} blocks, {'all as expected' if ok else 'not all as expected'}")
    sys.exit(not ok)


if __name__ == "__main__":
    main()
