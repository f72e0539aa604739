#!/usr/bin/env python3
"""Each path and each name in docs/PROMISES.md, docs/DEFINITIONS.md and docs/ARCHITECTURE.md exists.

    checks/promises.py

In a row of a table, words between backticks are read in order. A word with a slash is a path under crates/ (or of the repository
itself); each later word of its cell stands in that file, or in a file of that folder, as a whole word. In DEFINITIONS the file is in
the row's last cell, and its section's folder stands in the heading. It prints each that is missing, and ends with status 1 where
one is.
"""
import re
import sys
from pathlib import Path

TOP = Path(__file__).resolve().parent.parent
CODE = re.compile(r"`([^`]+)`")


def text_of(path):
    """The text of a file, or of all files of a folder that a reader of the crate would open."""
    if path.is_dir():
        return "\n".join(file.read_text() for file in sorted(path.rglob("*")) if file.suffix in (".rt", ".antt") and "out" not in file.parts)
    return path.read_text()


def find(word):
    """The file or folder that a word names, under crates/ or at the top."""
    for base in (TOP / "crates", TOP):
        if (base / word).exists():
            return base / word
    return None


def has(text, name):
    return re.search(rf"(?<![\w'-]){re.escape(name)}(?![\w'-])", text) is not None


def rows(page):
    """The rows of a page's tables: the number of the line, and its cells."""
    for number, line in enumerate((TOP / "docs" / page).read_text().split("\n"), 1):
        if line.startswith("|") and not re.match(r"\|[\s|:-]+$", line):
            yield number, [cell.strip() for cell in line.strip("|").split("|")]


def missing_in_cells(page):
    """What is missing where each cell has its own paths."""
    for number, cells in rows(page):
        for cell in cells:
            text = None
            for word in CODE.findall(cell):
                if "/" in word:
                    path = find(word)
                    text = path and text_of(path)
                    if path is None:
                        yield number, word
                elif text is not None and not has(text, word):
                    yield number, word


def missing_definitions():
    """What is missing in DEFINITIONS: a row's first cell has names, its last a file under the heading's folder."""
    folder = None
    for number, line in enumerate((TOP / "docs" / "DEFINITIONS.md").read_text().split("\n"), 1):
        heading = re.match(r"## .*\(`([^`]+)`", line)
        if line.startswith("## "):
            folder = heading and heading.group(1)
        if not folder or not line.startswith("| `"):
            continue
        cells = [cell.strip() for cell in line.strip("|").split("|")]
        files = [find(word) or find(f"{folder}/{word}") for word in CODE.findall(cells[-1])]
        if not files or None in files:
            yield number, cells[-1]
            continue
        text = "\n".join(map(text_of, files))
        for name in CODE.findall(cells[0]):
            if not has(text, name) and name not in text:
                yield number, name


def main():
    missing = [("PROMISES.md", *found) for found in missing_in_cells("PROMISES.md")]
    missing += [("DEFINITIONS.md", *found) for found in missing_definitions()]
    missing += [("ARCHITECTURE.md", *found) for found in missing_in_cells("ARCHITECTURE.md")]
    for page, number, word in missing:
        print(f"docs/{page}:{number}: {word} isn't there")
    if missing:
        sys.exit(1)
    print("each path and each name is there")


if __name__ == "__main__":
    main()
