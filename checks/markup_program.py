"""The program of the crate `markup_cases`, for the checks beside this file."""

import subprocess
from pathlib import Path

CRATE = Path(__file__).resolve().parent.parent / "crates" / "markup_cases"


def answers(blocks):
    """What the program answers to blocks, each a heading and a text. It is proved and built first where it has to be."""
    with open(CRATE / "stdin", "rb") as cases:
        subprocess.run(["rt", "run"], cwd=CRATE, stdin=cases, stdout=subprocess.DEVNULL, stderr=subprocess.DEVNULL, check=True)
    given = "".join(f"{heading}\n{text}\n\n" for heading, text in blocks)
    return subprocess.run([CRATE / "out" / "markup_cases"], input=given.encode(), capture_output=True, check=True).stdout.decode()
