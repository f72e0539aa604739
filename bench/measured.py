"""What one run of a program over a text takes, for the benches beside this file."""

import os
import subprocess
from typing import NamedTuple


class Run(NamedTuple):
    """What a run took, and what it wrote."""

    user: float  # seconds of the processor in the program itself
    processor: float  # these and the system's for it
    elapsed: float  # seconds that passed
    memory: float  # the most that it held, in MB
    output: str
    notes: str  # on the standard error


def run_once(words, text):
    """Runs these words over this text. The caller has to be small itself: the system counts the memory that a program
    is started from as the program's."""
    with open(text, "rb") as source:
        before = os.times().elapsed
        child = subprocess.Popen(words, stdin=source, stdout=subprocess.PIPE, stderr=subprocess.PIPE)
        output = child.stdout.read()
        notes = child.stderr.read()
        _, _, usage = os.wait4(child.pid, 0)
        elapsed = os.times().elapsed - before
    processor = usage.ru_utime + usage.ru_stime
    return Run(usage.ru_utime, processor, elapsed, usage.ru_maxrss / 1024, output.decode(), notes.decode())


def best_of(runs):
    """The least of each time, the most memory, and what the last one wrote."""
    return Run(
        min(run.user for run in runs),
        min(run.processor for run in runs),
        min(run.elapsed for run in runs),
        max(run.memory for run in runs),
        runs[-1].output,
        runs[-1].notes,
    )


def measure_in_turn(commands, text, count):
    """Runs each command so many times over this text, in turn, so that what else the machine does falls on all alike."""
    rounds = [[run_once(words, text) for words in commands] for _ in range(count)]
    return [best_of(runs) for runs in zip(*rounds)]


def build_cases(crate):
    """Builds the program of a crate that shows cases, where it has to be built, by a run over its stored ones."""
    with open(crate / "stdin", "rb") as cases:
        subprocess.run(["rt", "run"], cwd=crate, stdin=cases, stdout=subprocess.DEVNULL, stderr=subprocess.DEVNULL, check=True)


def random_pairs(certificates, accounts):
    """The pairs of accounts that the programs of cases make, by Knuth's multiplier."""
    mask = 2**64 - 1
    number = 1
    for _ in range(certificates):
        giver = (number >> 33) % accounts
        number = (number * 6364136223846793005 + 1442695040888963407) & mask
        taker = (number >> 33) % accounts
        number = (number * 6364136223846793005 + 1442695040888963407) & mask
        if giver != taker:
            yield giver, taker
