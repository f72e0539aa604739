#!/usr/bin/env python3
"""Time and memory of `virgule script` on a script of certificates, beside `sha256sum` of the script and beside Python's dictionaries.

    bench/scripts.py [CERTIFICATES [ACCOUNTS [RUNS [PROGRAM]]]]

So many accounts join (100,000 where none are named), and then some lines (2,000,000, less one where both accounts are the same) certify one account by
another at random, at Journeyer. The aim is at most 5 times the seconds of `sha256sum` and 2.5 seconds more for each million lines that are accepted, and at most 20 times the size of the script.
Python reads the same lines into a dictionary of numbers by name, a dictionary of takers for each giver and a set of givers for each taker, keeps a row for
each that it accepts, and makes the same lines of output.

The seconds are the processor's, and the memory is the most that was held. Nothing depends on these numbers. virgule is built first where it has to be; PROGRAM is the path
of a build in its place. It runs so many times (3 where none is named), and the least time is shown.
"""

import hashlib
import resource
import subprocess
import sys
import tempfile
import time
from multiprocessing import get_context
from pathlib import Path

from measured import measure_in_turn, random_pairs

TOP = Path(__file__).resolve().parent.parent
PROGRAM = TOP / "crates" / "virgule" / "out" / "virgule"
MILLION = 1_000_000
HASHED = 5  # the aim, as a multiple of the seconds of `sha256sum`
ACCEPTED = 2.5  # and the seconds more for a million accepted lines
HELD = 20  # and the memory, as a multiple of the script


def write_script(path, certificates, accounts):
    with open(path, "w", encoding="ascii") as out:
        out.write("caps 800 200 50 12 4 2 1\n")
        out.writelines(f"join n{number}\n" for number in range(accounts))
        out.writelines(f"cert n{giver} n{taker} Journeyer\n" for giver, taker in random_pairs(certificates, accounts))


def play(path):
    """The output of the script's lines, by a site in dictionaries, and its rows."""
    rows, output, numbers, given, taken = [], [], {}, [], []
    with open(path, "rb") as lines:
        next(lines)
        for line in lines:
            words = line.split()
            if words[0] == b"join":
                numbers[words[1]] = len(given)
                output.append(b"joined %d\n" % len(given))
                given.append({})
                taken.append(set())
                rows.append(b"v=2&k=join&m=0&n=%s&s=" % words[1])
                continue
            giver, taker, level = numbers[words[1]], numbers[words[2]], words[3]
            if given[giver].get(taker) == level:
                output.append(b"same\n")
                continue
            rows.append(b"v=2&k=cert&m=0&a=%d&b=%d&l=%s" % (giver, taker, level))
            given[giver][taker] = level
            taken[taker].add(giver)
            output.append(b"revision %d\n" % len(rows))
    return b"".join(output), rows


def play_alone(path, results):
    before = resource.getrusage(resource.RUSAGE_SELF).ru_maxrss
    start = time.process_time()
    output, rows = play(path)
    seconds = time.process_time() - start
    held = (resource.getrusage(resource.RUSAGE_SELF).ru_maxrss - before) / 1024
    results.put((seconds, held, len(rows), hashlib.sha256(output).hexdigest()))


def in_dictionaries(path):
    """Seconds, MB, how many lines were accepted, and the digest of the output, of a process of its own."""
    context = get_context("spawn")
    results = context.Queue()
    process = context.Process(target=play_alone, args=(path, results))
    process.start()
    answer = results.get()
    process.join()
    return answer


def show(title, seconds, megabytes, size):
    print(f"{title:<24} {seconds:>8.2f} {megabytes:>8.0f} {megabytes / size:>6.1f}", flush=True)


def main():
    words = sys.argv[1:]
    numbers = [int(word) for word in words[:3]]
    certificates, accounts, runs = numbers + [2 * MILLION, 100_000, 3][len(numbers) :]
    program = Path(words[3]) if len(words) > 3 else PROGRAM
    if program == PROGRAM:
        subprocess.run([TOP / "virgule", "check"], stdin=subprocess.DEVNULL, stdout=subprocess.DEVNULL, check=False)
    with tempfile.TemporaryDirectory() as folder:
        script = Path(folder) / "script"
        write_script(script, certificates, accounts)
        size = script.stat().st_size / 2**20
        ours, hashed = measure_in_turn([[program, "script"], ["sha256sum"]], script, runs)
        seconds, held, accepted, digest = in_dictionaries(script)
    most = HASHED * hashed.processor + ACCEPTED * accepted / MILLION
    agree = "agree" if hashlib.sha256(ours.output.encode()).hexdigest() == digest else "DIFFER"
    print(f"{'':<24} {'seconds':>8} {'MB':>8} {'times':>6}   a script of {size:.1f} MB, {accepted:,} lines accepted, outputs {agree}")
    show("virgule script", ours.processor, ours.memory, size)
    show("the aim, at most", most, HELD * size, size)
    show("sha256sum", hashed.processor, hashed.memory, size)
    show("Python's dictionaries", seconds, held, size)


if __name__ == "__main__":
    main()
