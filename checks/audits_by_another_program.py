#!/usr/bin/env python3
"""Each audit that `virgule` prints goes through `examples/check_proof.py`, which has no line of virgule's code.

    checks/audits_by_another_program.py

For the community of `examples/`, the same under attack, and graphs drawn at random, with two to seven levels, at each grade: both programs call the audit the
greatest flow of as many accounts as the roster has. Then one line of the audit is changed or left out, and both refuse it or both
accept it. It ends with status 1 where they differ. It runs after the program was built, and proves nothing.
"""
import random
import subprocess
import sys
from pathlib import Path

TOP = Path(__file__).resolve().parent.parent
GRADES = ("Apprentice", "Journeyer", "Master", "Fellow", "Warden", "Elder")
GRAPHS, CHANGES = 10, 10


def run(words, text):
    """What a program writes over a text, and its status."""
    done = subprocess.run(words, input=text.encode(), capture_output=True, cwd=TOP)
    return done.stdout.decode(), done.returncode


def virgule(text, *words):
    return run(["./virgule", *words], text)


def by_hand(text):
    return run([sys.executable, "examples/check_proof.py"], text)


def grades_of(site):
    """The grades of a site text's table."""
    word, *rest = site.splitlines()[1].split()
    return GRADES[: int(rest[0]) - 1 if word == "levels" else 3]


def drawn(dice):
    """A site text with levels, accounts, seeds and certificates drawn at random."""
    levels = dice.randint(2, 7)
    names = [f"a{number}" for number in range(dice.randint(2, 30))]
    lines = ["caps " + " ".join(map(str, sorted((dice.randint(1, 9) for _ in range(dice.randint(1, 5))), reverse=True))) + " 1"]
    lines += [f"levels {levels}"] if levels != 4 else []
    lines += [f"account {name}" for name in names]
    lines += [f"seed {name}" for name in dice.sample(names, dice.randint(1, 2))]
    for _ in range(dice.randint(1, 90)):
        giver, taker = dice.sample(names, 2)
        lines.append(f"cert {giver} {taker} {dice.choice(('Observer', *GRADES[: levels - 1]))}")
    return "\n".join(lines) + "\n"


def changed(dice, audit):
    """The audit with one line of its flow or cut left out, or one unit more on a line of its flow."""
    lines = audit.splitlines()
    level = next(place for place, line in enumerate(lines) if line.startswith("level "))
    place = dice.randrange(level + 1, len(lines))
    words = lines[place].split()
    if words[0] == "flow" and dice.random() < 0.5:
        lines[place] = " ".join((*words[:3], str(int(words[3]) + 1)))
    elif words[1] != "-" or words[0] == "flow":
        del lines[place]
    return "\n".join(lines) + "\n"


def main():
    dice = random.Random(1)
    sites = [(TOP / "examples" / name).read_text() for name in ("community.site", "community-attacked.site")]
    sites += [drawn(dice) for _ in range(GRAPHS)]
    audits = changes = refused = 0
    for site in sites:
        for grade in grades_of(site):
            count = virgule(site, "rosters", grade)[0].split()[1]
            audit, status = virgule(site, "audit", grade)
            answers = (status, *virgule(audit, "check"), *by_hand(audit))
            if answers != (0, f"greatest {count}\n", 0, f"greatest {count}\n", 0):
                sys.exit(f"they differ on an audit at {grade}: {answers}\n{audit}")
            audits += 1
            for _ in range(CHANGES):
                other = changed(dice, audit)
                ours, theirs = virgule(other, "check")[1], by_hand(other)[1]
                if ours != theirs:
                    sys.exit(f"they differ on a changed audit at {grade}: {ours} and {theirs}\n{other}")
                changes += 1
                refused += ours
    print(f"{audits} audits are greatest by both programs; of {changes} changed ones both refuse the same {refused}")


if __name__ == "__main__":
    main()
