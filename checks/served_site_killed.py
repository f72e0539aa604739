#!/usr/bin/env python3
"""What a server that is killed under load leaves of a site: the records up to some moment, with all that it had answered for.

    checks/served_site_killed.py [ROUNDS [LINKS [PROGRAM]]]

`virgule serve` serves a site over a file, and members write into their diaries and certify each other over so many links at once (8 where none is
named), each over a link of its own, as fast as they are answered. At a random moment the server is killed (SIGKILL), so many times (100). Each time
the file is copied and looked over by Python's sqlite3: behind the rows of the rounds before, it has of each member the rows of its first requests, in
order, up to one that was answered with 303 or the one behind it, and no other rows. Then the server is started again over the same file. It has to
show each member's newest entry and to refuse the sessions from before. Every second round is one of a site in a folder in memory, where many more rows
are kept. It ends with status 1 at the first file or answer that is otherwise.

Killing a program loses nothing that it gave to the system. What a file keeps when the machine loses its power isn't shown by this.
"""

import random
import re
import shutil
import sys
import tempfile
import threading
import time
from pathlib import Path

from serving import Closed, Site, play, program_of, rows_of

LEVELS = (b"Apprentice", b"Journeyer")


class Member:
    """A member who writes and certifies over a link of its own, and what it sent and was answered in this round."""

    def __init__(self, number, members):
        self.name, self.number, self.next = f"m{number}", number, (number + 1) % members
        self.cookie, self.newest, self.level, self.count = None, None, None, 0
        self.begin()

    def begin(self):
        self.sent, self.answered, self.fault = [], 0, None

    def acts(self):
        """One request after another: its path, its form, and its row without the moment."""
        level = self.level
        while True:
            self.count += 1
            text = f"{self.count}-" + "x" * (self.count * 37 % 3000)
            yield "/diary", {"text": text}, b"k=diary&a=%d&t=%s" % (self.number, text.encode())
            level = LEVELS[level == LEVELS[0]]
            fields = {"subject": f"m{self.next}", "level": level.decode()}
            yield "/cert", fields, b"k=cert&a=%d&b=%d&l=%s" % (self.number, self.next, level)

    def write(self, site):
        try:
            with site.link() as link:
                self.cookie = link.log_in(self.name, self.name)
                for path, fields, row in self.acts():
                    self.sent.append(row)
                    answer = link.ask("POST", path, fields, self.cookie)
                    if answer.status != 303:
                        self.fault = answer
                        return
                    self.answered += 1
        except (Closed, OSError):
            pass

    def look_over(self, rows):
        """Takes in what the file has of this round's requests, and says what is amiss."""
        if self.fault is not None:
            return f"{self.name} was answered {self.fault}"
        if rows != self.sent[: len(rows)] or not self.answered <= len(rows) <= self.answered + 1:
            return f"{self.name} was answered {self.answered} times, and the file has {len(rows)} rows of its {len(self.sent)} requests"
        for row in rows:
            if b"k=diary" in row:
                self.newest = row.rpartition(b"=")[2]
            else:
                self.level = row.rpartition(b"=")[2]
        return None


class Community:
    """A site in a folder, and the rows that its file had when it was last looked at."""

    def __init__(self, program, folder, members):
        self.program, self.file = program, Path(folder) / "site.db"
        self.members = [Member(number, members) for number in range(members)]
        joins = [f"join {member.name} {member.name}" for member in self.members]
        play(program, self.file, "caps 9 4 2 1", *joins, "seed m0")
        self.rows = rows_of(self.file)

    def serve_and_kill(self, seconds):
        """Serves while all members write, and kills the server after so many seconds."""
        with Site(self.program, "--db", self.file, "--links", len(self.members)) as site:
            fault = self.shown(site)
            writers = [threading.Thread(target=member.write, args=(site,)) for member in self.members]
            for member, writer in zip(self.members, writers):
                member.begin()
                writer.start()
            time.sleep(seconds)
            site.kill()
            for writer in writers:
                writer.join()
        return fault

    def shown(self, site):
        """What is amiss of what the server shows once it goes on with the file."""
        with site.link() as link:
            for member in self.members:
                entries = re.findall(rb"<div>(.*)</div>", link.ask("GET", f"/diary/{member.name}").body)
                if entries[:1] != ([member.newest] if member.newest else []):
                    return f"the newest entry of {member.name} isn't shown"
                if member.cookie is not None and link.ask("POST", "/logout", {}, member.cookie).status != 403:
                    return f"a session of {member.name} goes on"
        return None

    def look_over(self):
        """What is amiss of the file: a copy of it, so that the server is the one who opens it first."""
        with tempfile.TemporaryDirectory() as folder:
            for part in self.file.parent.glob("site.db*"):
                shutil.copy(part, folder)
            rows = rows_of(Path(folder) / "site.db")
        old, new = rows[: len(self.rows)], rows[len(self.rows) :]
        if old != self.rows:
            return "a row of an earlier round is another"
        self.rows = rows
        told = [re.fullmatch(rb"v=2&(k=[a-z]+)&m=[0-9]+(&a=([0-9]+)&.*)", row) for row in new]
        if None in told:
            return "a row that nobody asked for"
        faults = [member.look_over([row[1] + row[2] for row in told if int(row[3]) == member.number]) for member in self.members]
        if sum(int(row[3]) < len(self.members) for row in told) != len(told):
            return "a row of somebody else"
        return next(filter(None, faults), None)


def main():
    words = sys.argv[1:]
    rounds, links = (int(word) for word in (words[:2] + ["100", "8"][len(words[:2]) :]))
    program = program_of(words, 2)
    moments = random.Random(1)
    answered = 0
    with tempfile.TemporaryDirectory() as disk, tempfile.TemporaryDirectory(dir="/dev/shm") as memory:
        communities = [Community(program, folder, links) for folder in (disk, memory)]
        for n in range(rounds):
            community = communities[n % 2]
            fault = community.serve_and_kill(moments.uniform(0.0, 0.5)) or community.look_over()
            if fault:
                print(f"round {n + 1}: {fault}")
                return 1
            answered += sum(member.answered for member in community.members)
        kept = [len(community.rows) - links - 1 for community in communities]
    print(f"{rounds} times killed over {links} links: of {answered} acts that were answered with 303 none was lost, and {sum(kept)} rows were left")
    return 0


if __name__ == "__main__":
    sys.exit(main())
