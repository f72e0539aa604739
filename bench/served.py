#!/usr/bin/env python3
"""A served site beside nginx and beside SQLite: pages a second, and acts a second.

    bench/served.py [SECONDS [ROUNDS [PROGRAM]]]

wrk asks for the page of a roster with 1,999 names over 8 links, for so many seconds (5 where none are named): from `virgule serve`, and from an nginx
that passes the same bytes on from another one, which has them as a file (`proxy_pass`, with links that are kept). This is done so many times (3), in
turn, and the best of each is shown. The aim is at least nginx's requests a second.

Then wrk logs 8 members in and out, lets them write into their diaries (200 bytes) and certify each other, each over a link of its own, one act behind
another, and each kind for so many seconds. Beside it such rows are inserted by Python's sqlite3 into a file of the same folder, one insert a commit,
with a log and the sync that the site's keeper has (`journal_mode` wal, `synchronous` full). The aim is at least half of that for entries and
certificates; logins keep no row. Both are done in a folder on disk and in one in memory, and the best of so many rounds is shown.

Nothing depends on these numbers. Without wrk or nginx there is no bench. PROGRAM is the path of a build in place of the repository's own, which is
built first where it has to be.
"""

import re
import shutil
import sqlite3
import subprocess
import sys
import tempfile
import time
from contextlib import closing
from pathlib import Path

sys.path.append(str(Path(__file__).resolve().parent.parent / "checks"))

from serving import HOST, Nginx, Site, free_port, play, program_of, star, wait_for

LINKS = 8
NAMES = 1999
ROW = b"v=2&k=diary&m=1800000000&a=0&t=" + b"x" * 200
PATH = "/roster/Master"


def counted(words):
    """Requests a second that wrk counts. The bench ends where one was refused."""
    told = subprocess.run(words, stdout=subprocess.PIPE, text=True, check=True).stdout
    if "Non-2xx" in told:
        sys.exit(told)
    return float(re.search(r"Requests/sec:\s*([0-9.]+)", told)[1])


def pages_a_second(port, seconds):
    return counted(["wrk", "-t", "2", "-c", str(LINKS), "-d", f"{seconds}s", f"http://{HOST}:{port}{PATH}"])


def nginx(folder, name, text):
    """An nginx whose servers have room for all links and all requests."""
    port = free_port()
    return Nginx(Path(folder) / name, port, f"sendfile on;\nkeepalive_requests 100000000;\n{text.replace('PORT', f'{HOST}:{port}')}")


def pages(program, folder, seconds, rounds):
    """The best pages a second of the site, and of nginx that passes the same page on."""
    file, page = Path(folder) / "star.db", Path(folder) / "page.html"
    play(program, file, *star(NAMES))
    with Site(program, "--db", file, "--caps", "2000,2000,1", "--links", LINKS) as site, site.link() as link:
        body = wait_for("a publication", lambda: (found := link.ask("GET", PATH).body).count(b"<li>") == NAMES and found)
        link.close()
        page.write_bytes(body)
        kind = 'default_type "text/html; charset=utf-8";'
        behind = f"server {{ listen PORT; location = {PATH} {{ alias {page}; {kind} }} }}"
        with nginx(folder, "behind", behind) as source:
            upstream = f"upstream source {{ server {HOST}:{source.port}; keepalive {LINKS}; keepalive_requests 100000000; }}"
            passing = 'proxy_pass http://source; proxy_http_version 1.1; proxy_set_header Connection "";'
            with nginx(folder, "front", f"{upstream}\nserver {{ listen PORT; location / {{ {passing} }} }}") as front:
                found = [(pages_a_second(site.port, seconds), pages_a_second(front.port, seconds)) for _ in range(rounds)]
    return len(body), *map(max, zip(*found))


# What wrk asks for, over one link in each of its threads: args are the kind of act and the cookies of the members.
ACTS = """
local threads = 0
function setup(thread)
    thread:set("number", threads)
    threads = threads + 1
end
function init(args)
    kind, cookie, turn = args[1], args[2 + number], 0
    name, other = "m" .. number, "m" .. (number + 1) % (#args - 1)
end
function post(path, body)
    local fields = {["Content-Type"] = "application/x-www-form-urlencoded"}
    if cookie then
        fields["Cookie"] = cookie
    end
    return wrk.format("POST", path, fields, body)
end
function request()
    if kind == "diary" then
        return post("/diary", "text=" .. string.rep("x", 200))
    elseif kind == "cert" then
        return post("/cert", "subject=" .. other .. "&level=" .. (turn % 2 == 0 and "Apprentice" or "Journeyer"))
    elseif turn % 2 == 0 then
        return post("/logout", "")
    end
    return post("/login", "name=" .. name .. "&password=" .. name)
end
function response(status, fields)
    if status == 303 then
        turn = turn + 1
        cookie = kind == "login" and fields["Set-Cookie"] and string.match(fields["Set-Cookie"], "^[^;]*") or cookie
    end
end
"""


def acts_a_second(site, folder, kind, seconds):
    """Acts of a kind that wrk does, one behind another over each link. A login is done with the logout before it, and both count as one."""
    (script := Path(folder) / "acts.lua").write_text(ACTS)
    cookies = []
    for number in range(LINKS):
        with site.link() as link:
            cookies.append(link.log_in(f"m{number}", f"m{number}"))
            link.ask("POST", "/cert", {"subject": f"m{(number + 1) % LINKS}", "level": "Observer"}, cookies[-1])
    words = ["wrk", "-t", str(LINKS), "-c", str(LINKS), "-d", f"{seconds}s", "-s", script, f"http://{HOST}:{site.port}/", "--", kind, *cookies]
    each = counted(words)
    return each / 2 if kind == "login" else each


def commits_a_second(file, seconds):
    """Inserts of a row by Python's sqlite3, each committed before the next."""
    count, begun = 0, time.monotonic()
    with closing(sqlite3.connect(file, isolation_level=None)) as database:
        database.execute("PRAGMA journal_mode = wal")
        database.execute("PRAGMA synchronous = full")
        database.execute("CREATE TABLE IF NOT EXISTS kept (seq INTEGER PRIMARY KEY, body BLOB NOT NULL)")
        while time.monotonic() < begun + seconds:
            database.execute("INSERT INTO kept (body) VALUES (?)", (ROW,))
            count += 1
        return count / (time.monotonic() - begun)


def acts(program, folder, seconds, rounds):
    """The best acts a second of each kind, and SQLite's best commits a second."""
    file = Path(folder) / "site.db"
    joins = (f"join m{number} m{number}" for number in range(LINKS))
    play(program, file, "caps default", *joins, "seed m0")
    best = {"login": 0.0, "diary": 0.0, "cert": 0.0, "SQLite": 0.0}
    for n in range(rounds):
        with Site(program, "--db", file, "--links", LINKS) as site:
            for kind in ("login", "diary", "cert"):
                best[kind] = max(best[kind], acts_a_second(site, folder, kind, seconds))
        best["SQLite"] = max(best["SQLite"], commits_a_second(Path(folder) / f"python{n}.db", seconds))
    return best


def main():
    words = sys.argv[1:]
    seconds, rounds = (int(word) for word in (words[:2] + ["5", "3"][len(words[:2]) :]))
    if not shutil.which("wrk") or not shutil.which("nginx"):
        print("skipped: there is no wrk or no nginx")
        return
    program = program_of(words, 2)
    with tempfile.TemporaryDirectory() as disk, tempfile.TemporaryDirectory(dir="/dev/shm") as memory:
        size, here, there = pages(program, disk, seconds, rounds)
        print(f"{NAMES} names, {size} bytes, {LINKS} links: {here:,.0f} pages a second", flush=True)
        print(f"nginx with proxy_pass: {there:,.0f}, so {here / there:.2f} times as many here", flush=True)
        print(f"{f'a second, {LINKS} links':<24} {'login':>9} {'diary':>9} {'cert':>9} {'SQLite':>9}")
        for title, folder in ("on disk", disk), ("in memory", memory):
            best = acts(program, folder, seconds, rounds)
            print(f"{title:<24} " + " ".join(f"{best[kind]:>9,.0f}" for kind in best), flush=True)
            print(f"{'  a link':<24} " + " ".join(f"{best[kind] / LINKS:>9,.1f}" for kind in ("login", "diary", "cert")), flush=True)
            print(f"{'  of SQLite':<24} {'':>9} " + " ".join(f"{best[kind] / best['SQLite']:>9.2f}" for kind in ("diary", "cert")), flush=True)


if __name__ == "__main__":
    main()
