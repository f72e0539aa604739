#!/usr/bin/env python3
"""Peers of a served site that are slow: how long the server waits for each, and that it answers others meanwhile.

    checks/slow_peers.py [PROGRAM]

48 peers that say nothing take up all links of a server that has 48, and one more peer asks for a page: it has to be answered before the 5 seconds are
over that the server waits for a first byte, and each silent peer has to be closed then, without a byte.

At a server of 8 links there is then at the same time a peer of each of these kinds:

- one sends a byte a second of a request of 18 bytes, and has to be answered;
- one sends a byte a second of a longer request, and has to be closed after 30 seconds;
- one sends a part of a request and then nothing, and has to be closed after 10 seconds;
- one is answered and then says nothing, and has to be closed after 5 seconds;
- one asks for 200 pages of 1,999 names and takes none, and has to be closed after 30 seconds, before all could be written;
- one asks for as many again and again and is gone before they come.

Another peer asks for a page every half second and has to be answered within a second each time. None of the slow ones gets a byte that it has not asked
for. It ends with status 1 at the first peer that fares otherwise; a second more than the limit is allowed.
"""

import sys
import tempfile
import threading
import time
from pathlib import Path

from serving import Closed, Site, play, program_of, request, star, wait_for

SLACK = 1.0  # seconds by which a limit may be passed
PAGES = 200
NAMES = 1999


class Fault(Exception):
    pass


def is_about(title, seconds, limit):
    """Refuses a time that isn't the limit. A clock that ticks by milliseconds may show a little less."""
    if not limit - 0.01 <= seconds <= limit + SLACK:
        raise Fault(f"{title}: {seconds:.1f} seconds, not {limit}")


def is_closed(title, link, began, limit):
    """Waits until the link is closed, which should be after so many seconds and without a byte."""
    rest = link.rest()
    is_about(title, time.monotonic() - began, limit)
    if rest:
        raise Fault(f"{title}: got {rest!r}")


def is_answered(title, answer):
    if answer.status != 200:
        raise Fault(f"{title}: {answer}")


def silent_peers(program):
    """All links are taken up by silent peers, and one more peer asks."""
    with Site(program, "--links", 48) as site:
        began = time.monotonic()
        silent = [site.link() for _ in range(48)]
        time.sleep(0.5)
        asked = time.monotonic()
        with site.link() as link:
            is_answered("a peer behind 48 silent ones", link.ask("GET", "/account"))
            waited = time.monotonic() - asked
        if waited > 5:
            raise Fault(f"a peer behind 48 silent ones waited {waited:.1f} seconds")
        for link in silent:
            is_closed("a silent peer", link, began, 5)
            link.close()
    print(f"48 silent peers: one more was answered after {waited:.1f} seconds, and each was closed after 5")


def send_slowly(link, piece):
    """Sends a byte a second, until the link is closed."""
    for n in range(len(piece)):
        try:
            link.send(piece[n : n + 1])
        except OSError:
            return
        link.socket.settimeout(1)
        try:
            if not link.more():
                return
        except TimeoutError:
            pass
    link.socket.settimeout(60)


def short_and_slow(site):
    with site.link() as link:
        send_slowly(link, b"GET / HTTP/1.0\r\n\r\n")
        is_answered("a byte a second of a short request", link.response())


def long_and_slow(site):
    with site.link() as link:
        began = time.monotonic()
        send_slowly(link, request("GET", "/account"))
        is_closed("a byte a second of a long request", link, began, 30)


def cut_off(site):
    with site.link() as link:
        link.send(request("GET", "/account")[:20])
        is_closed("a part of a request", link, time.monotonic(), 10)


def idle(site):
    with site.link() as link:
        is_answered("before the silence", link.ask("GET", "/account"))
        is_closed("silence behind a response", link, time.monotonic(), 5)


def takes_nothing(site):
    """Its first write that finds no room begins almost at once, and 30 seconds later the link is closed."""
    with site.link() as link:
        link.send(request("GET", "/roster/Master") * PAGES)
        time.sleep(30 + SLACK)
        pages = 0
        try:
            while pages < PAGES:
                link.response()
                pages += 1
        except Closed:
            return
        raise Fault(f"a peer that took nothing got {PAGES} pages in the end")


def leaves(site):
    """Whoever writes to it finds nobody."""
    for _ in range(50):
        with site.link() as link:
            link.send(request("GET", "/roster/Master") * PAGES)


def others(site, is_over):
    with site.link() as link:
        while not is_over.wait(0.5):
            asked = time.monotonic()
            is_answered("a peer beside slow ones", link.ask("GET", "/account"))
            waited = time.monotonic() - asked
            if waited > SLACK:
                raise Fault(f"a peer beside slow ones waited {waited:.1f} seconds")


def slow_peers(program):
    """A slow peer of each kind, and another peer beside them."""
    faults, is_over = [], threading.Event()

    def noted(peer, *words):
        try:
            peer(*words)
        except (Fault, Closed, OSError) as fault:
            faults.append(f"{peer.__name__}: {fault!r}")

    with tempfile.TemporaryDirectory() as folder:
        file = Path(folder) / "site.db"
        play(program, file, *star(NAMES))
        with Site(program, "--db", file, "--caps", "2000,2000,1") as site:
            with site.link() as link:
                wait_for("a publication", lambda: link.ask("GET", "/roster/Master").body.count(b"<li>") == NAMES)
            kinds = (short_and_slow, long_and_slow, cut_off, idle, takes_nothing, leaves)
            slow = [threading.Thread(target=noted, args=(kind, site)) for kind in kinds]
            other = threading.Thread(target=noted, args=(others, site, is_over))
            for peer in (other, *slow):
                peer.start()
            for peer in slow:
                peer.join()
            is_over.set()
            other.join()
    if faults:
        raise Fault("; ".join(faults))
    print("peers that send a byte a second, stop in a request, fall silent, take nothing or leave fare as they should, and another is answered beside them")


def main():
    program = program_of(sys.argv[1:], 0)
    try:
        silent_peers(program)
        slow_peers(program)
    except Fault as fault:
        sys.exit(str(fault))


if __name__ == "__main__":
    main()
