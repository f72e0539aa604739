#!/usr/bin/env python3
"""A served site behind nginx, as `examples/nginx.conf` has it.

    checks/behind_nginx.py [PROGRAM]

nginx is started with that file, whose ports and paths are put in place of others, and with a certificate that openssl makes for itself. Over TLS a
page has to be what the site gives, a login has to get the site's cookie with `secure` and `samesite=lax` behind it, an entry has to be written in its
session, and the forms of `examples/write.html` have to be there. A browser logs in and writes by those forms. nginx has to refuse a form to join of
more than 1,024 bytes, and of 40 forms in a row some, and 48 peers that say nothing must not keep a page waiting for a second. Where nginx or
openssl is missing the check is skipped, and where Chromium is, its part.
"""

import shutil
import socket
import ssl
import subprocess
import sys
import tempfile
import time
from http.client import HTTPConnection, HTTPSConnection
from pathlib import Path
from urllib.parse import urlencode

from browser import Browser, browser_path
from serving import HOST, TOP, Nginx, Site, free_port, play, program_of, wait_for


def agree(title, found, wanted):
    if found != wanted:
        sys.exit(f"{title}:\nfound  {found!r}\nwanted {wanted!r}")


class Front(Nginx):
    """nginx with the file of the examples, in front of a site."""

    def __init__(self, folder, site):
        self.plain, port = free_port(), free_port()
        key, certificate = folder / "key.pem", folder / "certificate.pem"
        words = "req -x509 -newkey rsa:2048 -nodes -days 1 -subj /CN=localhost -keyout".split()
        subprocess.run(["openssl", *words, key, "-out", certificate], stderr=subprocess.DEVNULL, check=True)
        text = (TOP / "examples" / "nginx.conf").read_text()
        others = (
            ("    listen [::]:80;\n", ""),
            ("    listen [::]:443 ssl;\n", ""),
            ("listen 80;", f"listen {HOST}:{self.plain};"),
            ("listen 443 ssl;", f"listen {HOST}:{port} ssl;"),
            ("/etc/letsencrypt/live/community.example/fullchain.pem", str(certificate)),
            ("/etc/letsencrypt/live/community.example/privkey.pem", str(key)),
            ("http://127.0.0.1:8080", f"http://{HOST}:{site.port}"),
            ("/usr/local/share/virgule/write.html", str(TOP / "examples" / "write.html")),
        )
        for old, new in others:
            if old not in text:
                sys.exit(f"examples/nginx.conf hasn't {old!r}")
            text = text.replace(old, new)
        super().__init__(folder / "nginx", port, text)

    def ask(self, method, path, form=None, cookie=None):
        """The status, the head and the body of a response over TLS."""
        context = ssl.create_default_context()
        context.check_hostname, context.verify_mode = False, ssl.CERT_NONE
        link = HTTPSConnection(HOST, self.port, timeout=60, context=context)
        fields = {"Cookie": cookie} if cookie else {}
        if form is not None:
            fields["Content-Type"] = "application/x-www-form-urlencoded"
        link.request(method, path, urlencode(form) if form is not None else None, fields)
        answer = link.getresponse()
        body = answer.read()
        link.close()
        return answer.status, answer.headers, body


def passes_on(nginx, site):
    """Pages, a login, an entry in its session, and the forms."""
    with site.link() as link:
        page = link.ask("GET", "/roster/Master").body
        agree("a page", nginx.ask("GET", "/roster/Master")[::2], (200, page))
    status, head, _ = nginx.ask("POST", "/login", {"name": "raph", "password": "battery"})
    cookie, *flags = head["Set-Cookie"].split("; ")
    agree("a login", (status, head["Location"]), (303, "/"))
    agree("a login's cookie", [flag.lower() for flag in flags], ["path=/", "httponly", "secure", "samesite=lax"])
    status, head, _ = nginx.ask("POST", "/diary", {"text": "x" * 16384}, cookie)
    agree("an entry", (status, head["Location"]), (303, "/diary/raph"))
    status, head, body = nginx.ask("GET", "/write")
    agree("the forms", (status, head["Content-Type"], body), (200, "text/html; charset=utf-8", (TOP / "examples" / "write.html").read_bytes()))
    if "default-src 'none'" not in head["Content-Security-Policy"]:
        sys.exit(f"the forms' head: {head}")
    link = HTTPConnection(HOST, nginx.plain, timeout=60)
    link.request("GET", "/account")
    agree("a request without TLS", link.getresponse().status, 301)
    link.close()


def in_browser(nginx):
    """A browser writes by the forms, and has a cookie that no script sees."""
    path = browser_path()
    if path is None:
        print("not tried in a browser: there is no Chromium")
        return
    with Browser(path, "--ignore-certificate-errors") as browser:
        browser.open(f"https://{HOST}:{nginx.port}/account")
        browser.submit("/login", name="raph", password="battery")
        browser.open(f"https://{HOST}:{nginx.port}/write")
        browser.submit("/diary", text="<b>by a form")
        agree("an entry by a form", browser.value("location.pathname + ' ' + document.querySelector('b').innerText"), "/diary/raph by a form")
        agree("what a script sees of the session", browser.value("document.cookie"), "")


def limits(nginx):
    """What nginx refuses itself: a long form to join, and many forms in a row; and peers that say nothing keep nobody waiting."""
    agree("a long form to join", nginx.ask("POST", "/join", {"name": "x" * 1024, "password": "x"})[0], 413)
    statuses = [nginx.ask("POST", "/join", {"name": "X", "password": "x"})[0] for _ in range(40)]
    passed = statuses.count(400)
    if not 15 <= passed <= 25 or statuses.count(429) != 40 - passed:
        sys.exit(f"40 forms in a row: {statuses}")
    silent = [socket.create_connection((HOST, nginx.port)) for _ in range(48)]
    asked = time.monotonic()
    agree("a page beside silent peers", nginx.ask("GET", "/account")[0], 200)
    waited = time.monotonic() - asked
    if waited > 1:
        sys.exit(f"a page beside silent peers took {waited:.1f} seconds")
    for link in silent:
        link.close()
    return passed


def main():
    if shutil.which("nginx") is None or shutil.which("openssl") is None:
        print("skipped: there is no nginx or no openssl")
        return
    program = program_of(sys.argv[1:], 0)
    with tempfile.TemporaryDirectory() as name:
        folder = Path(name)
        file = folder / "site.db"
        play(program, file, "caps 9 4 2 1", "join raph battery", "seed raph")
        with Site(program, "--db", file, "--caps", "9,4,2,1") as site, site.link() as link:
            wait_for("a publication", lambda: b"raph" in link.ask("GET", "/roster/Master").body)
            link.close()
            with Front(folder, site) as nginx:
                passes_on(nginx, site)
                in_browser(nginx)
                passed = limits(nginx)
    print(f"pages, logins and entries pass nginx, {passed} of 40 forms in a row do, and silent peers keep nobody waiting")


if __name__ == "__main__":
    main()
