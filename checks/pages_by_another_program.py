#!/usr/bin/env python3
"""Each page of the program of the crate `page_cases`, as other programs read it.

    checks/pages_by_another_program.py [FOLDER]

The program writes the responses of its stored cases. Of each one the head is read by Python's own reader of heads: its length is that of the
body, or the body isn't sent. Each page of HTML is parsed by html5lib, which has to find no error (Debian's python3-html5lib is for
/usr/bin/python3), and shown by Chromium without a window: what it then has as title, as heading, and as forms with their fields has to be
what the bytes say. With a folder, a picture of each page is put there to be looked at. Where html5lib or Chromium is missing its part is
skipped. Nothing depends on it.
"""

import re
import shutil
import subprocess
import sys
import tempfile
from email.parser import BytesParser
from html import unescape
from pathlib import Path

try:
    import html5lib
except ImportError:
    html5lib = None

CRATE = Path(__file__).resolve().parent.parent / "crates" / "page_cases"


def responses():
    """The step, the head's first line, its fields and the body of each response."""
    with open(CRATE / "stdin", "rb") as cases:
        run = subprocess.run(["rt", "run"], cwd=CRATE, stdin=cases, capture_output=True, check=True)
    found = re.split(rb"^(?=\d+\|[^\n]*\nHTTP/1\.1 )", run.stdout, flags=re.MULTILINE)[1:]
    for text in found:
        step, _, response = text.partition(b"\n")
        head, _, body = response.partition(b"\\r\n\\r\n")
        first, _, fields = head.replace(b"\\r\n", b"\r\n").partition(b"\r\n")
        yield step.decode(), first.decode(), BytesParser().parsebytes(fields + b"\r\n\r\n"), body


def page_of(step, fields, body):
    """The page that was sent, without what the output has behind it; nothing where none was."""
    length = int(fields["Content-Length"])
    sent, rest = body[:length], body[length:]
    if "|HEAD " in step or step.endswith("|bare"):
        sent, rest = b"", body
    elif len(sent) != length:
        sys.exit(f"fewer bytes than the head says: {step}")
    if rest.strip(b"\n") and not re.match(rb"\n+[a-z]+: ", rest):
        sys.exit(f"more bytes than the head says: {step}")
    return sent if fields["Content-Type"].startswith("text/html") else b""


def told(page):
    """The title, the heading and the forms of a page, by its bytes."""
    title = unescape(re.search("<title>(.*?)</title>", page).group(1))
    heading = unescape(re.search("<h1>(.*?)</h1>", page).group(1))
    return title, heading, re.findall('<form method="post" action="(.*?)">', page), re.findall('<input name="(.*?)"', page)


def shown(browser, page, picture):
    """The same of the page that a browser has, written out again; and a picture, where one is wanted."""
    with tempfile.TemporaryDirectory() as folder:
        path = Path(folder) / "page.html"
        path.write_bytes(page)
        words = [browser, "--headless", "--no-sandbox", "--disable-gpu", f"--user-data-dir={folder}/profile"]
        if picture is not None:
            subprocess.run([*words, f"--screenshot={picture}", path.as_uri()], capture_output=True, check=True, timeout=120)
        document = subprocess.run([*words, "--dump-dom", path.as_uri()], capture_output=True, check=True, timeout=120).stdout.decode()
    return told(document)


def main():
    pictures = Path(sys.argv[1]) if len(sys.argv) > 1 else None
    browser = next(filter(None, map(shutil.which, ("chromium", "chromium-browser", "google-chrome"))), None)
    pages, statuses = {}, set()
    for step, first, fields, body in responses():
        statuses.add(first)
        page = page_of(step, fields, body)
        if page:
            pages.setdefault(page, step)
    print(f"{len(statuses)} statuses, {len(pages)} pages")
    if html5lib is None:
        print("not parsed: there is no html5lib")
    else:
        for page, step in pages.items():
            try:
                html5lib.HTMLParser(strict=True).parse(page, transport_encoding="utf-8")
            except html5lib.html5parser.ParseError as error:
                sys.exit(f"not parsed: {step}: {error}")
        print("each is parsed without an error")
    if browser is None:
        print("not shown: there is no Chromium")
        return
    for number, (page, step) in enumerate(pages.items()):
        picture = pictures and (pictures / f"page{number}.png").resolve()
        if shown(browser, page, picture) != told(page.decode()):
            sys.exit(f"shown otherwise: {step}")
    print("each is shown with its title, heading and forms")


if __name__ == "__main__":
    main()
