#!/usr/bin/env python3
"""A page of hostile texts, cleaned, as a browser reads it.

    checks/markup_in_browser.py

Ten texts are cleaned by the program of the crate `markup_cases`, put into a page, and shown by Chromium without a window. The
elements of the page that it then has, with their attributes, have to be those of the grammar of safe markup alone, each text
within the element that the page has for it; and the title of the page, which a script would change, has to stay. Where Chromium
is missing the check is skipped. Nothing depends on it: that cleaned text is in the grammar is proved.
"""

import re
import shutil
import subprocess
import sys
import tempfile
from html.parser import HTMLParser
from pathlib import Path

from markup_program import answers

SCRIPT = "document.title='changed'"
TEXTS = (
    f"<script>{SCRIPT}</script>",
    f'<img src=x onerror="{SCRIPT}"><svg onload="{SCRIPT}"><style>*{{display:none}}</style>',
    f'<b onmouseover="{SCRIPT}" style="position:fixed">x</b><p><b><i>y</p></div></section></body>',
    f'<a href="javascript:{SCRIPT}">x</a><a href="http://x" onclick="{SCRIPT}">y</a><a href="http://x"onclick="{SCRIPT}">z</a>',
    f'<a href="http://x/?a&quot; onclick=&quot;{SCRIPT}&b=1">x</a><a href="http://x\'onclick=\'y">z</a>',
    f"<!-- <b>x --><![CDATA[<b>]]><?php <b>?></textarea></title><plaintext><scr<script>ipt>{SCRIPT}</scr</script>ipt>",
    f'<a href="http://x"><person>raph</person><a href="http://y">x</a><iframe srcdoc="<script>{SCRIPT}</script>">',
    "<b>" * 100 + "<blockquote><ul><li>" * 30 + "x",
    f"<\u0000b><b\u00a0onclick=x>\u202e<b\t>&#60;script&#62;{SCRIPT}&lt;/script&gt;&lt<b>\u2028</b\u3000>",
    f"</p></ul></a></b><pre>\n</pre></pre><table><tr><td><form><input><base href=//x><meta http-equiv=refresh content=0><tt>{SCRIPT}",
)
ELEMENTS = set("b i em strong tt code pre p blockquote ul ol li br".split())
TARGET = re.compile(r"https?://|/person/[a-z][a-z0-9]{0,19}$|/project/[a-z][a-z0-9]{0,19}$")


def cleaned(texts):
    blocks = [(f"clean: {number}", text) for number, text in enumerate(texts)]
    return [block.partition("\n")[2] for block in answers(blocks).split("\n\n")[:-1]]


def page(texts):
    shown = "".join(f'<section id="text{number}">{text}</section>\n' for number, text in enumerate(texts))
    return f'<!DOCTYPE html>\n<html><head><meta charset="utf-8"><title>kept</title></head><body>\n{shown}</body></html>\n'


def read_by(browser, document):
    with tempfile.TemporaryDirectory() as folder:
        path = Path(folder) / "page.html"
        path.write_text(document, encoding="utf-8")
        words = [browser, "--headless", "--no-sandbox", "--disable-gpu", f"--user-data-dir={folder}/profile", "--dump-dom", path.as_uri()]
        return subprocess.run(words, capture_output=True, check=True, timeout=120).stdout.decode()


class Elements(HTMLParser):
    """The elements of a page as the browser wrote it out, and the sections at its top."""

    def __init__(self):
        super().__init__()
        self.found, self.depth, self.sections = [], 0, 0

    def handle_starttag(self, tag, attrs):
        self.found.append((tag, attrs))
        if tag == "section":
            self.sections += self.depth == 0
            self.depth += 1

    def handle_endtag(self, tag):
        self.depth -= tag == "section"


def is_safe(tag, attributes):
    if tag == "a":
        return len(attributes) == 1 and attributes[0][0] == "href" and bool(TARGET.match(attributes[0][1]))
    return tag in ELEMENTS and not attributes


def main():
    browser = next(filter(None, map(shutil.which, ("chromium", "chromium-browser", "google-chrome"))), None)
    if browser is None:
        print("skipped: there is no Chromium")
        return
    document = read_by(browser, page(cleaned(TEXTS)))
    elements = Elements()
    elements.feed(document)
    own = [("html", []), ("head", []), ("meta", [("charset", "utf-8")]), ("title", []), ("body", [])]
    own += [("section", [("id", f"text{number}")]) for number in range(len(TEXTS))]
    others = [element for element in elements.found if element not in own]
    unsafe = [element for element in others if not is_safe(*element)]
    if unsafe or [element for element in elements.found if element in own] != own or elements.sections != len(TEXTS):
        sys.exit(f"not in the grammar: {unsafe}")
    if "<title>kept</title>" not in document:
        sys.exit("a script ran")
    print(f"{len(TEXTS)} texts, {len(others)} elements, all of the grammar")


if __name__ == "__main__":
    main()
