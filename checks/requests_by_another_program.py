#!/usr/bin/env python3
"""Reads the requests of crates/request_cases by a reader of its own, and compares with the stored output.

    checks/requests_by_another_program.py [COUNT]

A head is one where it matches a regular expression from end to end. Forms are read by urllib. Then so many of these requests (10,000 where
none is named), each with one to three bytes dropped or put in at random, are read by the program that was built, at once and byte by byte,
and its answers compared. It ends with status 1 where they differ.
"""

import random
import re
import subprocess
import sys
from pathlib import Path
from urllib.parse import parse_qsl

CASES = Path(__file__).resolve().parent.parent / "crates" / "request_cases"
LEVELS = "Observer Apprentice Journeyer Master Fellow Warden Elder".split()
NAME = re.compile("[a-z][a-z0-9]{0,19}")
TOKEN = rb"[!#$%&'*+\-.^_`|~0-9A-Za-z]+"
FIELD = re.compile(rb"(" + TOKEN + rb"):([\t\x20-\x7e\x80-\xff]*)\r?\n")
HEAD = re.compile(
    rb"(?:\r?\n)*(" + TOKEN + rb") ([\x21-\x7e\x80-\xff]+) HTTP/1\.([01])\r?\n((?:" + FIELD.pattern + rb")*)\r?\n"
)
MARKS = {b"r": b"\r", b"n": b"\n", b"f": b"\xff"}
PUT_IN = b"\r\n\xff :;,=&?/%+ax"
ESCAPES = {byte: f"\\u{{{byte:x}}}" for byte in (*range(32), 127)} | {0: "\\0", 9: "\\t", 10: "\\n", 13: "\\r", 34: '\\"', 92: "\\\\"}


def bytes_of(line):
    def written(mark):
        times, meant = mark.groups()
        return MARKS.get(meant, meant) * max(1, int(times or b"1"))

    return re.sub(rb"\\([0-9]*)(.)", written, line.encode())


def number(text):
    if re.fullmatch("0|[1-9][0-9]{0,9}", text) and int(text) <= 4_294_967_295:
        return int(text)
    return None


def head_end(came):
    start = re.match(rb"(?:\r?\n)*", came).end()
    found = re.compile(rb"\n\r?\n").search(came, start)
    return found.end() if found else None


def text(word):
    """As a derived `Debug` writes it."""
    return f'Text {{ text: "{word.translate(ESCAPES)}" }}'


def table(levels, entries):
    levels, entries = number(levels), [number(word) for word in entries.split(" ")]
    if levels is None or None in entries or not 2 <= levels <= 7 or len(entries) > 16:
        return None
    if 0 in entries or max(entries) > 2_000 or entries != sorted(entries, reverse=True) or entries[-1] != 1:
        return None
    return f"Table of {levels} levels, {entries}"


def level(word):
    return word if word in LEVELS else None


def named(kind, *fields):
    return lambda *values: f"{kind} {{ " + ", ".join(f"{name}: {value}" for name, value in zip(fields, values)) + " }"


PARTS = {
    "/person/": lambda part: f"PersonOf({text(part)})",
    "/diary/": lambda part: f"DiaryOf({text(part)})",
    "/project/": lambda part: f"ProjectOf({text(part)})",
    "/article/": lambda part: None if number(part) is None else f"ArticleOf({number(part)})",
    "/roster/": lambda part: f"RosterOf({part})" if part in LEVELS[1:] else None,
    "/proof/": lambda part: f"ProofOf({part})" if part in LEVELS[1:] else None,
}
PAGES = {"/": "Front", "/account": "Account", "/stewards": "Stewards"}
FORMS = {
    "/join": ([("name", text), ("password", text)], named("Join", "name", "password")),
    "/login": ([("name", text), ("password", text)], named("Login", "name", "password")),
    "/logout": ([], lambda: "Logout"),
    "/cert": ([("subject", text), ("level", level)], named("Cert", "subject", "level")),
    "/diary": ([("text", text)], named("Diary", "text")),
    "/article": ([("title", text), ("text", text)], named("Article", "title", "text")),
    "/reply": ([("article", number), ("text", text)], named("Reply", "article", "text")),
    "/project": ([("name", text), ("text", text)], named("Project", "name", "text")),
    "/seed": ([("subject", text)], named("Seed", "subject")),
    "/unseed": ([("subject", text)], named("Unseed", "subject")),
}
STATUSES = {"NotImplemented": 501, "NotFound": 404, "BadForm": 400}
FOR_ALL = ("/join", "/login")


def page(path):
    if path in PAGES:
        return PAGES[path]
    for front, shown in PARTS.items():
        part = path.removeprefix(front)
        if part != path and part and "/" not in part:
            return shown(part) or "NotFound"
    return "NotFound"


def form(body):
    fields = {}
    written = "".join(chr(byte) if byte < 0x80 else f"%{byte:02X}" for byte in body)
    for name, value in parse_qsl(written, keep_blank_values=True, encoding="utf-8", errors="replace"):
        fields.setdefault(name, value)
    return fields


def action(path, body):
    fields = form(body)
    if path == "/table":
        return "levels" in fields and "entries" in fields and table(fields["levels"], fields["entries"]) or "BadForm"
    if path not in FORMS:
        return "NotFound"
    layout, shown = FORMS[path]
    values = [read(fields[name]) if name in fields else None for name, read in layout]
    return "BadForm" if None in values else shown(*values)


def session(cookies):
    for part in (part.lstrip(" ") for cookie in cookies for part in cookie.split(";")):
        if part.startswith("id="):
            name, _, digits = part[3:].partition(":")
            if NAME.fullmatch(name) and re.fullmatch("[0-9A-Fa-f]{32}", digits):
                return f", by {name} with {list(bytes.fromhex(digits))}"
            return ""
    return ""


def body_length(minor, values):
    """The length of the body, or the status."""
    hosts, lengths = values("host"), values("content-length")
    if len(hosts) > 1 or minor == 1 and not hosts:
        return None, 400
    if values("transfer-encoding"):
        return None, 501
    if len(lengths) > 1 or not all(re.fullmatch("[0-9]{1,10}", length) for length in lengths):
        return None, 400
    length = int(lengths[0]) if lengths else 0
    if length > 65_536:
        return None, 413
    if length and any(coding.lower() != "identity" for coding in values("content-encoding")):
        return None, 400
    return length, None


def asked(came):
    """What the bytes ask for, as the program writes it."""
    end = head_end(came)
    lines = came[:end].split(b"\n")[:-1]
    if (
        len(came) > 16_384 and head_end(came[:16_384]) is None
        or end is not None and end > 16_384
        or sum(line not in (b"", b"\r") for line in lines) > 65
    ):
        return "refused with 431"
    if end is None:
        return "more bytes are needed"
    head = HEAD.fullmatch(came[:end])
    try:
        method, target, minor = head[1].decode(), head[2].decode(), int(head[3])
    except (TypeError, UnicodeDecodeError):
        return "refused with 400"
    fields = [(name.decode().lower(), value.strip(b" \t").decode("latin-1")) for name, value in FIELD.findall(head[4])]

    def values(wanted):
        return [value for name, value in fields if name == wanted]

    length, status = body_length(minor, values)
    if status:
        return f"refused with {status}"
    if len(came) - end < length:
        return "more bytes are needed"
    path = target.partition("?")[0]
    if method in ("GET", "HEAD"):
        route = page(path)
    else:
        route = action(path, came[end : end + length]) if method == "POST" else "NotImplemented"
    by = session(values("cookie"))
    status = STATUSES.get(route) or (403 if method == "POST" and path not in FOR_ALL and not by else None)
    refused = f", refused with {status}" if status else ""
    bare = ", without the body of the answer" if method == "HEAD" else ""
    words = [word.strip(" ").lower() for value in values("connection") for word in value.split(",")]
    close = ", then close" if minor == 0 or "close" in words else ""
    return f"{end + length} bytes: {route}{by}{refused}{bare}{close}"


def first_answer(came):
    """How many of the bytes give an answer, or all, and what they ask for. What is asked for stays, so that a search by halves finds it."""
    few, many = 0, len(came)
    while many - few > 1:
        middle = (few + many) // 2
        few, many = (middle, many) if asked(came[:middle]) == "more bytes are needed" else (few, middle)
    return many, asked(came[:many])


def expected(block):
    heading, *lines = block.splitlines()
    yield heading
    for line in lines:
        yield line
        came = bytes_of(line)
        if heading.startswith("reads: "):
            yield "    1000" if " bytes: " in asked(came) else "    0"
        elif heading.startswith("byte by byte: "):
            many, answer = first_answer(came)
            yield f"    at byte {many}"
            yield "    " + answer
        else:
            yield "    " + asked(came)


def changed(came):
    """The bytes with some dropped or put in, as a line of the cases; `None` where no line writes them."""
    came = bytearray(came)
    for _ in range(random.randint(1, 3)):
        place = random.randrange(len(came) + 1)
        came[place : place + random.randint(0, 1)] = [random.choice(PUT_IN)][: random.randint(0, 1)]
    try:
        line = bytes(came).replace(b"\\", b"\\\\").replace(b"\r", b"\\r").replace(b"\n", b"\\n").replace(b"\xff", b"\\f").decode()
    except UnicodeDecodeError:
        return None
    return line or None


def differs(block, answer):
    """Whether a block isn't answered as expected. The first line that differs is shown."""
    for want, got in zip([*expected(block), None], [*answer.split("\n"), None]):
        if want != got:
            print(f"{block.splitlines()[0]}\n    wanted {want}\n    found  {got}")
            return True
    return False


def blocks_of(stored):
    return stored.strip("\n").split("\n\n")


def main():
    count = int(sys.argv[1]) if len(sys.argv) > 1 else 10_000
    cases = blocks_of((CASES / "stdin").read_text(encoding="utf-8"))
    found = blocks_of((CASES / "stdout").read_text(encoding="utf-8"))
    wrong = sum(map(differs, cases, found)) + abs(len(cases) - len(found))
    print(f"{len(cases)} blocks, {wrong} not as expected")
    short = [line for case in cases for line in case.splitlines()[1:] if len(bytes_of(line)) < 1_000]
    lines = [line for line in (changed(bytes_of(random.choice(short))) for _ in range(count)) if line]
    blocks = [f"{heading}\n" + "\n".join(lines) for heading in ("at once", "byte by byte: the same")]
    run = subprocess.run([CASES / "out" / "request_cases"], input="\n\n".join([*blocks, ""]).encode(), capture_output=True, check=True)
    wrong_at_random = sum(map(differs, blocks, blocks_of(run.stdout.decode())))
    print(f"{len(lines)} changed requests, read at once and byte by byte: {'not all' if wrong_at_random else 'all'} as expected")
    sys.exit(bool(wrong or wrong_at_random))


if __name__ == "__main__":
    main()
