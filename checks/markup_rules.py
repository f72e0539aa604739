#!/usr/bin/env python3
"""The six rules of markup read anew, beside the program.

    checks/markup_rules.py [COUNT]   compares so many random texts (20,000 where none is named)
    checks/markup_rules.py -         writes what becomes of the blocks on the standard input

The rules are written here without a line of the project, and tried one after another at each place of a text. Nothing
depends on this check: that the program keeps the rules is proved.
"""

import random
import re
import sys

from markup_program import answers

ESCAPES = {"&": "&amp;", "<": "&lt;", ">": "&gt;", '"': "&quot;"}
NAMES = "b|i|em|strong|tt|code|pre|p|blockquote|ul|ol|li"
DEPTH = 64


def escaped(text):
    return "".join(ESCAPES.get(character, character) for character in text)


def line_break(match, opened):
    return "<br>"


def page_link(match, opened):
    kind, name = match.group(1).lower(), match.group(2)
    return None if "a" in opened else f'<a href="/{kind}/{name}">{name}</a>'


def anchor(match, opened):
    if "a" in opened or len(opened) >= DEPTH:
        return None
    opened.append("a")
    return f'<a href="{match.group(1).replace("&", "&amp;")}">'


def start(match, opened):
    if len(opened) >= DEPTH:
        return None
    opened.append(match.group(1).lower())
    return f"<{opened[-1]}>"


def end(match, opened):
    if match.group(1).lower() not in opened:
        return None
    written = ""
    while True:
        written += f"</{opened[-1]}>"
        if opened.pop() == match.group(1).lower():
            return written


RULES = (
    (re.compile(r"<(?ai:br)(?:| ?/)>"), line_break),
    (re.compile(r"<((?ai:person|project))>([a-z][a-z0-9]{0,19})</(?ai:\1)>"), page_link),
    (re.compile(r'<(?ai:a) href="(https?://[^"<>\x00-\x20]*)">'), anchor),
    (re.compile(rf"<((?ai:{NAMES}))>"), start),
    (re.compile(rf"</((?ai:a|{NAMES}))>"), end),
)


def first_rule(text, place, opened):
    """What the first rule that applies writes, and where it ends."""
    for form, rule in RULES:
        match = form.match(text, place)
        written = rule(match, opened) if match else None
        if written is not None:
            return written, match.end()
    return escaped(text[place]), place + 1


def cleaned(text):
    written, opened, place = [], [], 0
    while place < len(text):
        piece, place = first_rule(text, place, opened)
        written.append(piece)
    return "".join(written) + "".join(f"</{name}>" for name in reversed(opened))


def blocks_of(text):
    for block in text.split("\n\n")[:-1]:
        heading, _, body = block.partition("\n")
        yield heading, body


def answered(blocks):
    calls = {"clean": cleaned, "escape": escaped}
    return "".join(f"{heading}\n{calls[heading.split(':')[0]](body)}\n\n" for heading, body in blocks)


PIECES = (
    "<b>", "</b>", "<I>", "</i>", "<em>", "</EM>", "<ul>", "<li>", "</li>", "</ul>", "<p>", "</p>", "<br>", "<BR />", "<br/>", "<br  />",
    "<a>", "</a>", "</A>", '<a href="http://x">', '<A href="https://y/?a&b">', '<a href="javascript:x">', '<a href="http://x y">',
    '<a href="http://', "<person>raph</person>", "<Project>a9</PROJECT>", "<person>Raph</person>", "<person>raph</project>", "<person>",
    "</person>", "<project>", "<script>", "<!--", "<", ">", "</", "/>", '"', '">', "&", "&amp;", " ", "x", "é", "日", "🙂", "\t", "\n", "\x7f", "K", "ſ",
)  # fmt: skip


def random_texts(count):
    draw = random.Random(1)
    for number in range(count):
        length = draw.choice((3, 10, 40, 200))
        pieces = PIECES if number % 3 else draw.sample(PIECES, 6)
        text = "".join(draw.choice(pieces) for _ in range(length))
        yield re.sub("\n+", "\n", text).strip("\n") or "-"


def compare(count):
    blocks = [(f"{('clean', 'escape')[number % 10 == 0]}: {number}", text) for number, text in enumerate(random_texts(count))]
    given, wanted = answers(blocks), answered(blocks)
    if given != wanted:
        first = next(pair for pair in zip(given.split("\n\n"), wanted.split("\n\n")) if pair[0] != pair[1])
        sys.exit("the program answered\n{}\nand the rules\n{}".format(*first))
    print(f"{count} texts, the same by the rules and by the program")


def main():
    words = sys.argv[1:]
    if words == ["-"]:
        print(answered(blocks_of(sys.stdin.read())), end="")
    elif not words:
        compare(20_000)
    elif len(words) == 1 and words[0].isdecimal():
        compare(int(words[0]))
    else:
        sys.exit("usage: checks/markup_rules.py [COUNT | -]")


if __name__ == "__main__":
    main()
