#!/usr/bin/env python3
"""A small community that `virgule serve` serves over a file, byte by byte and in a browser.

    checks/site_served.py [PICTURES [PROGRAM]]

A script founds the community in a file, and a server goes on with it. Requests are sent over plain sockets, and each response has to be, byte for
byte, what FORMATS says, but for the date, which has to lie between the request and the response, and the session's token: joins, logins, a diary
with markup, certificates, the rosters that a worker then publishes, posts of each kind, changes of the seeds and of the table, refusals of each
status, requests that are cut after each byte, and the 10,000th response of a link. The proof has to be accepted by `check` and by
`examples/check_proof.py`, to serve the accounts of the roster, and to have the certificates of the file's rows. After the server is killed, the file has
to have a row for each act that was accepted.

Then Chromium without a window joins, logs in, and writes, certifies and reads by the forms of `examples/write.html`; a picture of each page is put
into the folder PICTURES, where one is named ('-' for none), to be looked at. Where Chromium is missing this part is skipped. It ends with
status 1 at the first thing that is otherwise. PROGRAM is the path of a build in place of the repository's own.
"""

import hashlib
import re
import subprocess
import sys
import tempfile
import time
from email.utils import formatdate, parsedate_to_datetime
from pathlib import Path

from browser import Browser, browser_path
from serving import HOST, TOP, Site, play, program_of, request, rows_of, wait_for

CAPS = "9,4,2,1"
FOUNDING = ("caps 9 4 2 1", "moment 86400", "join raph correct%20horse", "seed raph", "join alan battery", "cert raph alan Journeyer")
GRAPH = b"""caps 9 5 1
levels 5
account raph
account alan
account kim
seed raph
cert raph alan Journeyer
cert raph kim Master
cert kim alan Apprentice
level Journeyer
"""
PHRASES = {
    200: "OK",
    303: "See Other",
    400: "Bad Request",
    403: "Forbidden",
    404: "Not Found",
    409: "Conflict",
    413: "Payload Too Large",
    431: "Request Header Fields Too Large",
    501: "Not Implemented",
}
MARKUP = '<b>hi<script>document.title="changed"</script> & <person>raph</person>'
MARKUP_IN_ROW = "%3Cb%3Ehi%3Cscript%3Edocument.title%3D%22changed%22%3C%2Fscript%3E+%26+%3Cperson%3Eraph%3C%2Fperson%3E"
CLEANED = '<b>hi&lt;script&gt;document.title=&quot;changed&quot;&lt;/script&gt; &amp; <a href="/person/raph">raph</a></b>'


def agree(title, found, wanted):
    if found != wanted:
        sys.exit(f"{title}:\nfound  {found!r}\nwanted {wanted!r}")


def page(title, *lines):
    opening = ("<!DOCTYPE html>", f"<html><head><title>{title}</title></head><body>", f"<h1>{title}</h1>")
    return "".join(f"{line}\n" for line in (*opening, *lines, "</body></html>")).encode()


def error(text):
    return page("Error", f"<p>{text}</p>")


def form(word):
    return f'<form method="post" action="/{word}"><input name="name"><input name="password" type="password"><button>{word}</button></form>'


def person(name, level, given, taken):
    given, taken = ([f"<li>{cert}</li>" for cert in certs] for certs in (given, taken))
    return page(name, f"<p>level {level}</p>", "<h2>certifies</h2>", "<ul>", *given, "</ul>", "<h2>certified by</h2>", "<ul>", *taken, "</ul>")


def roster(grade, number, revision, names):
    linked = [f'<li><a href="/person/{name}">{name}</a></li>' for name in names]
    return page(grade, f"<p>publication {number} revision {revision}</p>", "<ul>", *linked, "</ul>")


def date(moment):
    return formatdate(moment, usegmt=True)


def judge(title, found, began, status, body=b"", location=None, cookie=None, close=False, kind="text/html", bare=False):
    """Compares a response with what it should be, and gives the moment of its date."""
    moment = int(parsedate_to_datetime(found.field("Date")).timestamp())
    if not began <= moment <= time.time():
        sys.exit(f"{title}: {date(moment)} isn't the moment of the request")
    head = [f"HTTP/1.1 {status} {PHRASES[status]}", f"Date: {date(moment)}", f"Content-Type: {kind}; charset=utf-8", f"Content-Length: {len(body)}"]
    head += [f"Location: {location}"] if location else []
    head += [f"Set-Cookie: {cookie}"] if cookie else []
    head += [f"Connection: {'close' if close else 'keep-alive'}", "", ""]
    agree(title, found.head + found.body, "\r\n".join(head).encode() + (b"" if bare else body))
    return moment


class Walk:
    """What is asked, and what was accepted: the rows that the file should have."""

    def __init__(self, rows):
        self.link, self.rows, self.cookies = None, rows, {}

    def get(self, path, status, body, **more):
        began = int(time.time())
        return judge(f"GET {path}", self.link.ask("GET", path), began, status, body, **more)

    def post(self, path, fields, who, status, words=None, row=None, **more):
        """Sends a form in the session of a member. A refusal has its words, and an accepted act its row."""
        began = int(time.time())
        answer = self.link.ask("POST", path, fields, self.cookies.get(who, who))
        moment = judge(f"POST {path} {fields}", answer, began, status, error(words) if words else b"", **more)
        if row is not None:
            self.rows.append(f"v=2&k={path[1:]}&m={moment}&{row}".encode())
        return moment

    def log_in(self, name, password):
        began = int(time.time())
        answer = self.link.ask("POST", "/login", {"name": name, "password": password})
        cookie = answer.field("Set-Cookie") or ""
        if not re.fullmatch(rf"id={name}:[0-9a-f]{{32}}; Path=/; HttpOnly", cookie):
            sys.exit(f"login of {name}: {answer}")
        judge(f"login of {name}", answer, began, 303, location="/", cookie=cookie)
        self.cookies[name] = cookie.partition(";")[0]

    def publication(self, grade, revision):
        """Waits for the publication of a revision, and gives its number."""
        pattern = re.compile(rb"<p>publication ([0-9]+) revision %d</p>" % revision)
        found = wait_for(f"revision {revision}", lambda: pattern.search(self.link.ask("GET", f"/roster/{grade}").body))
        return int(found[1])


def digest(name, password):
    return hashlib.sha256(f"{name}:{password}".encode()).hexdigest()


def members_act(walk):
    """Joins and logins, a diary, certificates, and the rosters that follow."""
    number = walk.publication("Master", 4)
    walk.get("/roster/Master", 200, roster("Master", number, 4, ["raph"]))
    walk.get("/roster/Journeyer", 200, roster("Journeyer", number, 4, ["raph", "alan"]))
    walk.get("/", 200, page("virgule", "<ul>", "</ul>"))
    walk.get("/account", 200, page("account", form("join"), form("login")))
    kim = {"name": "kim", "password": "a b&c"}
    walk.post("/join", kim, None, 303, location="/account", row=f"n=kim&s={digest('kim', 'a b&c')}")
    walk.post("/join", kim, None, 409, "name taken 2")
    walk.post("/join", kim | {"name": "Kim"}, None, 400, "bad name")
    walk.post("/login", kim | {"password": "a"}, None, 403, "wrong password")
    walk.post("/login", kim | {"name": "zoe"}, None, 404, "no such account")
    walk.log_in("kim", "a b&c")
    walk.log_in("raph", "correct horse")
    moment = walk.post("/diary", {"text": MARKUP}, "kim", 303, location="/diary/kim", row=f"a=2&t={MARKUP_IN_ROW}")
    walk.get("/diary/kim", 200, page("Diary of kim", f"<h2>{date(moment)}</h2>", f"<div>{CLEANED}</div>"))
    walk.get("/diary/alan", 200, page("Diary of alan"))
    walk.post("/diary", {"text": "x"}, None, 403, "no session")
    walk.post("/diary", {"text": "x"}, "id=kim:" + "0" * 32, 403, "no session")
    walk.post("/diary", {"text": "x"}, walk.cookies["kim"].replace("kim", "raph"), 403, "no session")
    walk.post("/diary", {"text": "x" * 16385}, "kim", 400, "long text 16385")
    walk.post("/article", {"title": "Of <trust>", "text": "x"}, "kim", 403, "denied Observer needs Journeyer")
    walk.post("/cert", {"subject": "kim", "level": "Master"}, "raph", 303, location="/person/kim", row="a=0&b=2&l=Master")
    walk.post("/cert", {"subject": "alan", "level": "Apprentice"}, "kim", 303, location="/person/alan", row="a=2&b=1&l=Apprentice")
    walk.post("/cert", {"subject": "alan", "level": "Apprentice"}, "kim", 409, "same")
    walk.post("/cert", {"subject": "kim", "level": "Master"}, "kim", 400, "self cert")
    walk.post("/cert", {"subject": "zoe", "level": "Master"}, "kim", 404, "no such account")
    walk.post("/cert", {"subject": "alan", "level": "Elder"}, "kim", 400, "no such level 4")
    number = walk.publication("Master", 7)
    walk.get("/roster/Master", 200, roster("Master", number, 7, ["raph", "kim"]))
    walk.get("/roster/Apprentice", 200, roster("Apprentice", number, 7, ["raph", "alan", "kim"]))
    walk.get("/person/kim", 200, person("kim", "Master", ["alan Apprentice"], ["raph Master"]))
    walk.get("/person/alan", 200, person("alan", "Journeyer", [], ["raph Journeyer", "kim Apprentice"]))


def members_post(walk):
    """Articles, replies and projects, which kim may write by now."""
    article = walk.post("/article", {"title": "Of <trust>", "text": "<i>x"}, "kim", 303, location="/article/0", row="a=2&h=Of+%3Ctrust%3E&t=%3Ci%3Ex")
    reply = walk.post("/reply", {"article": "0", "text": "é"}, "raph", 303, location="/article/0", row="a=0&i=0&t=%C3%A9")
    project = walk.post("/project", {"name": "virgule", "text": ""}, "kim", 303, location="/project/virgule", row="a=2&n=virgule&t=")
    walk.post("/project", {"name": "virgule", "text": ""}, "kim", 409, "name taken 0")
    walk.post("/reply", {"article": "1", "text": "x"}, "raph", 404, "no such article")
    walk.get("/", 200, page("virgule", "<ul>", '<li><a href="/article/0">Of &lt;trust&gt;</a> by <a href="/person/kim">kim</a></li>', "</ul>"))
    answer = (f"<p>by kim {date(article)}</p>", "<div><i>x</i></div>", f"<h2>raph {date(reply)}</h2>", "<div>é</div>")
    walk.get("/article/0", 200, page("Of &lt;trust&gt;", *answer))
    walk.get("/project/virgule", 200, page("virgule", f"<p>by kim {date(project)}</p>", "<div></div>"))


def stewards_act(walk):
    """Changes of the seeds and of the table, which only a seed may make."""
    walk.post("/seed", {"subject": "kim"}, "kim", 403, "not a steward")
    walk.post("/seed", {"subject": "kim"}, "raph", 303, location="/person/kim", row="a=2")
    walk.post("/unseed", {"subject": "alan"}, "raph", 409, "not a seed")
    walk.post("/unseed", {"subject": "kim"}, "kim", 303, location="/person/kim", row="a=2")
    walk.post("/unseed", {"subject": "raph"}, "raph", 409, "last seed")
    walk.get("/stewards", 200, page("stewards", "<p>levels 4</p>", "<p>caps 9 4 2 1</p>", "<ul>", "<li>raph</li>", "</ul>"))
    walk.post("/table", {"levels": "3", "entries": "9 1"}, "raph", 409, "levels fall 4")
    walk.post("/table", {"levels": "5", "entries": "9 5 1"}, "raph", 303, location="/stewards", row="g=5&c=9+5+1")
    walk.get("/stewards", 200, page("stewards", "<p>levels 5</p>", "<p>caps 9 5 1</p>", "<ul>", "<li>raph</li>", "</ul>"))
    number = walk.publication("Fellow", 10)
    walk.get("/roster/Fellow", 200, roster("Fellow", number, 10, ["raph"]))


def paths_and_methods(walk):
    """Requests that no page answers, and one for a head alone."""
    for path in ("/nothing", "/person/", "/person/%72aph", "/roster/Observer", "/article/x", "/join", "/person/zoe"):
        walk.get(path, 404, error("not found"))
    walk.get("/roster/Warden", 404, error("no grade"))
    walk.get("/account?x", 200, page("account", form("join"), form("login")))
    walk.post("/nothing", {}, None, 404, "not found")
    walk.post("/join", {"name": "x"}, None, 400, "bad request")
    began = int(time.time())
    judge("PUT", walk.link.ask("PUT", "/"), began, 501, error("not implemented"))
    judge("HEAD", walk.link.ask("HEAD", "/nothing"), began, 404, error("not found"), bare=True)


def last_requests(site):
    """Requests that ask for the link's end."""
    began = int(time.time())
    for words in ({"close": True}, {"version": "1.0"}):
        with site.link() as link:
            judge(f"a last request {words}", link.ask("GET", "/nothing", **words), began, 404, error("not found"), close=True)
            agree(f"behind a last request {words}", link.rest(), b"")


def refused_heads(site):
    """Heads that are refused, each of which ends its link."""
    many = "".join(f"X{n}: x\r\n" for n in range(64))
    heads = (
        (413, "too long", "POST /join HTTP/1.1\r\nHost: x\r\nContent-Length: 65537\r\n\r\n"),
        (501, "not implemented", "POST /join HTTP/1.1\r\nHost: x\r\nTransfer-Encoding: chunked\r\n\r\n"),
        (400, "bad request", "GET / HTTP/1.1\r\n\r\n"),
        (400, "bad request", "GET /\r\n\r\n"),
        (431, "head too long", f"GET / HTTP/1.1\r\nHost: x\r\n{many}\r\n"),
        (431, "head too long", f"GET / HTTP/1.1\r\nHost: x\r\nX: {'x' * 16384}"),
    )
    for status, text, head in heads:
        with site.link() as link:
            began = int(time.time())
            link.send(head.encode())
            judge(f"a refused head {head[:60]!r}", link.response(), began, status, error(text), close=True)
            agree(f"behind a refused head {head[:60]!r}", link.rest(), b"")


def cut_requests(site):
    """A request that is cut after each byte, two in one piece, one that is cut off, and the last response of a link."""
    whole = request("GET", "/nothing")
    began = int(time.time())
    with site.link() as link:
        for n in range(len(whole) + 1):
            link.send(whole[:n])
            time.sleep(0.002)
            link.send(whole[n:])
            judge(f"cut after {n} bytes", link.response(), began, 404, error("not found"))
        link.send(b"\r\n\n" + whole + whole)
        for n in range(2):
            judge("two in one piece", link.response(), began, 404, error("not found"))
        link.send(whole[:-1])
        link.socket.shutdown(1)
        agree("behind a request that is cut off", link.rest(), b"")
    with site.link() as link:
        for _ in range(100):
            link.send(whole * 100)
            for _ in range(100):
                judge("one of 10,000", link.response(), began, 404, error("not found"))
        agree("behind the 10,000th response", link.rest(), b"")


def proof_is_right(program, file, walk):
    """The proof of a roster, by two programs, by the names on the roster's page, and by the rows of a copy of the file."""
    walk.publication("Journeyer", 10)
    proof, shown = walk.link.ask("GET", "/proof/Journeyer"), walk.link.ask("GET", "/roster/Journeyer")
    agree("type of a proof", proof.field("Content-Type"), "text/plain; charset=utf-8")
    agree("graph of a proof", proof.body[: len(GRAPH)], GRAPH)
    copy = file.parent / "copy.db"
    subprocess.run([TOP / "examples" / "copy_site.sh", file, copy], check=True)
    told = subprocess.run([TOP / "examples" / "graph_of_rows.py", copy, "10", CAPS.replace(",", " ")], stdout=subprocess.PIPE, check=True)
    agree("graph of the rows", told.stdout + b"level Journeyer\n", GRAPH)
    names = re.findall(rb'<li><a href="/person/(.*)">', shown.body)
    kept = dict.fromkeys((b"raph", b"alan", b"kim"), 0)
    for giver, taker, units in re.findall(rb"^flow (\S+) (\S+) (\d+)$", proof.body, re.MULTILINE):
        kept[taker] += int(units)
        if giver != b"-":
            kept[giver] -= int(units)
    agree("accounts that a proof serves", [name for name, units in kept.items() if units], names)
    for words in ([program, "check"], [sys.executable, TOP / "examples" / "check_proof.py"]):
        verdict = subprocess.run(words, input=proof.body, stdout=subprocess.PIPE, check=False)
        agree(f"verdict of {words[-1]}", (verdict.returncode, verdict.stdout), (0, b"greatest 3\n"))


def log_out(walk):
    walk.post("/logout", {}, "kim", 303, location="/", cookie="id=; Path=/; Max-Age=0")
    walk.post("/logout", {}, "kim", 403, "no session")
    walk.post("/diary", {"text": "x"}, "kim", 403, "no session")


def byte_by_byte(program, folder):
    file = Path(folder) / "site.db"
    agree("the founding", play(program, file, *FOUNDING), ["moment 86400", "joined 0", "revision 2", "joined 1", "revision 4"])
    rows = rows_of(file)
    with Site(program, "--db", file, "--caps", CAPS) as site:
        walk = Walk(rows)
        # Each part has a link of its own, since a link ends after 5 seconds of silence.
        for part in (members_act, members_post, stewards_act, paths_and_methods):
            with site.link() as walk.link:
                part(walk)
        with site.link() as walk.link:
            proof_is_right(program, file, walk)
        refused_heads(site)
        last_requests(site)
        cut_requests(site)
        with site.link() as walk.link:
            log_out(walk)
    agree("rows of the file", rows_of(file), rows)
    print(f"each response is as it should be, and the file has its {len(rows)} rows")


def in_browser(program, folder, pictures):
    path = browser_path()
    if path is None:
        print("not shown: there is no Chromium")
        return
    file = Path(folder) / "shown.db"
    play(program, file, *FOUNDING)
    with Site(program, "--db", file, "--caps", CAPS) as site, Browser(path) as browser:
        walk_in_browser(program, f"http://{HOST}:{site.port}", browser, pictures)
    print("a browser joins, logs in, writes, certifies and reads")


def walk_in_browser(program, at, browser, pictures):
    def seen(name, expression, wanted):
        agree(f"in the browser, {name}: {expression}", browser.value(expression), wanted)
        if pictures is not None:
            browser.picture(pictures / f"{name}.png")

    forms = (TOP / "examples" / "write.html").read_text()
    browser.open(f"{at}/account")
    seen("account", "document.title", "account")
    browser.submit("/join", name="kim", password="a b&c")
    browser.submit("/login", name="raph", password="correct horse")
    seen("front", "location.pathname + ' ' + document.title", "/ virgule")
    agree("what a script sees of the session", browser.value("document.cookie"), "")
    browser.write(forms)
    seen("write", "document.querySelectorAll('form').length", 9)
    browser.submit("/diary", text=MARKUP)
    seen("diary", "location.pathname + ' ' + document.title", "/diary/raph Diary of raph")
    agree("the diary in the browser", browser.value("document.querySelector('div').innerHTML"), CLEANED.replace("&quot;", '"'))
    browser.write(forms)
    browser.submit("/cert", subject="kim", level="Master")
    seen("person", "location.pathname + ' ' + document.querySelectorAll('li')[0].innerText", "/person/kim raph Master")

    def names():
        browser.open(f"{at}/roster/Master")
        found = browser.value("[...document.querySelectorAll('li')].map(line => line.innerText)")
        return found if "kim" in found else None

    agree("the roster in the browser", wait_for("kim on the roster", names), ["raph", "kim"])
    seen("roster", "document.title", "Master")
    browser.open(f"{at}/proof/Master")
    seen("proof", "document.contentType", "text/plain")
    proof = browser.value("document.body.innerText")
    verdict = subprocess.run([program, "check"], input=proof.encode(), stdout=subprocess.PIPE, check=False)
    agree("verdict on the browser's proof", verdict.stdout, b"greatest 2\n")
    browser.open(f"{at}/stewards")
    seen("stewards", "document.querySelector('li').innerText", "raph")
    browser.open(f"{at}/nothing")
    seen("error", "document.querySelector('p').innerText", "not found")


def main():
    words = sys.argv[1:]
    pictures = Path(words[0]).resolve() if words and words[0] != "-" else None
    program = program_of(words, 1)
    with tempfile.TemporaryDirectory() as folder:
        byte_by_byte(program, folder)
        in_browser(program, folder, pictures)


if __name__ == "__main__":
    main()
