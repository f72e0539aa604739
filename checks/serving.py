"""A site that `virgule serve` serves on a port of this machine, for the checks and benches that ask it. Nothing here judges an answer."""

import select
import socket
import sqlite3
import subprocess
import sys
import time
from contextlib import closing
from pathlib import Path
from typing import NamedTuple
from urllib.parse import urlencode

TOP = Path(__file__).resolve().parent.parent
PROGRAM = TOP / "crates" / "virgule" / "out" / "virgule"
HOST = "127.0.0.1"
PATIENCE = 60  # seconds, after which what is waited for counts as never to come


def program_of(words, place):
    """The program: the path in the word at that place, or this repository's build, which is made first where it has to be."""
    if len(words) > place:
        return Path(words[place]).resolve()
    subprocess.run([TOP / "virgule", "check"], stdin=subprocess.DEVNULL, stdout=subprocess.DEVNULL, check=False)
    return PROGRAM


def play(program, file, *lines):
    """Plays a script over a file, and gives the lines that it prints."""
    script = "\n".join(lines) + "\n"
    return subprocess.run([program, "script", "--db", file], input=script, text=True, stdout=subprocess.PIPE, check=True).stdout.splitlines()


def rows_of(file):
    """The rows that a site's file has, in order, as Python's sqlite3 reads them. Ends the check where the file isn't whole or a number is missing."""
    with closing(sqlite3.connect(file)) as database:
        if database.execute("PRAGMA integrity_check").fetchone() != ("ok",):
            sys.exit(f"{file} isn't whole")
        rows = database.execute("SELECT seq, body FROM kept ORDER BY seq").fetchall()
    if [number for number, _ in rows] != list(range(1, len(rows) + 1)):
        sys.exit(f"a number is missing in {file}")
    return [bytes(body) for _, body in rows]


def free_port():
    with socket.socket() as probe:
        probe.bind((HOST, 0))
        return probe.getsockname()[1]


class Site:
    """A program that serves a site, from its line `listening` until it is killed."""

    def __init__(self, program, *words):
        self.port = free_port()
        command = [program, "serve", "--listen", f"{HOST}:{self.port}", *map(str, words)]
        self.child = subprocess.Popen(command, stdin=subprocess.DEVNULL, stdout=subprocess.PIPE)
        ready, _, _ = select.select([self.child.stdout], [], [], PATIENCE)
        line = self.child.stdout.readline() if ready else b""
        if line != b"listening\n":
            self.kill()
            sys.exit(f"no server: {line!r}")

    def __enter__(self):
        return self

    def __exit__(self, *_):
        self.kill()

    def kill(self):
        """Kills the program (SIGKILL), and waits until it is gone."""
        self.child.kill()
        self.child.wait()
        self.child.stdout.close()

    def link(self):
        return Link(self.port)


class Closed(Exception):
    """The link was closed before a whole response came."""


class Response(NamedTuple):
    head: bytes  # with the empty line behind it
    body: bytes

    @property
    def status(self):
        return int(self.head.split(b" ", 2)[1])

    def field(self, name):
        """The value of a field of the head; None where there is none."""
        for line in self.head.split(b"\r\n")[1:]:
            word, _, value = line.partition(b": ")
            if word.decode() == name:
                return value.decode()
        return None


def request(method, path, form=None, cookie=None, version="1.1", close=False):
    """The bytes of a request."""
    body = urlencode(form or {}).encode()
    lines = [f"{method} {path} HTTP/{version}", "Host: localhost"]
    if cookie is not None:
        lines.append(f"Cookie: {cookie}")
    if close:
        lines.append("Connection: close")
    if method == "POST":
        lines += ["Content-Type: application/x-www-form-urlencoded", f"Content-Length: {len(body)}"]
    return "".join(f"{line}\r\n" for line in [*lines, ""]).encode() + body


class Link:
    """A link to a server. What comes is kept until it is asked for."""

    def __init__(self, port):
        self.socket = socket.create_connection((HOST, port), PATIENCE)
        self.socket.setsockopt(socket.IPPROTO_TCP, socket.TCP_NODELAY, 1)
        self.came = b""

    def __enter__(self):
        return self

    def __exit__(self, *_):
        self.close()

    def close(self):
        self.socket.close()

    def send(self, piece):
        self.socket.sendall(piece)

    def more(self):
        """Waits for more bytes. False where the link was closed."""
        try:
            piece = self.socket.recv(1 << 16)
        except ConnectionResetError:
            return False
        self.came += piece
        return piece != b""

    def response(self, bare=False):
        """The next response. One to HEAD is bare, without its body."""
        while b"\r\n\r\n" not in self.came:
            if not self.more():
                raise Closed
        head, _, _ = self.came.partition(b"\r\n\r\n")
        found = Response(head + b"\r\n\r\n", b"")
        end = len(found.head) + (0 if bare else int(found.field("Content-Length")))
        while len(self.came) < end:
            if not self.more():
                raise Closed
        body, self.came = self.came[len(found.head) : end], self.came[end:]
        return found._replace(body=body)

    def rest(self):
        """All that still comes until the link is closed."""
        while self.more():
            pass
        rest, self.came = self.came, b""
        return rest

    def ask(self, method, path, form=None, cookie=None, **more):
        """Sends a request and waits for its response."""
        self.send(request(method, path, form, cookie, **more))
        return self.response(bare=method == "HEAD")

    def log_in(self, name, password):
        """Logs in, and gives the cookie of the session."""
        answer = self.ask("POST", "/login", {"name": name, "password": password})
        if answer.status != 303:
            raise RuntimeError(f"no login: {answer.body!r}")
        return answer.field("Set-Cookie").partition(";")[0]


def wait_for(what, found):
    """Asks again and again until something is found, and gives it."""
    end = time.monotonic() + PATIENCE
    while time.monotonic() < end:
        answer = found()
        if answer:
            return answer
        time.sleep(0.02)
    sys.exit(f"never came: {what}")


def star(names):
    """The script of a site in which one seed certifies all others at Master, and all are accepted."""
    yield "caps 2000 2000 1"
    yield from (f"join member{number}" for number in range(names))
    yield "seed member0"
    yield from (f"cert member0 member{number} Master" for number in range(1, names))


class Nginx:
    """An nginx of its own, whose `http` block has this text, until it is ended. The text has it listen on the port."""

    def __init__(self, folder, port, text):
        self.port, own = port, Path(folder)
        own.mkdir()
        user = "user root;\n" if own.owner() == "root" else ""
        main = f"{user}daemon off;\nworker_processes auto;\npid {own}/pid;\nerror_log {own}/error.log;\nevents {{ }}\n"
        paths = "".join(f"{word}_temp_path {own}/{word};\n" for word in ("client_body", "proxy", "fastcgi", "uwsgi", "scgi"))
        (own / "nginx.conf").write_text(f"{main}http {{\naccess_log off;\n{paths}{text}\n}}\n")
        self.child = subprocess.Popen(["nginx", "-c", own / "nginx.conf"], stderr=subprocess.DEVNULL)
        wait_for("nginx", self.listens)

    def listens(self):
        if self.child.poll() is not None:
            sys.exit("nginx has ended")
        with socket.socket() as probe:
            return probe.connect_ex((HOST, self.port)) == 0

    def __enter__(self):
        return self

    def __exit__(self, *_):
        self.child.terminate()
        self.child.wait()
