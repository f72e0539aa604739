"""A Chromium without a window, driven over a pipe by its DevTools protocol, for the checks that look at pages."""

import base64
import fcntl
import json
import os
import shutil
import subprocess
import sys
import tempfile


def browser_path():
    """Where Chromium is; None where there is none."""
    return next(filter(None, map(shutil.which, ("chromium", "chromium-browser", "google-chrome"))), None)


class Browser:
    """One page of a Chromium of its own, without a history and with no cookie yet."""

    def __init__(self, path, *flags):
        self.profile = tempfile.TemporaryDirectory(ignore_cleanup_errors=True)
        commands, self.commands = os.pipe()
        self.answers, answers = os.pipe()
        self.child = self.start([path, *flags], commands, answers)
        os.close(commands)
        os.close(answers)
        self.came, self.events, self.number, self.session = b"", [], 0, None
        pages = self.call("Target.getTargets")["targetInfos"]
        page = next(target["targetId"] for target in pages if target["type"] == "page")
        self.session = self.call("Target.attachToTarget", targetId=page, flatten=True)["sessionId"]
        self.call("Page.enable")

    def start(self, words, commands, answers):
        """Chromium reads commands from descriptor 3 and writes what it has to say to descriptor 4."""
        words += ["--headless", "--no-sandbox", "--disable-gpu", "--no-first-run", "--window-size=900,700"]
        words += ["--remote-debugging-pipe", f"--user-data-dir={self.profile.name}", "about:blank"]
        high = [fcntl.fcntl(end, fcntl.F_DUPFD, 10) for end in (commands, answers)]

        def place():
            os.dup2(high[0], 3)
            os.dup2(high[1], 4)

        child = subprocess.Popen(words, pass_fds=(3, 4), preexec_fn=place, stdin=subprocess.DEVNULL, stdout=subprocess.DEVNULL, stderr=subprocess.DEVNULL)
        for end in high:
            os.close(end)
        return child

    def __enter__(self):
        return self

    def __exit__(self, *_):
        os.close(self.commands)
        self.child.terminate()
        self.child.wait()
        os.close(self.answers)
        self.profile.cleanup()

    def message(self):
        """The next message; each ends with a byte 0."""
        while b"\0" not in self.came:
            piece = os.read(self.answers, 1 << 16)
            if not piece:
                sys.exit("the browser has ended")
            self.came += piece
        message, _, self.came = self.came.partition(b"\0")
        return json.loads(message)

    def call(self, method, **words):
        """Carries out a command, and gives what it answers. Events that come meanwhile are kept."""
        self.number += 1
        command = {"id": self.number, "method": method, "params": words}
        if self.session is not None:
            command["sessionId"] = self.session
        os.write(self.commands, json.dumps(command).encode() + b"\0")
        while True:
            message = self.message()
            if message.get("id") == self.number:
                if "error" in message:
                    sys.exit(f"{method}: {message['error']}")
                return message["result"]
            self.events.append(message.get("method"))

    def until_loaded(self):
        while "Page.loadEventFired" not in self.events:
            self.events.append(self.message().get("method"))

    def open(self, address):
        """Goes to an address, and waits until its page is loaded."""
        self.events.clear()
        self.call("Page.navigate", url=address)
        self.until_loaded()

    def value(self, expression):
        """What a JavaScript expression is on the page, as far as JSON can say it."""
        answer = self.call("Runtime.evaluate", expression=expression, returnByValue=True)
        if "exceptionDetails" in answer:
            sys.exit(f"{expression}: {answer['exceptionDetails']}")
        return answer["result"].get("value")

    def submit(self, action, **fields):
        """Fills in the form that is sent to that path, presses its button, and waits for the page that it leads to."""
        form = f"document.querySelector('form[action=\"{action}\"]')"
        for name, text in fields.items():
            self.value(f"{form}.elements.namedItem({json.dumps(name)}).value = {json.dumps(text)}")
        self.events.clear()
        self.value(f"{form}.querySelector('button').click()")
        self.until_loaded()

    def write(self, html):
        """Puts another text in place of the page, which keeps its address."""
        self.value(f"document.open(), document.write({json.dumps(html)}), document.close()")

    def picture(self, path):
        """Puts a picture of the page there."""
        answer = self.call("Page.captureScreenshot", format="png", captureBeyondViewport=True)
        path.write_bytes(base64.b64decode(answer["data"]))
