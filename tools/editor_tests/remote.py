"""Chromium without a window, driven by its remote protocol over two pipes: commands with their answers, and events.

The browser reads commands from its descriptor 3 and writes to 4, each message a JSON text that a zero byte ends.
"""
import fcntl
import json
import os
import select
import shutil
import subprocess
import tempfile
import time

NAMES = ("chromium", "chromium-browser", "google-chrome")
# How long an answer may take; a busy machine wants more, by the variable SECONDS_TO_WAIT.
SECONDS = float(os.environ.get("SECONDS_TO_WAIT", "20"))
# To begin and to make a tab a browser starts several processes, which takes several times as long where others run.
SECONDS_TO_START = 3 * SECONDS
ABOVE_THE_PIPES = 10
OPTIONS = (
    "--headless", "--remote-debugging-pipe", "--disable-gpu", "--no-first-run", "--no-default-browser-check",
    "--hide-scrollbars", "--disable-background-networking", "--disable-component-update", "--disable-sync",
    "--disable-extensions", "--mute-audio", "--disable-background-timer-throttling", "--disable-renderer-backgrounding",
    "--disable-backgrounding-occluded-windows", "--disable-dev-shm-usage", "--force-color-profile=srgb",
    "--disable-features=Translate,OptimizationHints,MediaRouter",
)  # fmt: skip


def browser_named():
    """The path of Chromium, from the variable BROWSER or from PATH, or None."""
    return next(filter(None, map(shutil.which, [os.environ.get("BROWSER") or "", *NAMES])), None)


def command_of(browser, room):
    # A browser that runs as root takes no sandbox; the pages are the editor's own.
    sandbox = ["--no-sandbox"] if os.geteuid() == 0 else []
    return [browser, *OPTIONS, f"--user-data-dir={room}", *sandbox, "about:blank"]


class Remote:
    """A browser that runs. `call` sends a command and waits for its answer; events go to the listener of their tab."""

    def __init__(self, browser):
        self.room = tempfile.mkdtemp(prefix="scene-browser-")
        self.listeners, self.answers, self.last, self.unread = {}, {}, 0, b""
        try:
            self.started(browser)
        except AssertionError:
            self.close()
            raise

    def started(self, browser):
        # While the four ends take the lowest descriptors, no other of this process can be 3 or 4.
        child_reads, self.to = os.pipe()
        self.source, child_writes = os.pipe()
        ends = [fcntl.fcntl(end, fcntl.F_DUPFD, ABOVE_THE_PIPES) for end in (child_reads, child_writes)]

        def place_the_pipes():
            os.dup2(ends[0], 3)
            os.dup2(ends[1], 4)

        quiet = {"stdin": subprocess.DEVNULL, "stdout": subprocess.DEVNULL, "stderr": subprocess.DEVNULL}
        words = command_of(browser, self.room)
        self.process = subprocess.Popen(words, preexec_fn=place_the_pipes, close_fds=False, **quiet)
        for end in (child_reads, child_writes, *ends):
            os.close(end)
        self.call("Browser.getVersion", seconds=SECONDS_TO_START)

    def close(self):
        try:
            self.call("Browser.close", seconds=5)
        except (AssertionError, OSError):
            self.process.terminate()
        try:
            self.process.wait(timeout=10)
        except subprocess.TimeoutExpired:
            self.process.kill()
            self.process.wait()
        os.close(self.to)
        os.close(self.source)
        shutil.rmtree(self.room, ignore_errors=True)

    def call(self, method, session=None, seconds=SECONDS, **words):
        """The answer of a command; an answer of the protocol that it failed is a fault."""
        return self.answer(self.send(method, session, **words), method, seconds)

    def answer(self, number, method, seconds=SECONDS):
        """The answer of a command that was sent."""
        answer = self.heard(number, method, seconds)
        assert "error" not in answer, f"{method}: {answer['error']}"
        return answer["result"]

    def heard(self, number, method, seconds):
        """What was said of a command that was sent, also that it failed."""
        end = time.monotonic() + seconds
        while number not in self.answers:
            assert self.hear(end - time.monotonic()), f"the browser didn't answer {method} in {seconds} s"
        return self.answers.pop(number)

    def send(self, method, session=None, **words):
        """Sends a command without waiting; gives the number of its answer."""
        self.last += 1
        message = {"id": self.last, "method": method, "params": words, **({"sessionId": session} if session else {})}
        left = json.dumps(message).encode() + b"\0"
        while left:
            left = left[os.write(self.to, left):]
        return self.last

    def hear(self, seconds):
        """Takes what the browser said, waiting so long at most. Whether it said anything."""
        if not select.select([self.source], [], [], max(0, seconds))[0]:
            return False
        said = os.read(self.source, 1 << 20)
        assert said, "the browser has ended"
        *messages, self.unread = (self.unread + said).split(b"\0")
        for message in map(json.loads, messages):
            if "id" in message:
                self.answers[message["id"]] = message
            elif message.get("sessionId") in self.listeners:
                self.listeners[message["sessionId"]](message["method"], message["params"])
        return True

    def hear_all(self):
        """Takes what has been said by now."""
        while self.hear(0):
            pass
