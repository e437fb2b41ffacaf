"""The program's shell as a process: lines go in, and each is answered by a line of JSON (docs/SHELL.md, "JSON")."""
import subprocess
import sys
import threading
from collections import deque

from played_scene import Trouble
from questions import BEGINNING

SECONDS_TO_END = 5
LINES_TOLD = 20


class Gone(Exception):
    """That the shell has ended, so that what became of the lines isn't known."""


def pass_on(line):
    """Says a line on standard error. Where nobody can hear it, the shell is heard on."""
    try:
        print(line.decode(errors="replace").rstrip("\n"), file=sys.stderr, flush=True)
    except (OSError, ValueError):
        pass


def played_alone(program, lines):
    """The answers to lines of a shell without a store, so many as there are, as JSON text."""
    given = "".join(f"{line}\n" for line in lines).encode(errors="replace")
    try:
        played = subprocess.run([program, "shell", "--json"], input=given, capture_output=True, check=False)
    except OSError as error:
        raise Trouble(f"{program} can't be run: {error.strerror}") from None
    return played.stdout.decode(errors="replace").split("\n")[:-1]


class Shell:
    """A shell on a store, or without one. Threads of its own read what it says, so that no pipe is ever full while
    lines are sent.

    `on_end(shell)` is told, in one of these threads, that it has ended."""

    def __init__(self, program, store, on_end):
        words = [program, "shell", "--json", *(() if store is None else ("--store", str(store)))]
        pipe = subprocess.PIPE
        try:
            # In a session of its own an interrupt of the terminal doesn't reach it: the editor ends it.
            self.process = subprocess.Popen(words, stdin=pipe, stdout=pipe, stderr=pipe, start_new_session=True)
        except OSError as error:
            raise Trouble(f"{program} can't be run: {error.strerror}") from None
        self.on_end, self.said, self.has_ended = on_end, deque(), False
        self.news, self.told = threading.Condition(), deque(maxlen=LINES_TOLD)
        self.teller = threading.Thread(target=self.hear_trouble, daemon=True)
        self.reader = threading.Thread(target=self.hear, daemon=True)
        self.teller.start()
        self.reader.start()

    def hear(self):
        for line in self.process.stdout:
            # what was cut off by its end is no answer
            if line.endswith(b"\n"):
                with self.news:
                    self.said.append(line)
                    self.news.notify()
        self.teller.join()
        self.process.wait()
        with self.news:
            self.has_ended = True
            self.news.notify_all()
        self.on_end(self)

    def hear_trouble(self):
        """Keeps the last lines of standard error that may tell why it ends. Others, as how long a store took to open,
        are passed on, but for those of bad lines, which are answered too."""
        for line in self.process.stderr:
            if line.startswith(b"scene: fault ") or not line.startswith(b"scene: "):
                self.told.append(line)
            elif not line.startswith(b"scene: line "):
                pass_on(line)

    def next_line(self):
        """The next answer as it came. What is none no shell has said."""
        with self.news:
            while not self.said:
                if self.has_ended:
                    raise Gone
                self.news.wait()
            line = self.said.popleft()
        if not line.startswith(BEGINNING.encode()):
            raise ValueError
        return line[:-1].decode()

    def ask(self, lines):
        """The answers to lines, which go in one write, as JSON text. Bytes that are no Unicode stand in them as Python
        decodes them to surrogates."""
        try:
            self.process.stdin.write("".join(f"{line}\n" for line in lines).encode(errors="surrogateescape"))
            self.process.stdin.flush()
            return [self.next_line() for _ in lines]
        except (OSError, ValueError):
            self.process.kill()
            raise Gone from None

    def end_words(self):
        """Why it has ended, in words."""
        told = [line.decode(errors="replace").rstrip("\n") for line in self.told]
        fault = next((line for line in told if line.startswith("scene: fault ")), told[-1] if told else "")
        status = self.process.returncode
        how = f"was killed by signal {-status}" if status < 0 else f"ended with status {status}"
        return f"the shell {how}" + (f": {fault}" if fault else "")

    def close(self):
        """Ends it by the end of its input, or else by force."""
        try:
            self.process.stdin.close()
        except OSError:
            pass
        try:
            self.process.wait(SECONDS_TO_END)
        except subprocess.TimeoutExpired:
            self.process.kill()
            self.process.wait()
        self.reader.join(SECONDS_TO_END)
