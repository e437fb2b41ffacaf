#!/usr/bin/env -S python3 -B
"""`scene send`: gives lines to the editor that has a store open, or else to a shell on the store."""
import json
import os
import signal
import sys
from http.client import HTTPConnection, HTTPException
from pathlib import Path
from urllib.parse import quote, urlsplit

TOOLS = Path(__file__).resolve().parent.parent
sys.path[:0] = [str(TOOLS), str(TOOLS / "editor")]

from address_file import told_beside  # noqa: E402
from played_scene import CommandLine, Trouble, told  # noqa: E402

INPUT, MOST_READ = 0, 2**16
# So many lines go at once: between them come those of tabs.
MOST_LINES = 100
# An editor may be at work, as in the midst of a compaction.
SECONDS_TO_MEET = 60
BAD = b'{"answer":"bad"'


class Unanswered(Exception):
    """Why lines have no answers, in words."""


class Editor:
    """The editor of a store, by one connection, which it knows this script by."""

    def __init__(self, address, token, store):
        self.path = f"/{token}/lines?store={quote(os.fsencode(os.path.realpath(store)))}"
        self.connection = HTTPConnection(urlsplit(address).netloc, timeout=SECONDS_TO_MEET)
        self.answers(b"")
        self.connection.sock.settimeout(None)
        # (a second connection would be another script's)
        self.connection.auto_open = 0

    def answers(self, lines):
        """The answers to lines, each with its line break."""
        try:
            self.connection.request("POST", self.path, lines)
            answer = self.connection.getresponse()
            content = answer.read()
        except (OSError, HTTPException):
            raise Unanswered("the editor has ended, so what became of the lines isn't known") from None
        if answer.status != 200:
            raise Unanswered(content.decode(errors="replace").strip())
        return content


def editor_of(store):
    """The editor that has a store open, or None. A file that one which was killed has left leads to none."""
    beside = told_beside(store)
    if beside is None:
        return None
    try:
        return Editor(*beside, store)
    except (Unanswered, HTTPException, ValueError):
        return None


def whole_lines(source):
    """Whole lines of a source as they come. At the end of one without a line break a carriage return belongs to it."""
    rest = []
    while more := os.read(source, MOST_READ):
        *whole, begun = more.split(b"\n")
        if whole:
            yield [b"".join((*rest, whole[0])), *whole[1:]]
            rest.clear()
        rest.append(begun)
    if any(rest):
        yield [b"".join((*rest, b"\r"))]


def batches(source):
    """The same as bytes, some lines at once."""
    for lines in whole_lines(source):
        for first in range(0, len(lines), MOST_LINES):
            yield b"".join(line + b"\n" for line in lines[first : first + MOST_LINES])


def tell_bad(answers, first):
    """Says on standard error which lines are bad, the first of which has this number; whether there are any."""
    bad = [(number, answer) for number, answer in enumerate(answers, first) if answer.startswith(BAD)]
    for number, answer in bad:
        print(f"scene: line {number}: {json.loads(answer)['reason']}", file=sys.stderr, flush=True)
    return bool(bad)


def give(editor):
    """Gives standard input to an editor. The status is 1 where a line was bad."""
    status, number = 0, 1
    for lines in batches(INPUT):
        content = editor.answers(lines)
        sys.stdout.buffer.write(content)
        sys.stdout.buffer.flush()
        answers = content.splitlines(keepends=True)
        status = 1 if tell_bad(answers, number) else status
        number += len(answers)
    return status


def play(words):
    """Becomes a shell on the store, which finds whether another program has it open."""
    shell = [words.program, *["--unproved"] * words.unproved, "shell", "--json", "--store", words.store]
    try:
        os.execvp(shell[0], shell)
    except OSError as error:
        raise Trouble(f"{shell[0]} can't be run: {error.strerror}") from None


def send(words):
    if sys.stdin is None or sys.stdout is None:
        # (a connection would take its number)
        raise Trouble("the input or the output is closed")
    editor = editor_of(words.store)
    if editor is None:
        return play(words)
    try:
        return give(editor)
    except Unanswered as why:
        print(f"scene: send: {why}", file=sys.stderr)
    except OSError as error:
        print(f"scene: send: the input or the output fails: {error.strerror}", file=sys.stderr)
    return 3


def main():
    signal.signal(signal.SIGINT, signal.SIG_DFL)
    line = CommandLine("send", "the name of a store's file, and no other word but --unproved and --help")
    line.add_argument("store")
    words = line.parsed(sys.argv[1:])
    return told("send", lambda: send(words))


if __name__ == "__main__":
    sys.exit(main())
