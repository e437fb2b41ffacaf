"""Scenes as the program itself prints them, for tools: what a script leads to, what a scene text says, and what a store
keeps (docs/SCRIPTS.md, docs/SCENE_FILES.md, docs/SHELL.md)."""
import argparse
import json
import re
import subprocess
import sys
from pathlib import Path
from typing import NamedTuple

TOP = Path(__file__).resolve().parent.parent
PROGRAM = str(TOP / "scene")
SPACES = b" \t\r\n"
# With which an SQLite database begins, as each store is one.
STORE_BEGINNING = b"SQLite format 3\0"
# What the program tells of bad lines begins so.
BAD_LINES = re.compile(r"^scene: (?=line [0-9]|[0-9]+ more bad line)", re.MULTILINE)


class Trouble(Exception):
    """Why there is no answer, in words for who called."""


class CommandLine(argparse.ArgumentParser):
    """The words of a command. A bad one is told as `scene` tells it; `help.txt` in the tool's folder is its help text."""

    def __init__(self, command, takes, folder=None):
        super().__init__(add_help=False, allow_abbrev=False)
        self.command, self.takes, self.folder = command, takes, folder or command
        # for the tests, which name the program that is to play, and for ./scene, which may play stores unproved
        self.add_argument("--program", default=PROGRAM)
        self.add_argument("--unproved", action="store_true")

    def error(self, message):
        print("scene: bad command line", file=sys.stderr)
        if sys.stderr.isatty():
            print(f"scene: {self.command} takes {self.takes}", file=sys.stderr)
        sys.exit(2)

    def parsed(self, words):
        if [word for word in words if word != "--unproved"] in (["--help"], ["-h"]):
            print((TOP / "tools" / self.folder / "help.txt").read_text(), end="")
            sys.exit(0)
        return self.parse_args(words)


def told(command, call):
    """The exit status of a call, whose trouble is told."""
    try:
        return call()
    except Trouble as trouble:
        print(f"scene: {command}: {trouble}", file=sys.stderr)
    except OSError as error:
        print(f"scene: {command}: the input or the output fails: {error.strerror}", file=sys.stderr)
    return 2


class Played(NamedTuple):
    """A scene of version 2, and whether a line of the script that led to it was bad."""

    scene: dict
    has_bad_lines: bool


def run(words, given=b""):
    """What the program writes, what it tells, and its exit status."""
    try:
        ended = subprocess.run(words, input=given, capture_output=True, check=False)
    except OSError as error:
        raise Trouble(f"{words[0]} can't be run: {error.strerror}") from None
    return ended.stdout, ended.stderr.decode(errors="replace"), ended.returncode


def answers(program, script, name=None):
    """The lines that the program answers to a script, and its exit status. What it tells of bad lines is passed on, with
    the name of the script's file, if it has one."""
    said, told, status = run([program, "run"], script)
    print(BAD_LINES.sub(f"scene: {name}: ", told) if name else told, end="", file=sys.stderr)
    if status not in (0, 1):
        raise Trouble(f"the program gave no answer, and ended with status {status}")
    lines = said.split(b"\n")[:-1]
    if not lines:
        raise Trouble("the program printed nothing")
    return lines, status


def is_scene_text(given):
    """Whether bytes are meant as a scene text. No line of a script begins so, but a bad one."""
    return given.lstrip(SPACES).startswith(b"{")


def load_line(text):
    """The line of a script that loads a scene text, which may stand on several lines."""
    text = text.strip(SPACES)
    if b"\n" in text or b"\r" in text:
        # A line break in a string is no JSON, and mustn't become so as a space.
        try:
            json.loads(text)
        except (ValueError, RecursionError):
            raise Trouble("the scene text is no JSON") from None
        text = text.replace(b"\n", b" ").replace(b"\r", b" ")
    return b"load " + text + b"\n"


def scene_of_text(program, text):
    """The scene that a scene text says, as the program prints it."""
    lines, _ = answers(program, load_line(text) + b"dumpall\n")
    if lines[0] != b"ok":
        raise Trouble(f"the scene text is refused: {lines[0].decode()}")
    return scene_of_line(lines[-1])


def scene_of_script(program, script, name=None):
    """The scene to which a script leads. A frame that is open at its end is dropped, as a run does."""
    lines, status = answers(program, ended(script) + b"dumpall\n", name)
    if name and status == 1 and all(line == b"bad line" for line in lines[:-1]):
        raise Trouble("it is neither a store, nor a scene text, nor a script, of which some line is good")
    return Played(scene_of_line(lines[-1]), status == 1)


def scene_of_store(program, name, is_unproved):
    """The scene that a store in a file keeps."""
    words = [program, *["--unproved"] * is_unproved, "dump", "--all", name]
    said, told, status = run(words)
    fault = told.removesuffix("\n").rpartition("\n")[2].removeprefix("scene: ")
    if status != 0:
        raise Trouble(said.decode().strip() if status == 1 else fault)
    if fault:
        print(told, end="", file=sys.stderr)
    return scene_of_line(said.split(b"\n")[0])


def scene_of_input(program, given, name=None):
    """The scene of bytes that are a scene text or a script."""
    if given.startswith(STORE_BEGINNING):
        raise Trouble("a store is read from its file, which has to be named")
    if is_scene_text(given):
        return Played(scene_of_text(program, given), False)
    return scene_of_script(program, given, name)


def scene_of_file(program, name, is_unproved):
    """The scene of a file that is a store, a scene text or a script, as its first bytes tell."""
    try:
        given = Path(name).read_bytes()
    except OSError as error:
        raise Trouble(f"{name} can't be read: {error.strerror}") from None
    try:
        if given.startswith(STORE_BEGINNING):
            return Played(scene_of_store(program, name, is_unproved), False)
        return scene_of_input(program, given, name)
    except Trouble as trouble:
        raise Trouble(f"{name}: {trouble}") from None


def scene_of_line(line):
    if not line.startswith(b"{"):
        raise Trouble(f"the program prints no scene text: {line.decode(errors='replace')}")
    return json.loads(line)


def ended(script):
    """The script with a line feed at its end, and with a refused end of its last frame where that is open."""
    lines = script.split(b"\n")
    if lines[-1]:
        # A carriage return at the very end belongs to the last line; of two before a line feed one does.
        lines[-1] += b"\r"
        lines.append(b"")
    is_open = False
    for line in lines:
        words = (line[:-1] if line.endswith(b"\r") else line).split(b" ")
        word = b" ".join(word for word in words if word)
        is_open = word == b"begin" or (is_open and word != b"commit")
    # No entity has generation 0, so the frame is refused as a whole, and all stays as it was.
    return b"\n".join(lines) + b"despawn 0v0\ncommit\n" * is_open
