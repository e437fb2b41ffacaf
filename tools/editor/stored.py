"""What a store has that no question tells: whether it is in its setup, its systems, and who made each frame."""
import re
import subprocess
from contextlib import contextmanager
from pathlib import Path
from typing import Callable, Iterator, List, Optional, Sequence

from commands import SETUP, system_name
from line_requests import read, word_of
from played_scene import Trouble
from request_forms import DECLARE
from timeline import Frame, Timeline
from words import words_of_advance

ENTRY = re.compile(r"[0-9]+ \S+ as ([0-7]): (.*) -> (.*)", re.DOTALL)
UNKNOWN = -1
FAULTS = {
    "60": "{} is in use by another shell",
    "61": "{} is no store of a scene",
    "62": "{} is damaged: its bytes aren't those that were written",
    "63": "{} is of a newer version",
    "64": "{} can't be opened",
    "65": "the disk is full, so {} can't be written",
    "66": "the disk failed at {}",
    "67": "a line that {} keeps is bad",
}


class StoreFault(Trouble):
    """That a store can't be used: the shell's own line, and the same in words."""


def store_fault(store: Path, told: bytes) -> StoreFault:
    """The fault that the program told on standard error."""
    lines = [line for line in told.decode(errors="replace").split("\n") if line and not line.startswith("scene: line ")]
    line = next((line for line in lines if line.startswith("scene: fault ")), lines[-1] if lines else "")
    number = re.match(r"scene: fault ([0-9]+)", line)
    words = FAULTS.get(number[1] if number else "", "the program can't use {}").format(store.name)
    return StoreFault(f"{line}\n{words}" if line else words)


class Log:
    """What lines have come to, in a store or as they are played. An answer is its word; `behind` are those to the
    questions behind the line, if any were asked."""

    def __init__(self) -> None:
        self.in_setup, self.is_loaded = True, False
        self.kinds: List[List[str]] = []
        self.phases: List[List[str]] = []
        self.turn, self.timeline = 0, Timeline()

    @property
    def shapes(self) -> dict:
        return dict(map(tuple, self.kinds))

    def follow(self, line: str, answer: str, behind: Sequence[str] = ()) -> None:
        if answer in ("bad", "nothing", "queued"):
            # (the `begin` before a command that is queued has ended the setup)
            return
        word = word_of(line)
        if self.in_setup:
            self.follow_setup(word, line, answer)
        if answer == "ok":
            self.follow_ok(word, line)
        elif answer == "done":
            self.on_done(self.words_of_systems() if word == "advance" else None, behind)
        elif answer in ("undone", "redone"):
            self.follow_turn(line, self.on_undone if answer == "undone" else self.on_redone, behind)

    def follow_setup(self, word: str, line: str, answer: str) -> None:
        """A line that isn't bad ends the setup, where it is none that may come in it."""
        if word not in SETUP:
            self.in_setup = False
        elif answer != "ok":
            return
        elif word == "kind":
            self.declare(line)
        elif word == "load":
            self.is_loaded = True
        self.on_setup()

    def follow_ok(self, word: str, line: str) -> None:
        if word == "as":
            self.turn = read(line, ())["session"]
        elif word == DECLARE:
            self.declare(line)
            self.on_kind()
        elif word in ("phase", "system", "clear"):
            self.phases = phases_after(self.phases, word, line)
            self.on_phases()

    @staticmethod
    def follow_turn(line: str, turn: Callable[[Sequence[str]], None], behind: Sequence[str]) -> None:
        """Undos, or redos: of several at once no step is told."""
        count = read(line, ()).get("count", 1)
        for _ in range(count):
            turn(behind if count == 1 else ())

    def declare(self, line: str) -> None:
        """A kind comes last."""
        request = read(line, ())
        self.kinds = [*self.kinds, [request["name"], request["shape"]]]

    def words_of_systems(self) -> List[str]:
        return words_of_advance([system_name(line) for phase in self.phases for line in phase])

    # What happens

    def on_setup(self) -> None:
        """The setup changed, or ended."""

    def on_kind(self) -> None:
        """A kind came by a declaration, in the setup or behind it."""

    def on_phases(self) -> None:
        """The phases changed."""

    def on_done(self, words: Optional[List[str]], _: Sequence[str]) -> None:
        """A frame was accepted."""
        self.timeline.add(Frame(self.turn, words))

    def on_undone(self, _: Sequence[str]) -> None:
        self.timeline.future.push(self.timeline.past.pop())

    def on_redone(self, _: Sequence[str]) -> None:
        self.timeline.past.push(self.timeline.future.pop())

    def read(self, text: str) -> None:
        """Follows the text of a log, whose last line counts. A frame of several commands is told by their account, which
        begins with a word of no line. Whose turn it is behind all, no entry tells."""
        for entry in text.split("\n"):
            if match := ENTRY.fullmatch(entry):
                self.turn = int(match[1])
                # a word of the answer may itself have the arrow only in the path of a fault, where nothing is followed
                self.follow(match[2], match[3].split(" ", 1)[0])
        if not self.in_setup:
            self.turn = UNKNOWN


def phases_after(phases: List[List[str]], word: str, line: str) -> List[List[str]]:
    """The phases, as lists of the lines that added their systems, with one line more."""
    if word == "clear":
        return []
    if word == "phase":
        return [*phases, []]
    *before, last = phases or [[]]
    return [*before, [*last, line]]


@contextmanager
def log_of(program: str, store: Path) -> Iterator[Callable[[], str]]:
    """Has a store's log told while a shell may open the store, and gives what waits for its text: that of a file which
    isn't there is empty."""
    if not store.exists():
        yield lambda: ""
        return
    pipe = subprocess.PIPE
    try:
        process = subprocess.Popen([program, "log", str(store)], stdout=pipe, stderr=pipe)
    except OSError as error:
        raise Trouble(f"{program} can't be run: {error.strerror}") from None
    with process:
        yield lambda: log_text(process, store)


def log_text(process: subprocess.Popen, store: Path) -> str:
    said, told = process.communicate()
    if process.returncode != 0:
        raise store_fault(store, told)
    return said.decode(errors="replace")
