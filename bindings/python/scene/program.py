"""The program whose shell a scene is over (docs/SHELL.md): a line goes to it, and its answer comes back."""
from __future__ import annotations

import logging
import os
import re
import select
import subprocess
from pathlib import Path
from typing import IO, Iterable, Iterator, List, Optional, Sequence, Set, Union

from scene.errors import BadLine, Closed, Ended, ended

# For how many milliseconds an answer is awaited before what the program says beside it is passed on.
PATIENCE = 1000
# So many bytes every pipe holds, also while the program reads none of them before its answers are read.
HELD = select.PIPE_BUF
REASON = re.compile(r"scene: line \d+: (.*)")
LOG = logging.getLogger("scene")


def batches(lines: Iterable[bytes]) -> Iterator[List[bytes]]:
    """Lines that can be written together: those that a pipe holds, or else one alone."""
    batch: List[bytes] = []
    for line in lines:
        if batch and sum(map(len, batch)) + len(line) > HELD:
            yield batch
            batch = []
        batch.append(line)
    if batch:
        yield batch


class Program:
    """A program that answers line by line. What it says on standard error is heard too, so that errors can tell it."""

    def __init__(self, words: Sequence[str]) -> None:
        pipe = subprocess.PIPE
        self._process = subprocess.Popen(words, stdin=pipe, stdout=pipe, stderr=pipe)
        assert self._process.stdin and self._process.stdout and self._process.stderr
        self._to: IO[bytes] = self._process.stdin
        self._answers, self._errors = self._process.stdout.fileno(), self._process.stderr.fileno()
        # What was heard from either, and wasn't used; and from where nothing more comes.
        self._heard = {self._answers: bytearray(), self._errors: bytearray()}
        self._silent: Set[int] = set()
        self._poll = select.poll()
        for place in self._heard:
            self._poll.register(place, select.POLLIN)
        self._reason = ""
        self._is_closed = False
        self._end: Optional[Ended] = None

    def ask(self, line: bytes) -> List[str]:
        """The lines of the answer to a line, which is given with its line break."""
        answer = self._told([line])[0]
        if answer == ["bad line"]:
            raise BadLine(self._reason or line.decode().strip())
        return answer

    def ask_all(self, requests: Iterable[bytes]) -> List[str]:
        """The answers to requests, each of one line. They are sent together, which takes less time than one by one."""
        return [answer[0] for batch in batches(requests) for answer in self._told(batch)]

    def _told(self, lines: Sequence[bytes]) -> List[List[str]]:
        """The lines of each answer to lines that a pipe holds, or to one alone."""
        if self._is_closed:
            raise Closed("the scene is closed")
        if self._end:
            raise ended(str(self._end), self._end.status)
        self._reason = ""
        try:
            self._to.write(b"".join(lines))
            self._to.flush()
            answers = self._answers_heard(len(lines))
        except (BrokenPipeError, EOFError):
            self._end = self._ended()
            raise self._end from None
        except BaseException:
            # Else the next line would get this one's answer.
            self._process.kill()
            raise
        self._pass_on()
        return answers

    def _answers_heard(self, count: int) -> List[List[str]]:
        """The lines of the next answers, behind each of which an empty one stands; of several none is empty itself."""
        heard = self._heard[self._answers]
        # (its end is looked at first: long answers come in many parts)
        while heard != b"\n" and not (heard.endswith(b"\n\n") and heard.count(b"\n\n") == count):
            if self._answers in self._silent:
                raise EOFError
            if not self._hear(PATIENCE):
                self._pass_on()
        # Why a line is bad is said before its answer.
        while self._hear(0):
            pass
        answers = heard.decode()[:-2].split("\n\n")
        heard.clear()
        return [answer.split("\n") if answer else [] for answer in answers]

    def _hear(self, patience: int) -> bool:
        """Takes what the program says within so many milliseconds. Whether it said anything."""
        told = self._poll.poll(patience)
        for place, _ in told:
            said = os.read(place, 1 << 16)
            self._heard[place] += said
            if not said:
                self._silent.add(place)
                self._poll.unregister(place)
        return bool(told)

    def _errors_heard(self) -> List[str]:
        """The lines of standard error that weren't used, each whole: the last one comes when its end is there."""
        heard = self._heard[self._errors]
        end = len(heard) if self._errors in self._silent else heard.rfind(b"\n") + 1
        lines = heard[:end].decode(errors="replace").rstrip("\n").split("\n")
        del heard[:end]
        return [line for line in lines if line]

    def _pass_on(self) -> None:
        """Gives the log what was said on standard error, but for why a line is bad."""
        for line in self._errors_heard():
            reason = REASON.fullmatch(line)
            if reason:
                self._reason = reason[1]
            else:
                LOG.warning("%s", line)

    def _stop(self) -> int:
        """Lets the program end, and gives its status."""
        try:
            self._to.close()
        except BrokenPipeError:
            pass
        status = self._process.wait()
        while self._hear(0):
            pass
        return status

    def _ended(self) -> Ended:
        """Why the program has ended."""
        status = self._stop()
        how = f"by signal {-status}" if status < 0 else f"with status {status}"
        words = "; ".join(line.removeprefix("scene: ") for line in self._errors_heard())
        return ended(words or f"the program has ended {how}", status)

    def close(self) -> None:
        """Ends the program. Where it ended otherwise, and no call has told why, this does."""
        if self._is_closed:
            return
        self._is_closed = True
        error = None if self._stop() in (0, 1) or self._end else self._ended()
        assert self._process.stdout and self._process.stderr
        self._process.stdout.close()
        self._process.stderr.close()
        if error:
            raise error
        self._pass_on()


def program_named(program: Union[str, Path, None]) -> str:
    """The program of the shell: the one given, or that of SCENE_PROGRAM, or else `scene` on the path."""
    return str(program if program is not None else os.environ.get("SCENE_PROGRAM") or "scene")
