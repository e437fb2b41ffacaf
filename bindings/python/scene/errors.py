"""What goes wrong with a scene: all are a `SceneError`."""
from __future__ import annotations

import json
import re
from typing import Any, List, Mapping, Optional, Tuple

# A path, which a file fault may end with, is a JSON string, and can have anything in it.
WORD = re.compile(r'"(?:[^"\\]|\\.)*"|[^ ]+')
PLACE = re.compile(r" at (\d+\.\d+\.\d+)\Z", re.ASCII)


class SceneError(Exception):
    """What goes wrong with a scene, in words.

    Where it is a fault (docs/MODEL.md, "Faults"), `number` and `name` tell which, and `fields` what follows.
    """

    def __init__(self, words: str, number: Optional[int] = None, name: Optional[str] = None) -> None:
        super().__init__(words)
        self.number = number
        self.name = name
        self.fields: List[str] = []


class Refused(SceneError):
    """A call was refused. `place` tells the phase, the queue and the command, where it is one of a frame."""

    number: int
    name: str

    def __init__(self, answer: str) -> None:
        place = PLACE.search(answer)
        _, number, name, *fields = WORD.findall(answer[: place.start()] if place else answer)
        super().__init__(answer, int(number), name)
        self.fields = fields
        self.place: Optional[Tuple[int, ...]] = tuple(map(int, place[1].split("."))) if place else None


class BadLine(SceneError, ValueError):
    """What was asked makes no good line here: a kind that isn't there, a value out of range, a call out of place.

    Of a bad request `path` tells which part it is, as `cells.Health`, unless it is the whole.
    """

    def __init__(self, words: str, number: Optional[int] = None, name: Optional[str] = None) -> None:
        super().__init__(words, number, name)
        self.path: Optional[str] = None


class KindsDiffer(BadLine):
    """A kind of `kinds=` is there with another shape (KindTaken), or can't be declared (BadName, KindsFull)."""


def told_in_json(answer: Mapping[str, Any]) -> Optional[SceneError]:
    """The error that an answer in JSON tells (docs/SHELL.md, "JSON"); None of any other answer."""
    if answer["answer"] == "bad":
        bad = BadLine(answer["reason"])
        bad.path = answer.get("path")
        return bad
    return Refused(refusal_text(answer)) if answer["answer"] in ("refused", "fault") else None


def refusal_text(answer: Mapping[str, Any]) -> str:
    """A refusal of JSON as a line answers it."""
    fields = {key: value for key, value in answer.items() if key not in ("answer", "number", "name", "place")}
    words = [json.dumps(value, ensure_ascii=False) if key == "path" else str(value) for key, value in fields.items()]
    place = answer.get("place")
    at = "" if place is None else f" at {place['phase']}.{place['queue']}.{place['command']}"
    return " ".join([answer["answer"], str(answer["number"]), answer["name"], *words]) + at


class Closed(SceneError, ValueError):
    """A call of a scene that is closed."""


class OtherThread(SceneError, RuntimeError):
    """A scene of the library is called from another thread than its own. Nothing was called, and all is as it was."""


class Shared(SceneError, RuntimeError):
    """A call of a shared scene of the library that would change it, or is a line or a request; or an `unshare` while
    others have it. Nothing was done, and all is as it was."""


class NoMemory(SceneError, MemoryError):
    """Memory was wanting, and the call wasn't done. Where it would have ended the setup, the setup may be over."""


class Lost(NoMemory):
    """Memory was wanting, and the kinds or the scene that the setup had are lost."""


class Untold(NoMemory):
    """The call was done, and memory was wanting for the text of its answer."""


class OtherVersion(SceneError):
    """The library is of another version than this package, by whose numbers its calls may take something else."""


FAULT = re.compile(r'\bfault (\d+) (\w+)((?: (?:"(?:[^"\\]|\\.)*"|[^ ":]+))*)', re.ASCII)
STORE_FAULTS = range(60, 70)


class Ended(SceneError):
    """The program has ended, with a `status`, which is negative for a signal. Its last words are those of the error."""

    def __init__(self, words: str, status: int = 0) -> None:
        super().__init__(words)
        self.status = status
        fault = FAULT.search(words)
        if fault:
            self.number, self.name, self.fields = int(fault[1]), fault[2], WORD.findall(fault[3])


class StoreError(Ended):
    """The program has ended, since its store can't be read or written."""

    number: int
    name: str


def ended(words: str, status: int) -> Ended:
    """Why a program has ended, by its last words."""
    fault = FAULT.search(words)
    return (StoreError if fault and int(fault[1]) in STORE_FAULTS else Ended)(words, status)
