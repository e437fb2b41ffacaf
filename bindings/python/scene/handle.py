"""One scene of the library, call by call, as scene.h has them."""
from __future__ import annotations

import ctypes
from ctypes import byref, c_size_t, c_void_p
from pathlib import Path
from threading import Lock, get_ident
from typing import Any, List, NamedTuple, Optional, Tuple, Union

from scene.errors import NoMemory, OtherThread
from scene.header import BAD, DONE, REFUSED, TAKES, load_library

# The longest text, in bytes, that is read at once; a longer one is asked for again.
ROOM = 4096
# So many texts of a column are read at once, and so many bytes of them; one that is longer is asked for again. Where
# more are asked for at once, there is room for so many bytes of each.
TEXTS, TEXTS_ROOM, TEXT_ROOM = 1024, 65_536, 64


class Played(NamedTuple):
    """What a line came to: the code of its call, and the bytes of its answer."""

    code: int
    answer: bytes


class Library:
    """One scene of a library by its calls. Each is an `OtherThread`, from another thread than the one that opened it:
    a scene belongs to that (scene.h). A reader belongs to the one that calls it first."""

    def __init__(self, path: Union[str, Path, None] = None) -> None:
        self._begin(load_library(path), get_ident())
        if self._library.scene_open(self._at) != DONE:
            raise NoMemory("no memory for a scene")

    def _begin(self, library: ctypes.CDLL, thread: Optional[int]) -> None:
        """Begins without a scene, as that of a thread, or of the one that calls it first."""
        self._library = library
        self._calls = {name: getattr(library, f"scene_{name}") for name in TAKES}
        self._thread, self._taking = thread, Lock()
        self._scene = c_void_p(None)
        self._at = byref(self._scene)
        # What calls write into: a scene has one thread, and one call at a time.
        self._room, self._total = ctypes.create_string_buffer(ROOM), c_size_t(0)
        self._to_total = byref(self._total)
        self._length_saved = 0

    def reader(self) -> Tuple[int, Library]:
        """The code of the call that gives a shared scene another reader, and that, without a scene where it isn't
        done."""
        # pylint: disable=protected-access
        other = Library.__new__(Library)
        other._begin(self._library, None)
        return self.call("reader", other._at), other

    def check_thread(self) -> None:
        """Raises `OtherThread` in another thread than the scene's own."""
        if get_ident() != (self._thread or self._taken()):
            raise OtherThread("the scene is another thread's: this one needs a scene of its own, or a reader of it")

    def _taken(self) -> int:
        """The thread of a reader: this one, where none has called it before. (Two may call it first at once.)"""
        with self._taking:
            if self._thread is None:
                self._thread = get_ident()
            return self._thread

    def call(self, name: str, *arguments: Any) -> int:
        """The code of a call."""
        if get_ident() != self._thread:
            self.check_thread()
        code: int = self._calls[name](self._at, *arguments)
        return code

    def answer(self) -> bytes:
        """The text that the last call kept."""
        self.check_thread()
        length = int(self._library.scene_answer(self._at, self._room, ROOM))
        if length <= ROOM:
            return ctypes.string_at(self._room, length)
        room = ctypes.create_string_buffer(length)
        self._library.scene_answer(self._at, room, length)
        return room.raw

    def play(self, line: bytes, call: str = "line") -> Played:
        """Plays a line that is given as bytes without its line break, or a request."""
        code = self.call(call, line, len(line))
        return Played(code, self.answer() if code in (DONE, REFUSED, BAD) else b"")

    def answer_in_json(self) -> bytes:
        """The last answer in JSON; empty where memory was wanting for it."""
        return self.answer() if self.call("answer_json") == DONE else b""

    def reason(self) -> str:
        """Why the last call was bad, in words, which are the text of its answer then; empty where that isn't known."""
        return self.answer().decode() if self.call("bad_reason") == DONE else ""

    def fault_name(self, number: int) -> str:
        """The name of a fault, by its number (docs/MODEL.md, "Faults"); empty where no fault of a scene has it."""
        room = ctypes.create_string_buffer(int(self._library.scene_fault_name(number, None, 0)))
        self._library.scene_fault_name(number, room, len(room))
        return room.raw.decode()

    def listed(self, name: str, item: Any, *arguments: Any) -> Tuple[int, Any]:
        """The code of a call that lists, and a ctypes array of these items, which is a buffer."""
        total, to_total = self._total, self._to_total
        total.value = 0
        code = self.call(name, *arguments, 0, item(), 0, to_total)
        items = (item * total.value)()
        if code == DONE and total.value:
            code = self.call(name, *arguments, 0, items, len(items), to_total)
        return code, items

    def some(self, name: str, items: Any, *arguments: Any) -> Tuple[int, int]:
        """The code of a call that lists, and how many items there are in all: the first are put into an array."""
        code = self.call(name, *arguments, 0, items, len(items), self._to_total)
        return code, self._total.value

    def text(self, name: str, *arguments: Any, length: int = ROOM) -> Tuple[int, str]:
        """The code of a call that reads a text, and the text. One that is longer than that is asked for twice."""
        total, room = self._total, self._room
        if length > ROOM:
            room = ctypes.create_string_buffer(length)
        total.value = 0
        code = self.call(name, *arguments, 0, room, len(room), self._to_total)
        if total.value > len(room):
            room = ctypes.create_string_buffer(total.value)
            code = self.call(name, *arguments, 0, room, total.value, self._to_total)
        return code, ctypes.string_at(room, total.value).decode()

    def saved(self, version: int) -> Tuple[int, str]:
        """The code of the call that saves, and the text. Each call makes it whole, so there is room for one that is
        somewhat longer than the last."""
        code, text = self.text("save_into", version, length=self._length_saved)
        self._length_saved = self._total.value * 5 // 4
        return code, text

    def runs(self, name: str, size: int, *arguments: Any, places: int = TEXTS) -> Tuple[int, List[bytes]]:
        """The code of a call that lists texts, or other items of so many bytes, of which several belong to each place;
        and the bytes of each place. So many places are asked for at once."""
        ends, told = (c_size_t * places)(), c_size_t(0)
        room = ctypes.create_string_buffer(max(TEXTS_ROOM, places * TEXT_ROOM))
        found: List[bytes] = []
        while True:
            many = (ends, places, room, len(room) // size, byref(told), self._to_total)
            code = self.call(name, *arguments, len(found), *many)
            if code != DONE or len(found) == self._total.value:
                return code, found
            if told.value == 0:
                # The next one is longer than the room.
                room = ctypes.create_string_buffer(2 * len(room))
                continue
            begins = [0, *(end * size for end in ends[: told.value])]
            data = ctypes.string_at(room, begins[-1])
            found += [data[begin:end] for begin, end in zip(begins, begins[1:])]

    @property
    def version(self) -> Tuple[int, int, int]:
        """The version of the library."""
        number = int(self._library.scene_version())
        return number // 10_000, number // 100 % 100, number % 100

    def close(self) -> None:
        """Frees the scene. Once more is fine."""
        self.check_thread()
        self._library.scene_close(self._at)

    def __del__(self) -> None:
        # Nobody has it any more, whichever thread finds that. Where the library wasn't found there is nothing to close.
        if hasattr(self, "_at"):
            self._library.scene_close(self._at)
