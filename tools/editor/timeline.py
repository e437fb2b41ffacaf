"""The frames of the past and of the future, each with who made it and in which words.

Records of many deltas are large. Only the nearest ones up to a limit are held; of those farther off the shell is asked
when they are looked at."""
from dataclasses import dataclass, field
from typing import List, Optional

from texts import first_items, json_text
from words import MOST_TEXTS, words_of_deltas

MOST_BYTES = 16 * 2**20


@dataclass
class Frame:
    """A frame: whose it is and its words, where these are known; and its record. The deltas are JSON text, and None
    where they aren't held."""

    session: Optional[int] = None
    words: Optional[List[str]] = None
    tick: int = 0
    count: int = 0
    deltas: Optional[str] = None

    def said(self, kinds: List[List[str]], deltas: Optional[str] = None) -> dict:
        """Whose it is, and its words: where they aren't known, those of its deltas."""
        if self.words is None:
            self.words = words_of_deltas(kinds, first_items(deltas or self.deltas, MOST_TEXTS), self.count)
        return {"session": self.session, "words": self.words}

    def record(self) -> str:
        """The record as JSON, with the tick behind it too, which saves who reads it a sum of large numbers."""
        return f'{{"tick":{json_text(self.tick)},"after":{json_text(self.tick + 1)},"deltas":{self.deltas}}}'


@dataclass
class Side:
    """The frames of the past, or those of the future, the nearest last. So many of the nearest are held, and their
    deltas have so many characters."""

    frames: List[Frame] = field(default_factory=list)
    held: int = 0
    size: int = 0

    @property
    def far(self) -> int:
        return len(self.frames) - self.held

    def near(self) -> List[Frame]:
        return self.frames[self.far :]

    def push(self, frame: Frame) -> None:
        if frame.deltas is None:
            if self.held > 0:
                self.forget(self.held)
        else:
            self.held += 1
            self.size += len(frame.deltas)
        self.frames.append(frame)

    def pop(self) -> Frame:
        """The nearest frame. Of a scene that was loaded a log doesn't know the frames."""
        if not self.frames:
            return Frame()
        frame = self.frames.pop()
        if frame.deltas is not None:
            self.held -= 1
            self.size -= len(frame.deltas)
        return frame

    def hold(self, deltas: str) -> None:
        """Holds the nearest of those farther off too."""
        self.frames[self.far - 1].deltas = deltas
        self.held += 1
        self.size += len(deltas)

    def forget(self, count: int) -> None:
        """Holds so many of the farthest no more."""
        far = self.far
        for frame in self.frames[far : far + count]:
            self.size -= len(frame.deltas)
            frame.deltas = None
        self.held -= count

    def cut(self, length: int) -> int:
        """Drops the farthest frames but so many, and answers how many of these were held."""
        more = max(0, len(self.frames) - length)
        dropped = max(0, more - self.far)
        self.forget(dropped)
        del self.frames[:more]
        return dropped

    def fit(self, length: int) -> None:
        """Has so many frames: of those that aren't known nothing is known but that they are there."""
        self.cut(length)
        self.frames[:0] = [Frame() for _ in range(length - len(self.frames))]


class Timeline:
    """The frames of both sides."""

    def __init__(self) -> None:
        self.past, self.future = Side(), Side()

    def add(self, frame: Frame) -> None:
        """A frame was accepted."""
        self.past.push(frame)
        if self.future.frames:
            self.future = Side()

    @property
    def room(self) -> int:
        """How many characters of records more may be held."""
        return MOST_BYTES - self.past.size - self.future.size

    def shrink(self, side: Side) -> int:
        """Forgets the farthest records of a side until those that are held are small enough, and answers how many;
        never the nearest one."""
        count, room = 0, self.room
        while room < 0 and count + 1 < side.held:
            room += len(side.frames[side.far + count].deltas)
            count += 1
        side.forget(count)
        return count

    def near(self) -> List[Frame]:
        """The frames that are held, of the past, oldest first, and then of the future, next one first."""
        return [*self.past.near(), *reversed(self.future.near())]

    def places_from(self, first: int, count: int) -> range:
        """The places of those frames that there are of so many from one on, of the past and then of the future: 0 is
        the newest of the past, and 1 the next of the future."""
        least, most = 1 - len(self.past.frames), len(self.future.frames)
        return range(max(least, first), max(least, min(first + count, most + 1)))

    def frame_at(self, place: int) -> Frame:
        return self.past.frames[place - 1] if place <= 0 else self.future.frames[-place]
