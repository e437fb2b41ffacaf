"""What a scene holds, entities, values and rows, and how they are read from what a caller gives."""
from __future__ import annotations

import operator
import re
import reprlib
from collections import abc
from typing import Callable, Dict, List, NamedTuple, Optional, Sequence, Tuple, TypeVar, Union

from scene.errors import BadLine


class Entity(str):
    """An entity, which is its text: `INDEXvGENERATION`."""

    __slots__ = ()

    @property
    def index(self) -> int:
        """Its place, which another entity may have later."""
        return int(self.partition("v")[0])

    @property
    def generation(self) -> int:
        """Which entity of its index it is, from 1."""
        return int(self.partition("v")[2])


class Spawned:
    """An entity that a frame spawns. It names it to the frame's later commands, and behind the frame to all calls."""

    __slots__ = ("_frame", "_number", "_entity")

    def __init__(self, frame: "Spawns", number: int) -> None:
        self._frame = frame
        self._number = number
        self._entity: Optional[Entity] = None

    @property
    def entity(self) -> Optional[Entity]:
        """The entity; None before the end of its frame, and where that wasn't done."""
        return self._entity

    def spawned(self) -> Entity:
        """The entity, behind its frame; before, and where that wasn't done, a BadLine."""
        if self._entity is None:
            raise BadLine("no frame has spawned the entity yet")
        return self._entity

    def target(self) -> str:
        """Its text in a command: the entity's, or in its frame `+K`."""
        return self._entity if self._entity is not None else self._frame.target(self._number)

    def __repr__(self) -> str:
        return f"Spawned({str(self._entity)!r})" if self._entity is not None else f"Spawned(number {self._number})"


class Spawns:
    """What an open frame spawns. `+K` is the K-th spawn of its queue, and so means nothing in another queue."""

    def __init__(self) -> None:
        self._all: List[Spawned] = []
        self._first = 0
        self.is_over = False

    def note(self, word: str) -> None:
        """Notes a command that was queued, or a line of the frame itself, by its first word."""
        if word == "spawn":
            self._all.append(Spawned(self, len(self._all)))
        elif word == "queue":
            self._first = len(self._all)
        elif word in ("commit", "dropframe"):
            self.is_over = True

    def newest(self) -> Optional[Spawned]:
        return self._all[-1] if self._all else None

    def target(self, number: int) -> str:
        if self.is_over:
            raise BadLine("the frame that was to spawn the entity wasn't done")
        if number < self._first:
            raise BadLine("another queue of the frame spawns the entity")
        return f"+{number - self._first}"

    def end(self, entities: Sequence[Entity]) -> None:
        """Ends the frame, which has spawned these, or none where it wasn't done."""
        self.is_over = True
        for spawned, entity in zip(self._all, entities):
            spawned._entity = entity  # pylint: disable=protected-access


Value = Union[bool, int, Tuple[int, int, int], str, Entity]
# What a call takes for a value, and for an entity.
Given = Union[Value, Sequence[int], Spawned]
Named = Union[str, Spawned]


class Cell(NamedTuple):
    """A component of a row, or a resource: its value, and the ticks at which it was added and last written."""

    value: Value
    added: int
    changed: int


class Row(NamedTuple):
    """An entity with its components by the names of their kinds, its parent, if any, and its children in order."""

    entity: Entity
    cells: Dict[str, Cell]
    parent: Optional[Entity] = None
    children: Tuple[Entity, ...] = ()

    def values(self) -> Dict[str, Value]:
        """The values alone."""
        return {name: cell.value for name, cell in self.cells.items()}


class Moment(NamedTuple):
    """A moment of a scene, from which a view looks for what was written since. It can be kept as long as one likes."""

    rewinds: int
    """How many frames were taken back before it."""
    tick: int
    """How many frames there were, as the last one's number."""


class Status(NamedTuple):
    """The numbers of a scene."""

    tick: int
    """How many frames there were, as the last one's number."""
    rewinds: int
    """How many frames were taken back. With the tick it tells what was done."""
    undo: int
    """How many frames can be undone."""
    redo: int
    """How many frames can be redone."""
    slots: int
    """How many indices were used."""
    limit: int
    """How many indices can be used."""
    kinds: int
    """How many kinds there are."""


# No scene keeps a record of more frames, or has more rows.
MOST_DEPTH = MOST_ROWS = 2**20
# How many rows are asked for at once, where a caller doesn't say.
PAGE = 1000

WHOLE = re.compile(r"0|-?[1-9][0-9]{0,18}")
ENTITY = re.compile(r"(0|[1-9][0-9]{0,9})v(0|[1-9][0-9]{0,9})")
NEW = re.compile(r"\+(0|[1-9][0-9]{0,9})")
KIND = re.compile(r"[A-Za-z][A-Za-z0-9_]{0,31}")


def read_tag(value: object) -> bool:
    """The value of a Tag."""
    if value is not True:
        raise TypeError
    return True


def read_whole(value: object) -> int:
    """A whole number of 64 bits."""
    if isinstance(value, str):
        if not WHOLE.fullmatch(value):
            raise ValueError
        value = int(value)
    if isinstance(value, bool):
        raise TypeError
    number = operator.index(value)  # type: ignore[arg-type]
    if not -(2**63) <= number < 2**63:
        raise ValueError
    return number


def read_vector(value: object) -> Tuple[int, int, int]:
    """Three whole numbers."""
    parts = value.split(",") if isinstance(value, str) else value
    if not isinstance(parts, abc.Sequence) or isinstance(parts, (bytes, bytearray)):
        raise TypeError
    x, y, z = map(read_whole, parts)
    return x, y, z


def read_text(value: object) -> str:
    """A text, or a number as one."""
    if not isinstance(value, str):
        return str(read_whole(value))
    value.encode()
    return str(value)


def read_entity(value: object) -> Entity:
    """An entity."""
    if isinstance(value, Spawned):
        return value.spawned()
    if not isinstance(value, str):
        raise TypeError
    parts = ENTITY.fullmatch(value)
    if not parts or max(map(int, parts.groups())) >= 2**32:
        raise ValueError
    return Entity(value)


def read_target(value: object) -> str:
    """What a command is about: an entity, or `+K` for the k-th spawn of the frame."""
    if isinstance(value, Spawned):
        return value.target()
    new = NEW.fullmatch(value) if isinstance(value, str) else None
    return read_entity(value) if new is None or int(new[1]) >= 2**32 else new[0]


# The shapes in the order of scene.h: how a value is read, by a TypeError or a ValueError where it is none, and what
# one is.
SHAPES: Dict[str, Tuple[Callable[[object], Value], str]] = {
    "Tag": (read_tag, "True"),
    "Int": (read_whole, "a whole number of 64 bits"),
    "Vec3": (read_vector, "three whole numbers of 64 bits"),
    "Text": (read_text, "a text"),
    "Link": (read_entity, "an entity, as 0v1"),
}
Read = TypeVar("Read")


def fitting(what: str, read: Callable[[object], Read], form: str, value: object) -> Read:
    """What is read of a value. Where it isn't of this form, a TypeError or a BadLine says so."""
    try:
        return read(value)
    except BadLine:
        raise
    except (TypeError, ValueError) as error:
        try:
            shown = reprlib.repr(value)
        except ValueError:
            # Python writes no number of so many digits.
            shown = "one of very many digits"
        told = f"{what} is {form}, and {shown} isn't"
        raise (TypeError if isinstance(error, TypeError) else BadLine)(told) from None


def shape_of_value(what: str, value: object) -> str:
    """The shape of a value for which no kind asks. A text is a Text: a Link is an `Entity`, or what a frame spawns."""
    if value is True:
        return "Tag"
    if isinstance(value, (Entity, Spawned)):
        return "Link"
    if isinstance(value, str):
        return "Text"
    if isinstance(value, int) and not isinstance(value, bool):
        return "Int"
    if isinstance(value, abc.Sequence) and not isinstance(value, (bytes, bytearray)):
        return "Vec3"
    raise TypeError(f"{what} is True, a number, three of them, a text or an entity, and {reprlib.repr(value)} isn't")


def resource_value(name: object, value: object, shape: Optional[str]) -> Tuple[str, Value]:
    """The shape and the value of a resource that a caller gives, whose shape is told by the value where it is None."""
    what = f"the resource {text_named('the name of a resource', name)}"
    asked = shape_of_value(what, value) if shape is None else shape_named(what, shape)
    return asked, fitting(what, *SHAPES[asked], value)


def read_count(value: object) -> int:
    """How many frames."""
    if isinstance(value, bool):
        raise TypeError
    number = operator.index(value)  # type: ignore[arg-type]
    if number < 0:
        raise ValueError
    return number


def count_named(value: object) -> int:
    """The count of frames that a caller gives."""
    return fitting("the count of frames", read_count, "a whole number from 0", value)


def place_named(value: object) -> int:
    """The place of a frame, among those that are kept, that a caller gives."""
    return fitting("the place of a frame", read_count, "a whole number from 0", value)


def read_page(value: object) -> int:
    """How many rows are asked for at once."""
    number = read_count(value)
    if number == 0:
        raise ValueError
    return min(number, MOST_ROWS)


def page_named(value: object) -> int:
    """The length of a page that a caller gives."""
    return fitting("a page", read_page, "a whole number of rows from 1", value)


def read_moment(value: object) -> Moment:
    """A moment, which is two whole numbers of 64 bits."""
    if not isinstance(value, tuple):
        raise TypeError
    rewinds, tick = map(read_count, value)
    if max(rewinds, tick) >= 2**64:
        raise ValueError
    return Moment(rewinds, tick)


def moment_named(value: object) -> Moment:
    """The moment that a caller gives."""
    return fitting("a moment", read_moment, "what `now` gave", value)


def read_depth(value: object) -> int:
    """Of how many frames a record is kept."""
    number = read_count(value)
    if not 1 <= number <= MOST_DEPTH:
        raise ValueError
    return number


def depth_named(value: object) -> int:
    """The depth that a caller gives."""
    return fitting("a depth", read_depth, f"a whole number from 1 to {MOST_DEPTH:,}", value)


def entity_named(value: object) -> Entity:
    """The entity that a caller gives."""
    return fitting("an entity", read_entity, "its text, as 0v1", value)


def target_named(value: object) -> str:
    """The target that a caller gives."""
    return fitting("an entity", read_target, "its text, as 0v1, or +0 in a frame", value)


def text_named(what: str, name: object) -> str:
    """A name that a caller gives."""
    if not isinstance(name, str):
        raise TypeError(f"{what} is a text, and {reprlib.repr(name)} isn't")
    return name


def line_named(line: object) -> str:
    """The line that a caller gives."""
    text = fitting("a line", read_text, "a text", text_named("a line", line))
    if "\n" in text:
        raise BadLine("a line has no line break")
    return text


def kind_named(name: object) -> str:
    """The name of a kind that a caller gives."""
    return text_named("the name of a kind", name)


def shape_named(name: str, shape: object) -> str:
    """The shape that a caller gives a kind."""
    told = f"the shape of {name} is Tag, Int, Vec3, Text or Link, and {reprlib.repr(shape)} isn't"
    if not isinstance(shape, str):
        raise TypeError(told)
    if shape not in SHAPES:
        raise BadLine(told)
    return shape
