"""Components as the library takes them: each by itself, or many in one call."""
from __future__ import annotations

from struct import Struct
from typing import Iterable, List, Tuple, Union

from scene.header import INT, LINK, TAG, TEXT, VEC3, RawCell
from scene.values import Entity, Value

# A `RawCell`, field by field: ctypes reads and writes them far slower.
CELL = Struct("2I3q")


def numbers_of_value(value: Value) -> Tuple[int, int, int, int]:
    """The shape of a value that is no text, and its numbers."""
    if isinstance(value, Entity):
        return LINK, value.index, value.generation, 0
    if isinstance(value, tuple):
        return (VEC3, *value)
    return (TAG, 0, 0, 0) if value is True else (INT, int(value), 0, 0)


def is_text(value: Value) -> bool:
    """Whether a value is a Text."""
    return isinstance(value, str) and not isinstance(value, Entity)


def raw_component(kind: int, value: Value) -> Union[RawCell, bytes]:
    """A component by itself: its kind and its numbers, or its text."""
    return str(value).encode() if is_text(value) else RawCell(kind, *numbers_of_value(value))


def packed_cells(components: Iterable[Tuple[int, Value]]) -> Tuple[bytes, bytes]:
    """Components by their kinds as scene.h takes them in a list: the cells, and the bytes of their texts, of which a
    cell tells where its own begins, and how long it is."""
    cells: List[bytes] = []
    texts: List[bytes] = []
    length = 0
    for kind, value in components:
        if is_text(value):
            texts.append(str(value).encode())
            cells.append(CELL.pack(kind, TEXT, length, len(texts[-1]), 0))
            length += len(texts[-1])
        else:
            cells.append(CELL.pack(kind, *numbers_of_value(value)))
    return b"".join(cells), b"".join(texts)
