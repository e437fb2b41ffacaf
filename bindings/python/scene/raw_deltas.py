"""What a frame did that is kept, as the library tells it."""
from __future__ import annotations

from functools import lru_cache
from struct import Struct
from typing import Any, Callable, Dict, List, Optional, Sequence, Tuple

from scene.cells import CELL
from scene.deltas import Delta
from scene.header import ABSENT, DESPAWNED, INT, LINK, LINKED, NOBODY, RESOURCE, SHIFTED, SPAWNED, TAG, VEC3
from scene.values import Entity, Value

# What a delta did, by its number in scene.h.
CHANGES = ("spawned", "despawned", "shifted", "set", "linked", "resource")
# A `RawDelta`, field by field: ctypes reads them far slower.
LAYOUT = Struct("4I2I3q2I3q6I")
# Which text of a delta: the one before it, the one after it, or the name of its resource.
BEFORE, AFTER, NAME = range(3)
# The kind by which a text is asked for that is of no row: there it means nothing.
ANY = 0
# An entity that is none.
NONE = (NOBODY.index, NOBODY.generation)


def entity_or_none(index: int, generation: int) -> Optional[Entity]:
    """An entity, where it isn't `SCENE_NONE`."""
    return None if (index, generation) == NONE else Entity(f"{index}v{generation}")


class DeltasOfStep:
    """The deltas of a step, where the kinds have these names. Rows and texts come apart, those of all deltas at once:
    `runs` gives the bytes of each delta, by the name of a call, the size of its items, and what else it takes."""

    def __init__(self, names: Sequence[str], runs: Callable[..., List[bytes]]) -> None:
        self._names, self._runs = names, runs
        # Each is asked for where a delta needs it, and then once.
        self._rows = lru_cache(maxsize=None)(self._all_rows)
        self._texts = lru_cache(maxsize=None)(self._all_texts)

    def _all_rows(self) -> List[bytes]:
        """The cells of the row that each delta brought or took away."""
        return self._runs("delta_rows", CELL.size)

    def _all_texts(self, which: int, kind: int) -> List[str]:
        """A text of each delta: which one, and of a row that of this kind."""
        return [text.decode() for text in self._runs("delta_texts", 1, which, kind)]

    def all_in(self, raw: Any) -> List[Delta]:
        """The deltas of a ctypes array of all of them."""
        return [self._delta(number, *told) for number, told in enumerate(LAYOUT.iter_unpack(raw))]

    def _delta(self, number: int, change: int, index: int, generation: int, place: int, *told: int) -> Delta:
        """A delta, of which this is told behind the place: two cells, and two parents, each with a place."""
        word, entity = CHANGES[change], entity_or_none(index, generation)
        if change == SPAWNED:
            return Delta(word, entity, cells=self._cells(number, AFTER))
        if change in (DESPAWNED, LINKED):
            before, after = entity_or_none(*told[10:12]), entity_or_none(*told[13:15])
            places = None if before is None else told[12], None if after is None else told[15]
            if change == LINKED:
                return Delta(word, entity, None, None, None, before, after, *places)
            cells = self._cells(number, BEFORE)
            return Delta(word, entity, None, None, None, before, None, *places, place, cells=cells)
        values = self._value(number, BEFORE, told[:5], ANY), self._value(number, AFTER, told[5:10], ANY)
        if change == RESOURCE:
            return Delta(word, None, None, *values, name=self._texts(NAME, ANY)[number])
        kind = self._names[told[5] if values[0] is None else told[0]]
        return Delta(word, entity, kind, *values, row_before=place if change == SHIFTED else None)

    def _cells(self, number: int, which: int) -> Dict[str, Value]:
        """The components of a row that came or went."""
        cells = {}
        for cell in CELL.iter_unpack(self._rows()[number]):
            value = self._value(number, which, cell, cell[0])
            assert value is not None
            cells[self._names[cell[0]]] = value
        return cells

    def _value(self, number: int, which: int, cell: Tuple[int, ...], kind: int) -> Optional[Value]:
        """What a cell has; a text is looked for among those that are asked for by this kind."""
        _, shape, x, y, z = cell
        if shape == INT:
            return x
        if shape == VEC3:
            return x, y, z
        if shape == LINK:
            return Entity(f"{x}v{y}")
        if shape == TAG:
            return True
        return None if shape == ABSENT else self._texts(which, kind)[number]
