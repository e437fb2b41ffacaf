"""What a frame did that is kept: deltas, by which a view follows without reading the scene."""
from __future__ import annotations

from typing import Dict, List, NamedTuple, Optional

from scene.values import Entity, Value

BACKWARD = {"spawned": "despawned", "despawned": "spawned"}


class Delta(NamedTuple):
    """One thing that a frame did (docs/JOURNAL.md, "The six deltas"). What there isn't is None.

    A row stands at a place of its table, which is that of its kind set. From there it leaves by swap out: the table's
    last row then has its place. To a place it comes by the same backward: the row that was there goes last. A child's
    place is counted among the parent's other children. All places are from 0."""

    change: str
    """In a word: an entity is `spawned` or `despawned`; a component came or went, `shifted`, or was written, `set`; an
    entity has another parent or place, `linked`; or a `resource` came, went or was written."""
    entity: Optional[Entity]
    """The entity; None of a `resource`."""
    kind: Optional[str] = None
    """The name of the component's kind, where it is `shifted` or `set`."""
    before: Optional[Value] = None
    """The value of the component, or of the resource, before; None where it wasn't there."""
    after: Optional[Value] = None
    """The value after."""
    parent_before: Optional[Entity] = None
    """The parent before, where the entity is `linked` or `despawned`; None where it had none."""
    parent_after: Optional[Entity] = None
    """The parent after, where it is `linked`, or backward `spawned`."""
    place_before: Optional[int] = None
    """The place among the children of the parent before."""
    place_after: Optional[int] = None
    """The place among the children of the parent after."""
    row_before: Optional[int] = None
    """Where it is `despawned` or `shifted`, the place of the row in the table that it left; None for the last one."""
    row_after: Optional[int] = None
    """Where it is `spawned` or `shifted`, the place of the row in the table to which it came; None for the last one."""
    cells: Optional[Dict[str, Value]] = None
    """The row's components by the names of their kinds, where it is `spawned` or `despawned`."""
    name: Optional[str] = None
    """The name of the resource."""

    def undone(self) -> Delta:
        """The same backward: before and after exchanged, and so are `spawned` and `despawned`."""
        change, entity, kind, before, after, parent, to, place, to_place, row, to_row, cells, name = self
        back = BACKWARD.get(change, change)
        return Delta(back, entity, kind, after, before, to, parent, to_place, place, to_row, row, cells, name)


class KeptStep(NamedTuple):
    """What a frame did that is kept."""

    tick: int
    """The tick of the scene before it."""
    deltas: List[Delta]
    """In the order in which they were made, which lead from that scene to the one behind the frame."""

    def undone(self) -> List[Delta]:
        """The deltas that lead back, as an undo does: from the last to the first, each `undone`."""
        return [delta.undone() for delta in reversed(self.deltas)]


class StepSummary(NamedTuple):
    """A frame that is kept, without what it did."""

    tick: int
    """The tick of the scene before it."""
    count: int
    """How many deltas it has."""
