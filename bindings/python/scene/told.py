"""Values, rows and deltas as the shell's JSON tells them (docs/SHELL.md, "JSON")."""
from __future__ import annotations

from typing import Any, Callable, Dict, Iterable, List, Mapping, Optional, Sequence, Tuple

from scene.deltas import Delta
from scene.values import Cell, Entity, Value

# The kinds of a scene by their numbers, each with its name and its shape.
Kinds = Sequence[Tuple[str, str]]


def value_told(shape: Optional[str], value: Any) -> Value:
    """A value, by its shape."""
    if isinstance(value, list):
        return (value[0], value[1], value[2])
    known: Value = Entity(value) if shape == "Link" else value
    return known


def entity_told(entity: Optional[str]) -> Optional[Entity]:
    """An entity, or None."""
    return None if entity is None else Entity(entity)


def entities_told(entities: Iterable[str]) -> List[Entity]:
    """Entities in their order."""
    return [Entity(entity) for entity in entities]


def resources_told(resources: Mapping[str, Sequence[Any]]) -> Dict[str, Cell]:
    """Resources by their names, each told by its shape, its value and its ticks."""
    return {name: Cell(value_told(shape, value), *ticks) for name, (shape, value, *ticks) in resources.items()}


# ---- deltas, as a scene text has them (docs/SCENE_FILES.md, "Version 2")


def component_told(kinds: Kinds, cell: Sequence[Any]) -> Tuple[str, Value]:
    """The name of a component's kind, and its value."""
    name, shape = kinds[cell[0]]
    return name, value_told(shape, cell[1])


def resource_told(cell: Optional[Sequence[Any]]) -> Optional[Value]:
    """The value of a resource; None where there is none."""
    return None if cell is None else value_told(cell[0], cell[1])


def link_told(link: Optional[Sequence[Any]]) -> Tuple[Optional[Entity], Optional[int]]:
    """A parent, and the place among its children; None and None where there is none."""
    return (None, None) if link is None else (Entity(link[0]), link[1])


def spawned(kinds: Kinds, told: Mapping[str, Any]) -> Delta:
    cells = dict(component_told(kinds, cell) for cell in told["cells"])
    return Delta("spawned", Entity(told["entity"]), cells=cells)


def despawned(kinds: Kinds, told: Mapping[str, Any]) -> Delta:
    # A row that went is told as one that came, with the places that it left.
    parent, place = link_told(told["link"])
    came = spawned(kinds, told)
    return came._replace(change="despawned", parent_before=parent, place_before=place, row_before=told["place"])


def shifted(kinds: Kinds, told: Mapping[str, Any]) -> Delta:
    kind, value = component_told(kinds, told["cell"])
    before, after = None if told["inward"] else value, value if told["inward"] else None
    return Delta("shifted", Entity(told["entity"]), kind, before, after, row_before=told["place"])


def cell_set(kinds: Kinds, told: Mapping[str, Any]) -> Delta:
    (kind, before), (_, after) = (component_told(kinds, told[when]) for when in ("before", "after"))
    return Delta("set", Entity(told["entity"]), kind, before, after)


def linked(_: Kinds, told: Mapping[str, Any]) -> Delta:
    (before, place), (after, to_place) = link_told(told["before"]), link_told(told["after"])
    return Delta("linked", Entity(told["entity"]), None, None, None, before, after, place, to_place)


def resource_set(_: Kinds, told: Mapping[str, Any]) -> Delta:
    before, after = resource_told(told["before"]), resource_told(told["after"])
    return Delta("resource", None, None, before, after, name=told["name"])


DELTAS: Dict[str, Callable[[Kinds, Mapping[str, Any]], Delta]] = {
    "spawned": spawned,
    "despawned": despawned,
    "shifted": shifted,
    "cellset": cell_set,
    "linked": linked,
    "resourceset": resource_set,
}


def deltas_told(kinds: Kinds, deltas: Iterable[Mapping[str, Any]]) -> List[Delta]:
    """Deltas in their order, where the kinds are these."""
    return [DELTAS[told["op"]](kinds, told) for told in deltas]
