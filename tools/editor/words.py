"""What a frame did, in words: a text for each of its deltas."""
import json
from typing import Any, Dict, List

MOST_TEXTS, MOST_SYSTEMS, MOST_LETTERS = 20, 8, 80
Kinds = List[List[str]]


def value_text(shape: str, value: Any) -> str:
    """A value as a person reads it: a text in quotes, so that nothing in it hides, and cut where it is long."""
    if shape == "Text":
        more = ".." if len(value) > MOST_LETTERS else ""
        return json.dumps(value[:MOST_LETTERS], ensure_ascii=False) + more
    return ",".join(map(str, value)) if shape == "Vec3" else str(value)


def cell_text(name: str, shape: str, value: Any) -> str:
    return name if shape == "Tag" else f"{name}={value_text(shape, value)}"


def insert_text(kinds: Kinds, entity: str, cell: List[Any]) -> str:
    (name, shape), value = kinds[cell[0]], cell[1]
    return f"{entity} is {name}" if shape == "Tag" else f"{name} of {entity} is {value_text(shape, value)}"


def spawned_text(kinds: Kinds, delta: Dict[str, Any]) -> str:
    cells = [cell_text(*kinds[kind], value) for kind, value, *_ in delta["cells"]]
    return " ".join(["spawn", *cells, "as", delta["entity"]])


def shifted_text(kinds: Kinds, delta: Dict[str, Any]) -> str:
    entity, cell = delta["entity"], delta["cell"]
    return insert_text(kinds, entity, cell) if delta["inward"] else f"{entity} loses {kinds[cell[0]][0]}"


def linked_text(_: Kinds, delta: Dict[str, Any]) -> str:
    entity, after = delta["entity"], delta["after"]
    return f"{entity} leaves its parent" if after is None else f"{entity} goes below {after[0]}"


def resource_text(_: Kinds, delta: Dict[str, Any]) -> str:
    name, after = delta["name"], delta["after"]
    return f"resource {name} goes" if after is None else f"resource {name} is {cell_text(after[0], *after[:2])}"


SAY = {
    "spawned": spawned_text,
    "despawned": lambda kinds, delta: f"despawn {delta['entity']}",
    "shifted": shifted_text,
    "cellset": lambda kinds, delta: insert_text(kinds, delta["entity"], delta["after"]),
    "linked": linked_text,
    "resourceset": resource_text,
}


def cut(texts: List[str], count: int) -> List[str]:
    """The first texts of so many, and how many more there are."""
    more = count - len(texts)
    return texts if more <= 0 else [*texts, f"and {more:,} more"]


def words_of_deltas(kinds: Kinds, deltas: List[Dict[str, Any]], count: int) -> List[str]:
    """The words of a frame of so many deltas, of which these are the first."""
    return cut([SAY[delta["op"]](kinds, delta) for delta in deltas], count) or ["an empty frame"]


def words_of_advance(names: List[str]) -> List[str]:
    return [f"advance: {', '.join(cut(names[:MOST_SYSTEMS], len(names))) or 'no system'}"]
