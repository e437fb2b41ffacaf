"""Answers over the library to requests that ask for a text, in the JSON of the shell (docs/SHELL.md, "JSON")."""
from __future__ import annotations

import json
from typing import Any, Dict, List, Mapping

from scene.errors import BadLine
from scene.reads import Reads, shown
from scene.values import Cell, Entity, Value

# The lines that ask for a text, which stands in the library's own JSON as a string.
ASK_TEXT = ("show", "get", "dump", "dumpall")
BAD_LINE = "bad line\n"


def bad_request(text: str) -> BadLine:
    """Why a request is bad: its reason begins with the path of the part that is bad, unless it is the whole."""
    bad = BadLine(text)
    if text.startswith('"'):
        bad.path = json.JSONDecoder().raw_decode(text)[0]
    return bad


def in_json(value: Value) -> Any:
    """A value in an answer."""
    if isinstance(value, tuple):
        return list(value)
    return str(value) if isinstance(value, str) else value


def cells_in_json(cells: Mapping[str, Cell]) -> Dict[str, List[Any]]:
    """The components of a row."""
    return {name: [in_json(cell.value), cell.added, cell.changed] for name, cell in cells.items()}


def row_in_json(entity: Entity, cells: Mapping[str, Cell]) -> Dict[str, Any]:
    """A row."""
    return {"entity": str(entity), "cells": cells_in_json(cells)}


def world_in_json(level: Reads, text: str) -> Dict[str, Any]:
    """The whole world. The generations and the free list stand in lines of their own, and no call tells them."""
    _, generations, free = (line.split(" ")[1:] for line in text.split("\n")[:3])
    rows = {row.entity: row for row in level.rows()}
    tables = []
    for mask, _ in level.tables():
        told = [row_in_json(row.entity, row.cells) for row in map(rows.__getitem__, map(shown, level.entities(mask)))]
        tables.append({"kinds": level.kinds_of(mask), "rows": told})
    parents = sorted((row for row in rows.values() if row.children), key=lambda row: row.entity.index)
    return {
        "answer": "world",
        "tick": level.status().tick,
        "generations": list(map(int, generations)),
        "free": list(map(int, free)),
        "tables": tables,
        "children": {str(row.entity): list(map(str, row.children)) for row in parents},
        "resources": {
            name: [shape, in_json(cell.value), cell.added, cell.changed] for name, shape, cell in level.resource_cells()
        },
    }


def answer_to(level: Reads, do: str, keys: Mapping[str, Any], text: str) -> Dict[str, Any]:
    """What a request is answered that has asked for a text."""
    if do == "show":
        return world_in_json(level, text)
    if do == "get":
        return {"answer": "row", **row_in_json(Entity(keys["entity"]), level.cells(keys["entity"]))}
    return {"answer": "scene", "text": json.loads(text)}
