"""Links of a copy to entities of the same copy: a page writes `+K`, as other places of a frame do, and what comes of
the K-th spawn stands there when the request goes to the shell. No other call comes between."""
import json
import re
from typing import Any, Callable, Dict, List, Optional

from line_requests import word_of
from shell import played_alone

OWN = re.compile(r"\+(0|[1-9][0-9]{0,8})")
NOBODY = "0v0"


class OwnLinks:
    """The lines of a call, with the requests to spawn that have such links by their places."""

    def __init__(self, shapes: Dict[str, str], lines: List[str]) -> None:
        self.shapes, self.lines = shapes, lines
        spawns = {place: json.loads(line) for place, line in enumerate(lines) if is_spawn_with_own(line)}
        self.found = {place: spawn for place, spawn in spawns.items() if self.names_in(spawn.get("cells"))}

    def names_in(self, cells: Any) -> List[str]:
        """The kinds under which cells have such a link."""
        if not isinstance(cells, dict):
            return []
        links = ((name, value) for name, value in cells.items() if self.shapes.get(name) == "Link")
        return [name for name, value in links if isinstance(value, str) and OWN.fullmatch(value)]

    def lines_with(self, entity_of: Callable[[int], Optional[str]]) -> List[str]:
        """The lines with the entity of each spawn for the links to it; a link to none stays, and is a bad value."""
        lines = list(self.lines)
        for place, spawn in self.found.items():
            cells = dict(spawn["cells"])
            for name in self.names_in(cells):
                cells[name] = entity_of(int(cells[name][1:])) or cells[name]
            lines[place] = json.dumps({**spawn, "cells": cells}, ensure_ascii=False, separators=(",", ":"))
        return lines

    def lines_in(self, program: str, world: str) -> List[str]:
        """The lines with the entities that they spawn in the world of a scene text, as a shell without a store plays
        them: which entities come isn't changed by where links go."""
        answers = map(json.loads, played_alone(program, [f"load {world}", *self.lines_with(lambda _: NOBODY)]))
        coming = [entity for answer in answers for entity in answer.get("entities", ())]
        return self.lines_with(dict(enumerate(coming)).get)


def is_spawn_with_own(line: str) -> bool:
    return line.startswith("{") and '"+' in line and word_of(line) == "spawn"
