"""A tab's view of a scene, apart from the page's scripts: records are made and taken back as the reference does it."""
import sys
from pathlib import Path

TOOLS = Path(__file__).resolve().parent.parent
sys.path.insert(0, str(TOOLS))

from reference.replayed import Replayed  # noqa: E402
from world import parts_of  # noqa: E402


class Followed(Replayed):
    """The world of a scene text, with its records, those of the past before `position`."""

    def __init__(self, scene):
        super().__init__(scene)
        self.records, self.position = [*scene["undo"], *scene["redo"]], len(scene["undo"])

    def forth(self):
        record = self.records[self.position]
        self.make(record["deltas"])
        self.tick = record["after"]
        self.position += 1

    def back(self):
        self.position -= 1
        record = self.records[self.position]
        self.take_back(record["deltas"])
        self.tick = record["tick"]

    def set_cell(self, entity, cell):
        name, _ = self.named(cell)
        assert name in self.cells[entity], f"{entity} has no {name}"
        super().set_cell(entity, cell)

    # The scene text

    def table_text(self, kinds):
        numbers = sorted(map(self.numbers.get, kinds))
        names = [self.kinds[number][0] for number in numbers]
        cells = [[self.cells[entity][name] for name in names] for entity in self.tables[kinds]]
        return {"kinds": numbers, "rows": [{"cells": c, "entity": e} for c, e in zip(cells, self.tables[kinds])]}

    def scene(self):
        """The scene text of version 2, with the records that are held."""
        parents = sorted(self.children, key=lambda parent: parts_of(parent)[0])
        records = [{"deltas": record["deltas"], "tick": record["tick"]} for record in self.records]
        return {
            "children": [{"list": self.children[parent], "parent": parent} for parent in parents],
            "free": self.free,
            "generations": self.generations,
            "kinds": self.kinds,
            "limit": self.limit,
            "redo": records[self.position :],
            "resources": [{"cell": self.resources[name], "name": name} for name in sorted(self.resources)],
            "scene": 2,
            "tables": [self.table_text(kinds) for kinds in self.kind_sets()],
            "tick": self.tick,
            "undo": records[: self.position],
        }
