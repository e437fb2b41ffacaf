"""Holds what the page shows to what the store has, worked out from `dumpall` apart from the page's scripts."""
import json
import re
import time

from person import EXPORTED
from remote import SECONDS

UNSEEN = re.compile("[\0-\x1f\x7f-\x9f\u2028\u2029\u202a-\u202e\u2066-\u2069]+")


def value_text(shape, value):
    if shape == "Text":
        return json.dumps(value, ensure_ascii=False)
    return ",".join(map(str, value)) if shape == "Vec3" else str(value)


def cell_text(name, shape, value):
    return name if shape == "Tag" else f"{name}={value_text(shape, value)}"


def rows_of(scene):
    """Of each entity its cells, as name, shape and value, by table and then by place."""
    for table in sorted(scene["tables"], key=lambda table: sum(1 << kind for kind in table["kinds"])):
        kinds = [scene["kinds"][kind] for kind in table["kinds"]]
        for row in table["rows"]:
            yield row["entity"], [(name, shape, cell[0]) for (name, shape), cell in zip(kinds, row["cells"])]


def called(cells):
    """The name of a row as a line of the forest has it: that of its kind Name, or else its cells."""
    name = UNSEEN.sub(" ", next((value for name, _, value in cells if name == "Name"), ""))
    return name if name.strip() else " ".join(cell_text(*cell) for cell in cells) or "without components"


def forest_of(scene):
    """The entities in the order of the forest, each with its level and its name."""
    texts = {entity: called(cells) for entity, cells in rows_of(scene)}
    children = {each["parent"]: each["list"] for each in scene["children"]}
    below = {child for each in children.values() for child in each}
    left = [(root, 0) for root in sorted(set(texts) - below, key=lambda entity: int(entity.split("v")[0]))][::-1]
    found = []
    while left:
        entity, level = left.pop()
        found.append([entity, level, texts[entity]])
        left += [(child, level + 1) for child in reversed(children.get(entity, []))]
    return found


def tables_of(scene):
    """The rows of the tables, with the values that are written out: a Tag has none."""
    return [
        [entity, {name: value_text(shape, value) for name, shape, value in cells if shape != "Tag"}]
        for entity, cells in rows_of(scene)
    ]


def assert_same(shown, wanted, what):
    assert len(shown) == len(wanted), f"{what}: {len(shown)} lines are shown, and there are {len(wanted)}"
    for at, (one, other) in enumerate(zip(shown, wanted)):
        assert one == other, f"{what}, line {at}: the page shows {one}, and dumpall says {other}"


def shown(person):
    """All that a page shows of the scene, once it has heard of all that the server has, or what it shows instead."""
    scene = json.loads(person.evaluate(EXPORTED % "dumpall"))
    end = time.monotonic() + SECONDS
    while True:
        seen = read(person)
        if agrees(seen, scene) or time.monotonic() > end:
            return seen


def agrees(seen, scene):
    try:
        hold(seen, scene)
    except AssertionError:
        return False
    return True


def read(person):
    """What a page shows now, from the first line of each list to the last."""
    return {
        "forest": person.forest(),
        "tables": [[entity, cells] for entity, cells in person.table_lines() if entity is not None],
        "strip": person.lines("strip"),
        "resources": " ".join(person.lines("resources")),
    }


def hold(seen, scene):
    """What a page shows is the scene."""
    assert_same(seen["forest"], forest_of(scene), "forest")
    tags = {name for name, shape in scene["kinds"] if shape == "Tag"}
    untagged = [[entity, {name: cells[name] for name in cells if name not in tags}] for entity, cells in seen["tables"]]
    assert_same(untagged, tables_of(scene), "tables")
    frames = len(scene["undo"]) + len(scene["redo"])
    assert len(seen["strip"]) == frames + 1, f"the strip has {len(seen['strip'])} lines, and there are {frames} frames"
    for resource in scene["resources"]:
        shape, value = resource["cell"][:2]
        text = "" if shape == "Tag" else value_text(shape, value)
        assert resource["name"] in seen["resources"] and text in seen["resources"], f"{resource}: {seen['resources']}"
