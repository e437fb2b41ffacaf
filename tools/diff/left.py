"""What differs between two worlds, in words: how much is new, gone, changed and moved, and what lines left out."""
import json

from world import World

def summary(old, new, moved):
    """How much of each sort there is, as a comment's words."""
    before, after = World(old), World(new)
    both = [entity for entity in after.cells if entity in before.cells]
    resources = before.resources.keys() | after.resources.keys()
    counts = {
        "new": len(after.cells) - len(both),
        "gone": len(before.cells) - len(both),
        "changed": sum(before.cells[entity] != after.cells[entity] for entity in both),
        "moved": moved,
        "of the resources": sum(before.resources.get(name) != after.resources.get(name) for name in resources),
    }
    said = [f"{count} {sort}" for sort, count in counts.items() if count]
    return ", ".join(said) or "no entity and no resource differs"


def left_over(reached, new):
    """What of the second scene the lines didn't reach, each in words."""
    if reached["kinds"] != new["kinds"]:
        yield f"the kinds are {kinds_text(reached)}, and {kinds_text(new)} in the second scene"
    if reached["limit"] != new["limit"]:
        yield f"the slot limit is {reached['limit']}, and {new['limit']} in the second scene"
    there, goal = World(reached), World(new)
    if there.tick != goal.tick:
        yield f"the tick is {there.tick}, and {goal.tick} in the second scene"
    for entity, cells in goal.cells.items():
        if entity not in there.cells:
            yield f"{entity} can't have its id again: {cells_text(cells)}"
    for entity in there.cells:
        if entity not in goal.cells:
            yield f"{entity} isn't in the second scene"
    yield from cells_left(there, goal)
    yield from resources_left(there, goal)
    yield from orders_left(there, goal)


def kinds_text(scene):
    return " ".join(f"{name}:{shape}" for name, shape in scene["kinds"]) or "none"


def cells_text(cells):
    return " ".join(f"{name}={value_text(cell)}" for name, cell in cells.items()) or "no cells"


def cells_left(there, goal):
    """The values that differ, and how many cells differ in their ticks alone."""
    values, ticks = [], 0
    for entity, cells in goal.cells.items():
        reached = there.cells.get(entity)
        if reached is None:
            continue
        for name in dict.fromkeys((*cells, *reached)):
            cell, other = cells.get(name), reached.get(name)
            if cell is None or other is None or cell[0] != other[0]:
                values.append(f"{entity} {name} is {value_text(cell)} in the second scene")
            elif cell != other:
                ticks += 1
    yield from values
    if ticks:
        yield f"cells that differ in their ticks alone: {ticks}"


def value_text(cell):
    return "absent" if cell is None else json.dumps(cell[0], ensure_ascii=False)


def resources_left(there, goal):
    for name in sorted(there.resources.keys() | goal.resources.keys()):
        cell, other = goal.resources.get(name), there.resources.get(name)
        if cell is None:
            yield f"the resource {name} is absent in the second scene"
        elif other is None or cell[:2] != other[:2]:
            yield f"the resource {name} is {json.dumps(cell[1], ensure_ascii=False)} ({cell[0]}) in the second scene"
        elif cell != other:
            yield f"the ticks of the resource {name} differ"


def orders_left(there, goal):
    tables = [kinds for kinds, rows in goal.tables.items() if same_but_order(there.tables.get(kinds), rows)]
    if tables:
        yield f"tables whose rows stand in another order: {len(tables)}"
    for parent, wanted in goal.children.items():
        if there.children.get(parent) != wanted:
            yield f"{parent} has the children {' '.join(wanted)} in the second scene"
    for parent in there.children:
        if parent not in goal.children:
            yield f"{parent} has no children in the second scene"
    if there.generations != goal.generations or there.free != goal.free:
        yield "the generations and the free indices differ, so later spawns get other ids"


def same_but_order(rows, wanted):
    return rows is not None and rows != wanted and sorted(rows) == sorted(wanted)
