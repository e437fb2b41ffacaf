"""The systems of a script's phases, and what an advance by them does to a recorder (docs/MODEL.md, "The rule of
systems").

A system is the request that adds it. Only an advance that the program made is followed, so nothing is tested."""
from reference.queues import apply_queue

WRITING = ("addvec", "addint")


def matching_sets(world, request):
    """The archetypes that match the filter of a system or a question, by ascending kind set."""
    need, without = frozenset(request["need"]), frozenset(request["without"])
    return [kinds for kinds in world.kind_sets() if need <= kinds and not without & kinds]


def matching_rows(world, request):
    return [entity for kinds in matching_sets(world, request) for entity in world.tables[kinds]]


def last_values(world, system, entity):
    """What the writing steps leave in a row, by the names of the kinds."""
    values = {}
    cells = world.cells[entity]
    for step in system["steps"]:
        if step["step"] not in WRITING:
            break
        to, by = step["to"], step["by"]
        value = values.get(to, cells[to][0])
        if step["step"] == "addint":
            values[to] = value + by
        else:
            values[to] = [one + more for one, more in zip(value, values.get(by, cells[by][0]))]
    return values


def write_rows(world, system, rows):
    """Writes each cell once, by row and then by kind."""
    for entity in rows:
        values = last_values(world, system, entity)
        for name in sorted(values, key=world.numbers.get):
            world.insert(entity, name, values[name])


def queue_of(world, system, rows):
    """The commands that the other steps queue, step by step, and in a step row by row."""
    queue, spawns = [], 0
    for step in (each for each in system["steps"] if each["step"] not in WRITING):
        if step["step"] == "count":
            queue.append({"do": "put", "name": step["name"], "shape": "Int", "value": len(rows)})
        elif step["step"] == "zero":
            dead = [entity for entity in rows if world.cells[entity][step["kind"]][0] == 0]
            queue.extend({"do": "despawnifalive", "entity": entity} for entity in dead)
        else:
            for entity in rows:
                queue.append({"do": "spawn", "cells": step["cells"]})
                queue.append({"do": "parent", "child": f"+{spawns}", "parent": entity})
                spawns += 1
    return queue


def advance(world, phases):
    """Does an advance: of each phase all systems write, and then their queues are applied."""
    for phase in phases:
        queues = []
        for system in phase:
            rows = matching_rows(world, system)
            write_rows(world, system, rows)
            queues.append(queue_of(world, system, rows))
        for queue in queues:
            apply_queue(world, queue)
