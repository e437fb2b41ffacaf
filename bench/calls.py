#!/usr/bin/env -S python3 -B
"""What calls of the library cost from Python, in microseconds of processor time, each the least of some runs.

    bench/calls.py LIBRARY [COUNT]      COUNT calls, 20000 if none are given
"""
import sys
import time
from pathlib import Path

sys.path.insert(0, str(Path(__file__).resolve().parents[1] / "bindings" / "python"))

from scene.library import LibraryScene  # noqa: E402

RUNS, ROWS = 5, 10_000


def spawned(library, count):
    """A scene of so many entities, which one frame has spawned; and the entities."""
    scene = LibraryScene({"Health": "Int", "Name": "Text"}, library)
    with scene.frame() as entities:
        for number in range(count):
            scene.spawn(Health=number, Name=f"entity {number}")
    return scene, entities


def spawn(library, count):
    scene, _ = spawned(library, 0)
    return lambda: [scene.spawn(Health=number) for number in range(count)]


def insert(library, count):
    scene, (entity,) = spawned(library, 1)
    return lambda: [scene.insert(entity, Health=number) for number in range(count)]


def get(library, count):
    scene, (entity,) = spawned(library, 1)
    return lambda: [scene.get(entity, "Health") for _ in range(count)]


def undo(library, count):
    scene, (entity,) = spawned(library, 1)
    for number in range(count):
        scene.insert(entity, Health=number)
    return lambda: [scene.undo() for _ in range(count)]


def insert_all(library, count):
    scene, entities = spawned(library, count)
    return lambda: scene.insert_all(entities, Health=range(count))


def columns(library, count):
    """Whole columns, again and again."""
    scene, _ = spawned(library, ROWS)
    ((mask, _),) = scene.tables("Health", "Name")
    return lambda: [scene.column(mask, "Health") for _ in range(rounds(count))]


def texts(library, count):
    scene, _ = spawned(library, ROWS)
    ((mask, _),) = scene.tables("Health", "Name")
    return lambda: [scene.texts(mask, "Name") for _ in range(rounds(count))]


def rounds(count):
    """How many columns are read where there are so many calls."""
    return max(1, count // 1000)


def as_many(count):
    return count


# each work by its name, and how many of it so many calls are
WORKS = {
    "spawn": (spawn, as_many),
    "insert": (insert, as_many),
    "get": (get, as_many),
    "undo": (undo, as_many),
    "a write of insert_all": (insert_all, as_many),
    f"a column of {ROWS:,} Ints": (columns, rounds),
    "a text of a column": (texts, lambda count: ROWS * rounds(count)),
}


def least(work, library, count):
    """The processor time of the quickest run, in microseconds."""
    times = []
    for _ in range(RUNS):
        play = work(library, count)
        since = time.process_time()
        play()
        times.append(time.process_time() - since)
    return min(times) * 1e6


def main():
    library, count = sys.argv[1], int(sys.argv[2]) if len(sys.argv) > 2 else 20_000
    for name, (work, times) in WORKS.items():
        print(f"{name:26}{least(work, library, count) / times(count):10.2f}", flush=True)


if __name__ == "__main__":
    main()
