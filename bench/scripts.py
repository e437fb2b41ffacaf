#!/usr/bin/env python3
"""Writes scripts, the same ones each time.

    scripts.py [--works NAME,..] [--program PROGRAM] FOLDER SIZE..

makes FOLDER/WORK.SIZE.txt of some SIZE lines or rows each, of all works or of those named. One whose name ends in _check is a
scene text for `scene check`, the others are scripts for `scene run`. The text that load2 loads is made by a program, and without
one there is no such script. A work that takes too long, or whose text would be too long for a script, ends at a lesser size: its
`most`.
"""
import argparse
import json
import pathlib
import random
import subprocess

KINDS = ["kind A Int", "kind B Int", "kind P Vec3", "kind V Vec3", "kind T Tag", "kind X Text", "kind Y Link"]
LONGEST = 67_108_864  # bytes of a script
WORKS = {}


def work(most=1_000_000):
    """Enters a function as a work, with the greatest size that it is written for."""

    def enter(written):
        WORKS[written.__name__] = (written, most)
        return written

    return enter


def components(at, chance):
    """The components of a thing, of one of four sorts."""
    sorts = (f"A={at} P={at},{2 * at},{-at}", f"A={at} B=7 T", f"P=1,2,3 V={at},0,1", f"A={at} X=name{at}")
    return chance.choice(sorts)


def spawned(at, chance):
    return "spawn " + components(at, chance)


@work()
def spawn(size, chance):
    """Each spawn is a frame, of four archetypes."""
    yield from KINDS
    yield from (spawned(at, chance) for at in range(size))
    yield "mark"


@work(900_000)
def moves(size, chance):
    """A tenth as many entities, whose rows go from table to table and back."""
    yield from KINDS
    count = max(1, size // 10)
    yield from (f"spawn A={at} P=1,2,3" for at in range(count))
    cells = {"B": "B=1", "V": "V=1,1,1", "T": "T", "X": "X=abc", "Y": "Y=0v1"}
    there = set()
    for _ in range(size - count):
        entity, kind = chance.randrange(count), chance.choice("BVTXY")
        is_there = (entity, kind) in there
        there ^= {(entity, kind)}
        yield f"remove {entity}v1 {kind}" if is_there else f"insert {entity}v1 {cells[kind]}"
    yield "mark"


@work()
def undoredo(size, chance):
    """Frames of each sort, and then all are undone, redone and undone again."""
    yield from KINDS
    frames, live = size // 4, 0
    for at in range(frames):
        sort = chance.random()
        if sort < 0.5 or live < 4:
            yield spawned(at, chance)
            live += 1
        elif sort < 0.7:
            yield f"insert {chance.randrange(live)}v1 B={at}"
        elif sort < 0.8:
            yield f"put light{at % 20} Int={at}"
        else:
            yield f"insert {chance.randrange(live)}v1 T"
    yield from ["undo"] * frames + ["redo"] * frames + ["undo"] * frames + ["mark"]


@work()
def churn(size, chance):
    """Spawns and despawns over a tenth as many entities: indices are taken again, over and over."""
    yield from KINDS
    few, generations, live, free = max(1, size // 10), [], [], []
    for at in range(size):
        if len(live) < few or chance.random() < 0.5 and len(live) < 2 * few:
            index = free.pop() if free else len(generations)
            generations += [1] if index == len(generations) else []
            live.append(index)
            yield f"spawn A={at}"
        else:
            place = chance.randrange(len(live))
            index, live[place] = live[place], live[-1]
            live.pop()
            free.append(index)
            yield f"despawn {index}v{generations[index]}"
            generations[index] += 1
    yield "mark"


@work(900_000)
def tree(size, chance):
    """Each entity becomes the child of one of the last few before it; then all are despawned with the root, and come back twice."""
    yield "kind T Tag"
    count = size // 2
    yield from ["spawn T"] * count
    for at in range(1, count):
        yield f"parent {at}v1 {chance.randrange(max(0, at - 50), at)}v1"
    yield from ["despawnall 0v1", "undo", "redo", "undo", "mark"]


def one_parent(size):
    """One frame that makes a parent and its children, 1v1 and on."""
    yield from ["kind T Tag", "begin", "spawn T"] + ["spawn T"] * size
    yield from (f"parent +{at} +0" for at in range(1, size + 1))
    yield "commit"


@work(400_000)
def kids_front(size, chance):
    """The children of one parent leave it from the front; the last thousand come back."""
    yield from one_parent(size)
    yield from (f"unparent {at}v1" for at in range(1, size + 1))
    yield from ["undo"] * 1000 + ["mark"]


@work(400_000)
def kids_rand(size, chance):
    """The children of one parent leave it in random order; the last thousand come back."""
    yield from one_parent(size)
    children = list(range(1, size + 1))
    chance.shuffle(children)
    yield from (f"unparent {at}v1" for at in children)
    yield from ["undo"] * 1000 + ["mark"]


@work(400_000)
def kids_despawn(size, chance):
    """The children of one parent are despawned from the front, and all come back."""
    yield from one_parent(size)
    yield from (f"despawn {at}v1" for at in range(1, size + 1))
    yield from ["undo"] * size + ["mark"]


def moved_rows(size, setup):
    """A frame of rows, and two systems, of which one adds vectors and one adds numbers and counts."""
    yield from ["kind P Vec3", "kind V Vec3", "kind N Int", *setup, "begin"]
    yield from ("spawn P=0,0,0 V=1,2,3" + " N=5" * (at % 4 > 0) for at in range(size))
    yield from ["commit", "system move need=P,V addvec:P:V", "system tick need=N addint:N:1 count:n"]


@work()
def sys100(size, chance):
    """Two systems advance the rows a hundred times, and the last frame alone is kept."""
    yield from moved_rows(size, ["depth 1"])
    yield from ["advance"] * 100 + ["mark"]


@work(50_000)
def sys100_deep(size, chance):
    """The same with every frame kept; then all are undone and redone."""
    yield from moved_rows(size, [])
    yield from ["advance"] * 100 + ["undo"] * 100 + ["redo"] * 100 + ["mark"]


@work(400_000)
def sys_queue(size, chance):
    """A system ends half of the rows, and another gives each of the others a child."""
    yield from ["kind L Int", "kind M Int", "kind T Tag", "begin"]
    yield from ("spawn L=2" if at % 2 else "spawn M=1" for at in range(size))
    yield from ["commit", "system die need=L addint:L:-1 zero:L", "system grow need=M child:T count:n"]
    yield from ["advance", "undo", "redo", "advance", "undo", "undo", "redo", "redo", "mark"]


def row(at, *cells):
    return {"cells": [list(cell) for cell in cells], "entity": f"{at}v1"}


def scene_text(size):
    """A scene of version 1 of so many entities, in two tables, with ten children below each of the first tenth."""
    tables = [
        {"kinds": [0, 1], "rows": [row(at, (at, at % 7, 7), ([-at, 2, 3], 1, 9)) for at in range(0, size, 2)]},
        {"kinds": [0, 2], "rows": [row(at, (at, 1, 2), (f"t{at}", 3, 3)) for at in range(1, size, 2)]},
    ]
    children = [
        {"list": [f"{child}v1" for child in range(10 * at + 1, min(10 * at + 11, size))], "parent": f"{at}v1"}
        for at in range((size - 2) // 10)
    ]
    scene = {
        "children": children, "free": [], "generations": [1] * size, "kinds": [["A", "Int"], ["P", "Vec3"], ["X", "Text"]],
        "limit": 1048576, "resources": [], "scene": 1, "tables": tables, "tick": 9,
    }  # fmt: skip
    return json.dumps(scene, separators=(",", ":"))


@work(800_000)
def load1(size, chance):
    """A scene of version 1 is loaded and dumped."""
    yield from ["load " + scene_text(size), "dump"]


@work(800_000)
def load1_check(size, chance):
    """`scene check` of the same text."""
    yield scene_text(size)


def mixed_frames(size, chance):
    """Frames of four sorts, of one command each."""
    yield from KINDS
    live = 0
    for at in range(size):
        sort = chance.random()
        if sort < 0.5 or live < 4:
            yield spawned(at, chance)
            live += 1
        elif sort < 0.8:
            yield f"insert {chance.randrange(live)}v1 B={at}"
        elif sort < 0.9:
            yield f"insert {chance.randrange(live)}v1 V=1,2,{at}"
        else:
            yield f"parent {chance.randrange(1, live)}v1 0v1"


@work()
def frames(size, chance):
    """Frames of four sorts, which are all kept."""
    yield from [*mixed_frames(size, chance), "mark"]


@work()
def depth10(size, chance):
    """Such frames, of which the newest ten are kept."""
    yield from ["depth 10", *mixed_frames(size, chance), "mark"]


@work(250_000)
def dumpall2(size, chance):
    """Such frames, dumped with all that can be undone."""
    yield from [*mixed_frames(size, chance), "dumpall"]


@work(250_000)
def load2(size, chance):
    """That dump is loaded, which tries each record, half of it is undone, and all is dumped."""
    script = "\n".join(dumpall2(size, chance)) + "\n"
    played = subprocess.run([given.program, "run"], input=script, capture_output=True, text=True, check=True)
    yield from ["load " + played.stdout.splitlines()[-1], *["undo"] * (size // 2), "dumpall"]


@work()
def changed(size, chance):
    """Two hundred times one of many rows is written, and the cells are asked for that were written and added since."""
    yield from ["kind A Int", "kind P Vec3", "begin", *(f"spawn A={at} P=1,2,3" for at in range(size)), "commit"]
    for _ in range(200):
        yield from ["mark", f"insert {chance.randrange(size)}v1 A=3", "changed", "added"]


@work()
def bigframe(size, chance):
    """All commands are one frame, with inserts on what it spawned before; then it is undone and redone five times."""
    yield from [*KINDS, "begin"]
    live = 0
    for at in range(size):
        sort = chance.random()
        if sort < 0.6 or live < 4:
            yield spawned(at, chance)
            live += 1
        else:
            yield f"insert +{chance.randrange(live)} " + (f"B={at}" if sort < 0.8 else f"V=1,2,{at}")
    yield from ["commit"] + ["undo", "redo"] * 5 + ["mark"]


@work()
def refused(size, chance):
    """A frame of as many commands as there are entities is refused at its last one, and then ten of one command are."""
    yield from ["kind A Int", "begin", *(f"spawn A={at}" for at in range(size)), "commit", "begin"]
    yield from (f"insert {at}v1 A=3" for at in range(size))
    yield from ["insert 4000000000v1 A=1", "commit"] + ["despawn 4000000000v1"] * 10 + ["mark"]


@work(100_000)
def cycle(size, chance):
    """A chain is made from its top on; a hundred cycles are refused at its end, and a hundred moves there made."""
    yield from ["kind T Tag", "begin", *["spawn T"] * size, "commit"]
    yield from (f"parent {at}v1 {at - 1}v1" for at in range(1, size))
    yield from [f"parent 0v1 {size - 1}v1"] * 100
    yield from [f"parent {size - 1}v1 {size - 3}v1", f"parent {size - 1}v1 {size - 2}v1"] * 50
    yield "mark"


@work(300_000)
def chain_up(size, chance):
    """A chain is made from its bottom on, so that each child has all those below it; it is despawned as a whole, and comes back."""
    yield from ["kind T Tag", "begin", *["spawn T"] * size, "commit"]
    yield from (f"parent {at}v1 {at + 1}v1" for at in range(size - 1))
    yield from [f"despawnall {size - 1}v1", "undo", "mark"]


@work(100_000)
def archetypes(size, chance):
    """Spawns over 64 kinds, so of very many archetypes, and a show."""
    yield from (f"kind K{kind} Int" for kind in range(64))
    for at in range(size):
        kinds = sorted(chance.sample(range(64), chance.randint(1, 5)))
        yield "spawn " + " ".join(f"K{kind}={at}" for kind in kinds)
    yield "show"


@work(100_000)
def shows(size, chance):
    """Rows that are shown five times."""
    yield from [*KINDS, "begin", *(spawned(at, chance) for at in range(size)), "commit"] + ["show"] * 5


def write(name, size):
    written, most = WORKS[name]
    size = min(size, most)
    text = "\n".join(written(size, random.Random(f"{name} {size}"))) + "\n"
    if len(text) <= LONGEST:
        (given.folder / f"{name}.{size}.txt").write_text(text)


words = argparse.ArgumentParser()
words.add_argument("--works", default=",".join(WORKS))
words.add_argument("--program")
words.add_argument("folder", type=pathlib.Path)
words.add_argument("sizes", type=int, nargs="+")
given = words.parse_args()
given.folder.mkdir(parents=True, exist_ok=True)
for name in given.works.split(","):
    if name != "load2" or given.program:
        for size in given.sizes:
            write(name, size)
