"""What try_scene.py tries over the library alone: columns, many entities in one call, threads, and that the package
knows all of scene.h."""
from __future__ import annotations

import ctypes
import inspect
import re
import threading
from functools import partial
from typing import Any, Callable, Dict, List, Tuple

from scene import AddInt, BadLine, Calls, Closed, Entity, OtherThread
from scene import handle, header
from scene.library import LibraryScene, Moment
from scene.raw_deltas import LAYOUT
from trying import KINDS, TOP, UNUSUAL, Begin, error_of, is_bad, over_library, refusal, spawned, told


def some_rows(world: Calls) -> None:
    """A hundred entities of several tables, some written twice, and one that is gone."""
    with world.frame():
        for number in range(100):
            cells: Dict[str, Any] = {"Health": number, "At": (number, -number, 2**62)}
            if number % 3 == 0:
                cells["Target"] = Entity(f"{number // 3}v1")
            if number % 5 == 0:
                cells.update(Name=f"number {number}", Hidden=True)
            world.spawn(**cells)
    world.insert("3v1", Health=-(2**63))
    world.insert("4v1", Name="four")
    world.despawn("7v1")


def numbers_of(column: Any) -> List[int]:
    """The numbers of 64 bits of a column, as a buffer has them."""
    return memoryview(column).cast("B").cast("q").tolist()


def columns(begin: Begin) -> None:
    """The columns of all tables have what the rows have, in their order, and are buffers."""
    with begin() as begun:
        world = over_library(begun)
        assert world.tables() == [] and len(world.entities(3)) == 0
        some_rows(world)
        rows, place = world.rows(), 0
        # (the one reads columns, the other each component by itself)
        assert rows == [world.row(row.entity) for row in rows]
        for mask, count in world.tables():
            named = [f"{each.index}v{each.generation}" for each in world.entities(mask)]
            here = rows[place : place + count]
            place += count
            assert named == [row.entity for row in here] and world.kinds_of(mask) == list(here[0].cells)
            for kind in world.kinds_of(mask):
                cells = [row.cells[kind] for row in here]
                assert list(world.added_ticks(mask, kind)) == [cell.added for cell in cells]
                assert list(world.changed_ticks(mask, kind)) == [cell.changed for cell in cells]
                compare_column(world, mask, kind, [cell.value for cell in cells])
        assert place == len(rows) == 99
        with_both = [mask for mask, _ in world.tables() if {"Name", "Target"} <= set(world.kinds_of(mask))]
        assert [mask for mask, _ in world.tables("Name", "Target")] == with_both != []
        assert {mask for mask, _ in world.tables("Health", without=["Name"])} | {
            mask for mask, _ in world.tables("Health", "Name")
        } == {mask for mask, _ in world.tables()}
        mask = world.tables("Health", without=["Name", "Target"])[0][0]
        assert is_bad(world.column, mask, "Target") and is_bad(world.column, mask, "Nothing")
        assert is_bad(world.changed_ticks, mask, "Name") and is_bad(world.tables, "Nothing")
        assert len(world.entities(1 << 40)) == 0


def compare_column(world: LibraryScene, mask: int, kind: str, values: List[Any]) -> None:
    """A column has these values; one that is none of numbers isn't given."""
    if kind in ("Name", "Hidden"):
        error_of(TypeError, world.column, mask, kind)
        if kind == "Name":
            assert world.texts(mask, kind) == values
        else:
            error_of(TypeError, world.texts, mask, kind)
        return
    column = world.column(mask, kind)
    if kind == "Health":
        assert list(column) == numbers_of(column) == values
    elif kind == "At":
        assert numbers_of(column) == [number for value in values for number in value]
        assert (column[0].x, column[0].y, column[0].z) == values[0]
    else:
        pairs = memoryview(column).cast("B").cast("I").tolist()
        assert pairs == [part for value in values for part in (value.index, value.generation)]


def columns_of_texts(begin: Begin) -> None:
    """A column of texts has any characters, of any length, in the order of the rows, also where they are many; each of
    them is whole."""
    with begin() as begun:
        world = over_library(begun)
        assert world.texts(1, "Name") == [] and is_bad(world.texts, 2, "Name") and is_bad(world.texts, 1, "Nothing")
        error_of(TypeError, world.texts, 2, "Health")
        texts: List[str] = list(map(str, UNUSUAL))
        # (they are read 1,024 at once, and 65,536 bytes of them: what just fits, and what just doesn't)
        for lengths in ((1,) * 2000, (65_536, 65_535, 1), (65_537, 0, 32_768, 32_769), (1_000_000, 3), (300,) * 500):
            texts += ["\u00e9" * (length // 2) + "a" * (length % 2) for length in lengths]
            with world.frame():
                for text in texts[sum(rows for _, rows in world.tables("Name")) :]:
                    world.spawn(Name=text)
            assert world.texts(1, "Name") == texts, lengths
        with world.frame():
            for number in range(100):
                world.spawn(Name=f"number {number}", Health=number)
            assert world.texts(1, "Name") == texts and world.texts(3, "Name") == []
        assert world.texts(3, "Name") == [f"number {number}" for number in range(100)]
        assert [cell.value for cell in (row.cells["Name"] for row in world.rows())] == texts + world.texts(3, "Name")
        world.close()
        assert "closed" in str(error_of(Closed, world.texts, 1, "Name"))


def buffers(begin: Begin) -> None:
    """A column is memory of its own: a view on it is no copy, and what is written there isn't the scene's. numpy takes
    it, where numpy is there."""
    with begin() as begun:
        world = over_library(begun)
        some_rows(world)
        mask = world.tables("Health", without=["Name", "Target"])[0][0]
        column = world.column(mask, "At")
        view = memoryview(column).cast("B").cast("q")
        assert ctypes.addressof((ctypes.c_char * view.nbytes).from_buffer(view)) == ctypes.addressof(column)
        before = world.rows()
        view[0] += 1
        assert column[0].x == view[0] and world.rows() == before and world.column(mask, "At")[0].x == view[0] - 1
        world.close()
        assert column[1].z == 2**62
        try:
            import numpy  # type: ignore  # pylint: disable=import-outside-toplevel
        except ImportError:
            return
        taken = numpy.frombuffer(column, "i8").reshape(-1, 3)
        assert taken.ctypes.data == ctypes.addressof(column) and taken[1].tolist() == [column[1].x, column[1].y, 2**62]


def many_entities(begin: Begin) -> None:
    """One call reads a kind of many entities, also of some that haven't it or aren't alive."""
    with begin() as begun:
        world = over_library(begun)
        some_rows(world)
        asked = [f"{number % 120}v{1 + number % 7 // 6}" for number in range(0, 1000, 3)]
        for kind in KINDS:
            wanted = [world.row(one).values().get(kind) if world.is_alive(one) else None for one in asked]
            assert world.values(asked, kind) == world.values(world.packed(asked), kind) == wanted, kind
            shapes = [each.shape for each in world.gather(asked, kind)]
            assert [shape == header.ABSENT for shape in shapes] == [value is None for value in wanted], kind
        cells = world.gather(world.entities(world.tables()[0][0]), "Health")
        column = world.column(world.tables()[0][0], "Health")
        assert memoryview(cells).cast("B").cast("q")[1::4].tolist() == list(column)
        assert world.values([], "Health") == [] and world.values(["0v0"], "Health") == [None]
        assert all(isinstance(value, Entity) for value in world.values(asked, "Target") if value is not None)
        assert is_bad(world.values, asked, "Nothing") and is_bad(world.gather, ["cat"], "Health")
        error_of(TypeError, world.values, [7], "Health")


def own_reads_in_frames(begin: Begin) -> None:
    """What a shell has no place for goes in an open frame, and tells the scene as it was before it."""
    with begin() as begun:
        world = over_library(begun)
        some_rows(world)
        mask, moment = world.tables()[0][0], world.now()
        before = list(world.column(mask, "Health")), world.tables(), world.values(["3v1"], "Health")
        assert not world.in_frame and world.depth == 2**20
        with world.frame():
            world.insert("0v1", Health=77)
            world.insert("3v1", Health=77)
            world.spawn(Health=77)
            assert world.in_frame
            assert (list(world.column(mask, "Health")), world.tables(), world.values(["3v1"], "Health")) == before
            assert world.now() == moment and world.changed_since(moment) == []
        assert not world.in_frame and ("3v1", "Health") in world.changed_since(moment)


def reasons_of_reads(begin: Begin) -> None:
    """A bad read tells of itself, and not of a bad line before it."""
    with begin() as begun:
        world = over_library(begun)
        some_rows(world)
        assert is_bad(world.line, "jump")
        assert "jump" not in str(error_of(BadLine, world.column, 1 << 40, "Health"))


def resources_by_calls(begin: Begin) -> None:
    """A name that is no text tells of itself, and not of a bad line before it; and a text may have any characters."""
    with begin() as begun:
        world = over_library(begun)
        for call in (lambda: world.put("\ud800", 1), lambda: world.put("\ud800", "a"), lambda: world.drop("\ud800")):
            assert is_bad(world.line, "jump")
            bad = str(error_of(BadLine, call))
            assert "name of a resource" in bad and "jump" not in bad
        for text in UNUSUAL:
            world.put("text", text, "Text")
            assert world.resource("text") == text and not isinstance(world.resource("text"), Entity)
        before = world.save()
        for name in ("", "a b", "\0", "a" * 33, "\u65e5"):
            assert refusal(world.put, name, "a").name == refusal(world.put, name, 1).name == "BadName"
        assert world.save() == before


def advances_that_are_refused(begin: Begin) -> None:
    """A refused advance tells the row that overflows, and is one call of the history."""
    with begin() as begun:
        world = over_library(begun)
        world.line("calls 3")
        most = spawned(world, Health=2**63 - 1)
        world.add_system("age", AddInt("Health", 1), need=["Health"])
        before = world.save()
        for calls in (2, 3):
            assert told(refusal(world.advance)) == (14, "Overflow", [most], (0, 0, 0))
            assert world.request("history")["calls"] == calls
        assert told(refusal(world.advance)) == (17, "HistoryFull", ["3"], None)
        assert world.save() == before


def calls_of(world: LibraryScene) -> List[Tuple[str, Callable[[], Any]]]:
    """All calls of a scene over the library, each with words that it takes."""
    words: Dict[str, Tuple[Any, ...]] = {
        **dict.fromkeys(("insert", "despawn", "despawn_all", "get", "cells", "row", "is_alive", "parent_of"), ("0v1",)),
        **dict.fromkeys(("children_of",), ("0v1",)),
        **dict.fromkeys(("set_parent", "parent"), ("0v1", "1v1")),
        **dict.fromkeys(("changed_since", "added_since"), (Moment(0, 0),)),
        **dict.fromkeys(("column", "added_ticks", "changed_ticks"), (2, "Health")),
        **dict.fromkeys(("gather", "values"), (["0v1"], "Health")),
        "line": ("show",),
        "play": (b"show",),
        "request": ("show",),
        "load": ("{}",),
        "declare": ("A", "Tag"),
        "shape_of": ("Health",),
        "remove": ("0v1", "Health"),
        "put": ("left", 1),
        "drop": ("left",),
        "resource": ("left",),
        "add_system": ("age",),
        "entities": (2,),
        "texts": (1, "Name"),
        "insert_all": (["0v1"],),
        "set_depth": (5,),
    }
    aside = {"frame", "packed", "kinds_of", "version", "depth", "in_frame"}
    names = [name for name, _ in inspect.getmembers(LibraryScene) if not name.startswith("_") and name not in aside]
    calls: List[Tuple[str, Callable[[], Any]]] = [
        *((name, partial(lambda name: getattr(world, name)(*words.get(name, ())), name)) for name in names),
        *((name, partial(getattr, world, name)) for name in ("depth", "in_frame")),
    ]
    return [*calls, ("frame", lambda: world.frame().__enter__()), ("insert", lambda: world.insert("0v1", Health=1))]


def other_threads(begin: Begin) -> None:
    """Each call from another thread is an `OtherThread`, and nothing is called by it."""
    with begin() as begun:
        world = over_library(begun)
        spawned(world, Health=1)
        world.put("left", 1)
        before = world.save(), world.line("history"), world.now()
        came: Dict[str, Any] = {}

        def play() -> None:
            for name, call in calls_of(world):
                try:
                    came[name] = call()
                except Exception as error:  # pylint: disable=broad-except
                    came[name] = error

        other = threading.Thread(target=play)
        other.start()
        other.join()
        # (an insert without components has nothing to do)
        wrong = {name: one for name, one in came.items() if not isinstance(one, OtherThread)}
        assert not wrong and len(came) > 45, wrong
        assert isinstance(came["show"], RuntimeError)
        assert (world.save(), world.line("history"), world.now()) == before and not world.in_frame
        assert world.get("0v1", "Health") == 1


def frames_of_other_threads(begin: Begin) -> None:
    """An open frame isn't touched by another thread either, and is done by its own."""
    with begin() as begun:
        world = over_library(begun)
        came: List[str] = []

        def play() -> None:
            came.append(str(error_of(OtherThread, world.spawn, Health=2)))
            came.append(str(error_of(OtherThread, world.drop_frame)))
            came.append(str(error_of(OtherThread, world.rows)))
            came.append(str(error_of(OtherThread, world.undo, 2)))

        with world.frame() as made:
            world.spawn(Health=1)
            other = threading.Thread(target=play)
            other.start()
            other.join()
        assert made == ["0v1"] and len(came) == 4 and world.get("0v1", "Health") == 1


LIBRARY = (
    columns,
    columns_of_texts,
    buffers,
    many_entities,
    own_reads_in_frames,
    reasons_of_reads,
    resources_by_calls,
    advances_that_are_refused,
    other_threads,
    frames_of_other_threads,
)


# ---- the package beside scene.h


def header_is_whole(library: str) -> None:
    """The package has each call of scene.h that it uses with as many arguments, each structure with its fields, and
    each code, shape, way and change with its number."""
    text = re.sub(r"/\*.*?\*/", "", (TOP / "include/scene.h").read_text(), flags=re.DOTALL)
    calls = {name: taken.count(",") for name, taken in re.findall(r"scene_code scene_(\w+)\(([^)]*)\);", text)}
    assert len(calls) > 50 and calls.pop("open") == 0
    own = {name: len(takes) for name, takes in header.TAKES.items()}
    # (those that the package does without)
    unused = {"kind_named", "with", "with_text", "spawn", "save"}
    assert {name: count for name, count in calls.items() if name not in unused} == own and unused < set(calls)
    structures = re.findall(r"typedef struct (?:\w+ )?\{(.*?)\} scene_(\w+);", text, re.DOTALL)
    names = {"tick_pair": "Ticks"}
    for body, name in structures:
        wanted = [
            (field, kind) for kind, fields in re.findall(r"(\w+) ([\w, ]+);", body) for field in fields.split(", ")
        ]
        found = getattr(header, f"Raw{names.get(name, name.title())}")._fields_
        assert [(field, width(kind)) for field, kind in wanted] == [(each[0], ctypes.sizeof(each[1])) for each in found]
    assert len(structures) == 10 and ctypes.sizeof(header.RawDelta) == LAYOUT.size
    numbered = re.findall(r"SCENE_(\w+) = (\d)", text)
    assert len(numbered) == 22 and {(name, str(getattr(header, name))) for name, _ in numbered} == set(numbered)
    one = handle.Library(library)
    one.close()
    assert one.call("undo") == header.CLOSED


def width(kind: str) -> int:
    """The width in bytes of a type of scene.h."""
    widths = {"scene_entity": ctypes.sizeof(header.RawEntity), "scene_cell": ctypes.sizeof(header.RawCell)}
    return widths.get(kind, 4 if kind == "uint32_t" else 8)
