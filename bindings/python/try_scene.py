#!/usr/bin/env -S python3 -B
"""Tries the Python scenes: bindings/python/try_scene.py [PROGRAM].

The same is tried over the program's shell and, where the variable SCENE_LIB_DIR names a folder with libscene.so, over
that; there lines.py plays all examples too. The last line counts what was tried, and the status is 0 only where all is
as it has to be.
"""
import json
import logging
import os
import pickle
import re
import signal
import subprocess
import sys
import tempfile
import textwrap
import threading
import traceback
from contextlib import contextmanager, suppress
from pathlib import Path
from typing import Any, Callable, Dict, Iterator, List, Optional, Tuple

import scene
import tried_calls
import tried_questions
import tried_sending
import tried_settings
import tried_steps
import tried_writes
from scene import BadLine, Calls, Closed, Ended, Entity, KindsDiffer, Refused, StoreError
from trying import KINDS, TOP, UNUSUAL, Begin, error_of, is_bad, is_set_up, refusal, spawned, to_come, told, wrapped

PROGRAM = str(TOP / "crates/scene/out/scene")
EXAMPLES = TOP / "examples"


def commands(begin: Begin) -> None:
    with begin() as world:
        cat = spawned(world, Name="cat", Health=9)
        dog = spawned(world, Name="dog", At=(1, -2, 3), Hidden=True)
        assert (cat, dog) == ("0v1", "1v1")
        world.insert(cat, Health=5)
        assert world.get(cat) == 'row 0v1 Name="cat"@1/1 Health=5@1/3'
        world.undo()
        assert world.get(cat) == 'row 0v1 Name="cat"@1/1 Health=9@1/1'
        world.redo()
        before = world.show()
        assert told(refusal(world.insert, "7v9", Health=1)) == (1, "NoSuchEntity", [], (0, 0, 0))
        assert world.show() == before
        assert is_bad(world.line, "jump")
        assert world.show() == before
        world.insert(dog, Target=cat, Health=1)
        world.set_parent(dog, cat)
        assert refusal(world.set_parent, cat, dog).name == "Cycle"
        world.remove(dog, "Hidden")
        assert refusal(world.remove, dog, "Hidden").name == "NotPresent"
        world.set_parent(dog, None)
        assert told(refusal(world.parent, dog, None)) == (9, "NoParent", [], (0, 0, 0))
        world.parent(dog, cat)
        before = world.show()
        assert told(refusal(world.despawn, cat)) == (2, "HasChildren", [], (0, 0, 0))
        assert world.show() == before
        world.despawn_all(cat)
        assert refusal(world.get, cat).name == refusal(world.get, dog).name == "NoSuchEntity"
        assert not world.rows()
        assert world.spawn() == "0v2"


def frames(begin: Begin) -> None:
    with begin() as world:
        cat = spawned(world, Name="cat", Health=9)
        before = world.show()
        with world.frame() as made:
            world.spawn(Name="bird")
            world.parent("+0", cat)
            world.spawn(Name="egg")
            world.set_parent("+1", "+0")
            world.insert("+1", At=(1, 2, 3))
        assert made == ["1v1", "2v1"] and isinstance(made[0], Entity)
        assert world.get(made[1], "At") == (1, 2, 3)
        world.undo()
        assert world.show() == before
        refused: Optional[Refused] = None
        try:
            with world.frame():
                world.spawn(Name="bird")
                world.insert("+1", Health=1)
        except Refused as error:
            refused = error
        assert refused is not None and told(refused) == (12, "BadLocal", [], (0, 0, 1))
        assert world.show() == before


def frames_name_what_they_spawn(begin: Begin) -> None:
    with begin() as world:
        cat = spawned(world, Name="cat")
        with world.frame() as made:
            bird, egg = to_come(world, Name="bird"), to_come(world, Name="egg")
            world.set_parent(egg, bird)
            world.parent(bird, cat)
            world.insert(egg, Health=1)
            assert bird.entity is None and is_bad(world.insert, cat, Target=bird)
            world.line("spawn Name=nest")
            world.insert(to_come(world, Name="worm"), Health=2)
            world.line("queue")
            assert is_bad(world.despawn, egg)
            leaf = to_come(world, Name="leaf")
            world.insert(leaf, Health=3)
        assert made == [bird.entity, egg.entity, "3v1", "4v1", leaf.entity]
        assert [world.row(each).values().get("Health") for each in made] == [None, 1, None, 2, 3]
        world.insert(cat, Target=egg)
        assert world.get(cat, "Target") == egg.entity == "2v1"
        world.set_parent(egg, None)
        assert refusal(world.set_parent, egg, None).name == "NoParent"
        with suppress(Refused), world.frame():
            lost = to_come(world, Name="bird")
            world.insert("+1", Health=1)
        assert lost.entity is None and is_bad(world.despawn, lost) and is_bad(world.get, lost)
        with world.frame():
            left = to_come(world, Name="bird")
            world.line("commit")
            assert is_bad(world.despawn, left)
            world.line("begin")
            assert world.spawn(Name="bird") is None and is_bad(world.despawn, left)


def frames_that_fail(begin: Begin) -> None:
    """An error in a frame drops it, and none is open then."""
    with begin() as world:
        cat = spawned(world, Name="cat")
        before = world.show()
        for fail in (lambda: 1 // 0, lambda: world.spawn(Nobody=1), world.undo, lambda: world.line("begin")):
            try:
                with world.frame():
                    world.spawn(Name="bird")
                    fail()
                raise AssertionError("no error came out")
            except (ZeroDivisionError, BadLine):
                pass
            assert world.show() == before
        with world.frame() as made:
            for call in (world.undo, world.redo, world.show, world.rows, world.mark, world.changed, world.save):
                assert is_bad(call), call
            assert is_bad(world.get, cat) and is_bad(world.get, cat, "Name")
        assert made == []


def reads(begin: Begin) -> None:
    with begin() as world:
        cat = spawned(world, Name='a"b\\c', Health=-5, At=[1, -2, 3], Hidden=True, Target="7v9")
        values = {"Name": 'a"b\\c', "Health": -5, "At": (1, -2, 3), "Hidden": True, "Target": "7v9"}
        for kind, value in values.items():
            assert world.get(cat, kind) == value, kind
        assert isinstance(world.get(cat, "Target"), Entity) and world.get(cat, "Hidden") is True
        world.insert(cat, Health=2**63 - 1)
        lamp = spawned(world)
        assert world.row(cat).values() == {**values, "Health": 2**63 - 1}
        assert world.row(cat).cells["Health"] == (2**63 - 1, 1, 2)
        assert [row.entity for row in world.rows()] == [lamp, cat]
        assert world.rows()[1] == world.row(cat) and world.rows()[0].cells == {}
        assert told(refusal(world.get, lamp, "Name")) == (3, "NotPresent", [], None)
        assert "Nothing" in str(error_of(BadLine, world.get, lamp, "Nothing"))
        assert told(refusal(world.get, "7v9", "Name")) == (1, "NoSuchEntity", [], None)
        assert is_bad(world.get, "7", "Name") and is_bad(world.get, "+0", "Name")
        assert (cat.index, cat.generation) == (0, 1)


def bad_values(begin: Begin) -> None:
    """What no line says is bad over both, and leaves nothing behind."""
    bad: List[Dict[str, Any]] = [
        *(
            {"Health": value}
            for value in ("five", "", "05", "-0", "\u0665", 2**63, -(2**63) - 1, 10**5000, "1" * 5000)
        ),
        *({"At": value} for value in ((1, 2), (1, 2, 3, 4), "1,2", "1,2,x", (1, 2, 2**63), ())),
        *({"Target": value} for value in ("cat", "", "4294967296v1", "+0", "0v01")),
        *({name: True} for name in ("Nothing", "Nothing=1", "no kind", "")),
        {"Name": "\ud800"},
    ]
    with begin() as world:
        cat = spawned(world, Health="5", At="1,2,3", Name=7)
        assert world.row(cat).values() == {"Name": "7", "Health": 5, "At": (1, 2, 3)}
        before = world.show()
        for cells in bad:
            for call in (world.spawn, lambda **cells: world.insert(cat, **cells)):
                words = str(error_of(BadLine, call, **{"Hidden": True, **cells}))
                assert all(name in words for name in cells), words
        for entity in ("", "0", "v", "00v1", "0v1v1", "+", "+-1", "0v4294967296", "0v1 A=1", "-1v1"):
            for command in (world.despawn, world.despawn_all, world.get, lambda it: world.insert(it, Health=1)):
                assert is_bad(command, entity), entity
            assert is_bad(world.set_parent, entity, cat) and is_bad(world.set_parent, cat, entity), entity
        assert "Nothing" in str(error_of(BadLine, world.remove, cat, "Nothing"))
        assert world.show() == before
        assert refusal(world.insert, "0v0", Health=1).name == refusal(world.despawn, "0v0").name == "NoSuchEntity"
        assert world.spawn() == "1v1"


def wrong_types(begin: Begin) -> None:
    """A value of a type that no value of its kind has is a TypeError, which names the kind."""
    wrong = {
        "Health": (None, 1.5, True, False, (1, 2, 3), b"5"),
        "At": (None, 1.5, True, 5, (1, 2.0, 3), (1, True, 3), (None, 2, 3), b"abc", {1: 1, 2: 2, 3: 3}),
        "Hidden": (None, 1.5, False, 1, "", "True"),
        "Name": (None, 1.5, True, False, (1, 2, 3), b"cat"),
        "Target": (None, 1.5, True, 7, (0, 1)),
    }
    with begin() as world:
        cat = spawned(world, Health=5)
        before = world.show()
        for name, values in wrong.items():
            for value in values:
                for call in (world.spawn, lambda **cells: world.insert(cat, **cells)):
                    assert name in str(error_of(TypeError, call, **{name: value})), (name, value)
        for entity in (None, 7, 1.5, b"0v1"):
            calls = (world.get, world.despawn, world.despawn_all, lambda it: world.insert(it, Health=1))
            for command in (*calls, lambda it: world.remove(it, "Health"), lambda it: world.set_parent(it, cat)):
                assert repr(entity) in str(error_of(TypeError, command, entity))
        for command in (world.shape_of, lambda it: world.remove(cat, it), lambda it: world.declare(it, "Tag")):
            error_of(TypeError, command, None)
        error_of(TypeError, world.insert, cat, Health=6, Name=None)
        assert world.show() == before


def names_of_kinds(begin: Begin) -> None:
    """A kind may have the name of a parameter, and tells its shape."""
    names = {"entity": "Int", "self": "Tag", "cells": "Text", "value": "Vec3", "name": "Link"}
    with begin(names) as world:
        row = spawned(world, entity=1, self=True)
        world.insert(row, entity=2, cells="a", value=(1, 2, 3), name=row)
        assert world.row(row).values() == {"entity": 2, "self": True, "cells": "a", "value": (1, 2, 3), "name": row}
        with world.frame():
            assert {name: world.shape_of(name) for name in names} == names
            assert world.shape_of("Entity") is None and world.shape_of("no kind") is None
    for asked, number in (({"9": "Tag"}, 30), ({"a b": "Tag"}, 30), ({"Health": "Float"}, None)):
        error = error_of(KindsDiffer, begin, asked)
        assert error.number == number and [*asked][0] in str(error), error
    for wrong in ({"Health": int}, {"Health": None}, {5: "Int"}, ["Health"], 5):
        error_of(TypeError, begin, wrong)
    with begin({}) as world:
        assert is_bad(world.declare, "Health", "Float")
        world.declare("Health", "Int")
        assert world.shape_of("Health") == "Int"


def texts(begin: Begin) -> None:
    with begin() as world:
        for text in UNUSUAL:
            entity = spawned(world, Name=text)
            assert world.get(entity, "Name") == text, repr(text)
            world.insert(entity, Name=text)
            assert world.row(entity).cells["Name"].value == text, repr(text)
        assert len(world.rows()) == len(UNUSUAL)


def texts_with_spaces(begin: Begin) -> None:
    """A text has any characters."""
    with begin() as world:
        for text in (" ", "two words", "\n", "a\r\nb\n", " row 0v1 A=1@1/1"):
            entity = spawned(world, Name=text)
            assert world.get(entity, "Name") == text == world.row(entity).cells["Name"].value, repr(text)
        long = "a long text\u00e9 " * 100_000
        entity = spawned(world, Name=long)
        assert world.get(entity, "Name") == long
        with begin({}) as other:
            other.load(world.save())
            assert other.rows() == world.rows()


def undo_and_redo(begin: Begin) -> None:
    with begin() as world:
        shown = [world.show()]
        cat = spawned(world, Name="cat")
        shown.append(world.show())
        world.insert(cat, Health=9)
        shown.append(world.show())
        world.despawn(cat)
        shown.append(world.show())
        for text in shown[-2::-1]:
            world.undo()
            assert world.show() == text
        assert told(refusal(world.undo)) == (15, "NothingToUndo", [], None)
        for text in shown[1:]:
            world.redo()
            assert world.show() == text
        assert told(refusal(world.redo)) == (16, "NothingToRedo", [], None)


def changes(begin: Begin) -> None:
    with begin() as world:
        cat = spawned(world, Name="cat", Health=9)
        assert world.changed() == [(cat, "Name"), (cat, "Health")]
        world.mark()
        assert not world.changed()
        dog = spawned(world, Name="dog")
        world.insert(cat, Health=9)
        assert world.changed() == [(dog, "Name"), (cat, "Health")]
        world.undo()
        assert told(refusal(world.changed)) == (18, "Rewound", ["1"], None)


def full_histories(begin: Begin) -> None:
    """The fields of a refusal are told also where a call has no text."""
    with begin() as world:
        world.line("calls 2")
        cat = spawned(world)
        world.undo()
        for call in (world.undo, world.redo, world.spawn, lambda: world.insert(cat, Health=1)):
            assert told(refusal(call)) == (17, "HistoryFull", ["2"], None)


def saves(begin: Begin) -> None:
    with begin() as world:
        cat = spawned(world, Name="cat", Health=9)
        world.insert(cat, Health=5)
        world.undo()
        saved = world.save()
        with begin({}) as other:
            other.load(json.dumps(json.loads(saved), indent=1) + "\r\n")
            assert other.save() == saved and other.show() == world.show()
            other.redo()
            assert other.get(cat, "Health") == 5
            assert is_set_up(other)
            assert other.spawn(Name="dog", Target=cat) == "1v1"
        with begin({}) as other:
            other.line(f"load {saved}")
            other.insert(cat, Name="cow")
        with begin({}) as other:
            other.declare("Health", "Int")
            assert told(refusal(other.declare, "Health", "Int")) == (31, "KindTaken", [], None)
            assert told(refusal(other.load, "{")) == (50, "NotJson", [], None)
            assert told(refusal(other.load, '{"scene":1,"a at 1.2.3":0}')) == (51, "UnknownKey", ['"a at 1.2.3"'], None)
            assert told(refusal(other.load, '"a\nb"')) == (50, "NotJson", [], None)
            other.spawn(Health=1)


def threads(begin: Begin) -> None:
    """Each thread can have a scene of its own."""
    came: List[str] = []

    def play(count: int) -> None:
        with begin() as world:
            for number in range(count):
                world.spawn(Health=number)
            came.append(f"{len(world.rows())} of {count}")

    running = [threading.Thread(target=play, args=(count,)) for count in (50, 100, 150)]
    for thread in running:
        thread.start()
    for thread in running:
        thread.join()
    assert sorted(came) == ["100 of 100", "150 of 150", "50 of 50"], came


def closes(begin: Begin) -> None:
    """A closed scene takes nothing more."""
    world = begin()
    world.spawn()
    world.close()
    for call in (world.spawn, lambda: world.spawn(Health=1), world.show, lambda: world.get("0v1", "Name")):
        assert "closed" in str(error_of(Closed, call))
    world.close()


def reasons(begin: Begin) -> None:
    """A bad line tells why it is bad."""
    with begin() as world:
        assert str(error_of(BadLine, world.line, "jump")) == "no command is named jump"
        assert str(error_of(BadLine, world.line, "get 7")) == "`7` is no entity, as 0v1"
        world.show()
        assert is_set_up(world)
        with world.frame():
            assert str(error_of(BadLine, world.undo)).startswith("a frame is open")
            long = "x" * 300_000
            assert long in str(error_of(BadLine, world.line, f"{long} {long}"))
            world.spawn(Health=1)
        assert len(world.rows()) == 1


def refused_lines(begin: Begin) -> None:
    """What is refused is told also of a line that asks."""
    with begin() as world:
        for line in ("get 7v9", "despawn 7v9"):
            assert refusal(world.line, line).name == "NoSuchEntity"
        assert refusal(world.get, "7v9").number == 1


def names_of_faults(library: str) -> None:
    """The library has the name of each fault that a scene can have, and its version is that of VERSION."""
    from scene.library import Library

    known = re.findall(r"^- (\d+) (\w+)", (TOP / "docs/MODEL.md").read_text(), re.MULTILINE)
    names = {int(number): name for number, name in known if int(number) < 60}
    scene_of = Library(library)
    assert len(names) > 30 and names[1] == "NoSuchEntity"
    for number in (*range(300), 2**32 - 1):
        assert scene_of.fault_name(number) == names.get(number, ""), number
    version = (TOP / "VERSION").read_text().split()[1]
    assert ".".join(map(str, scene_of.version)) == version
    scene_of.close()


def stores(program: str) -> None:
    """What a scene has done is there when its store is opened again, and one of two that open it at once is refused."""
    with tempfile.TemporaryDirectory() as room:
        path = f"{room}/level.db"
        with scene.Scene(path, KINDS, program) as world:
            cat = spawned(world, Name="cat", Health=9)
            world.insert(cat, Health=5)
            shown = world.show()
            for kinds_asked in (KINDS, None):
                error = error_of(StoreError, scene.Scene, path, kinds_asked, program)
                assert (error.number, error.name, error.status) == (60, "StoreInUse", 3), error
            copy = pickle.loads(pickle.dumps(error))
            assert (copy.number, str(copy)) == (60, str(error))
        with scene.open(path, KINDS, program) as again:
            assert again.show() == shown
            again.undo()
            assert again.get(cat) == 'row 0v1 Name="cat"@1/1 Health=9@1/1'
            again.redo()
            again.undo(2)
            assert again.rows() == []
        with scene.open(path, KINDS, program) as again:
            assert again.status()[2:4] == (0, 2)
            again.redo(2)
            assert again.show() == shown
        Path(path).write_text("no store")
        assert error_of(StoreError, scene.open, path, KINDS, program).number == 61
        assert error_of(StoreError, scene.open, room, KINDS, program).number == 64
        assert error_of(Ended, scene.open, "", KINDS, program).status == 2


def kinds_of_stores(program: str) -> None:
    """Kinds that a store has are asked for again without a word, those that it lacks are declared, and those of other
    shapes are told and leave it as it was."""
    with tempfile.TemporaryDirectory() as room:
        path = f"{room}/level.db"
        with scene.open(path, {"Health": "Int"}, program):
            pass
        # It is still in its setup.
        differs = error_of(KindsDiffer, scene.open, path, {"Name": "Text", "Health": "Text"}, program)
        assert (differs.number, differs.name) == (31, "KindTaken") and "Health" in str(differs)
        with scene.open(path, KINDS, program) as world:
            assert {name: world.shape_of(name) for name in KINDS} == KINDS
            world.spawn(Health=1)
            shown = world.show()
        differs = error_of(KindsDiffer, scene.open, path, {"Name": "Text", "Health": "Text"}, program)
        assert (differs.number, differs.name) == (31, "KindTaken") and "Health" in str(differs)
        differs = error_of(KindsDiffer, scene.open, path, {"Late": "Tag", **KINDS, "Health": "Link"}, program)
        assert (differs.number, differs.name) == (31, "KindTaken") and "Health" in str(differs)
        differs = error_of(KindsDiffer, scene.open, path, {**KINDS, "a b": "Tag"}, program)
        assert (differs.number, differs.name) == (30, "BadName") and "a b" in str(differs)
        with scene.open(path, program=program) as world:
            assert world.show() == shown and world.shape_of("Late") is None
            assert "Helth" in str(error_of(BadLine, world.spawn, Helth=1))
            world.spawn(Health=2)
        with scene.open(path, {**KINDS, "Late": "Tag"}, program) as world:
            assert world.kinds() == {**KINDS, "Late": "Tag"} and len(world.rows()) == 2
            world.spawn(Late=True)
        with scene.open(path, program=program) as world:
            assert world.get("2v1", "Late") is True and list(world.kinds())[-1] == "Late"
        # A scene that is loaded brings its own kinds.
        with scene.open(kinds={"A": "Int"}, program=program) as world:
            text = world.line("dump")[0]
        with scene.open(kinds={"A": "Text", "B": "Text"}, program=program) as world:
            assert (world.shape_of("A"), world.shape_of("B")) == ("Text", "Text")
            world.load(text)
            assert (world.shape_of("A"), world.shape_of("B")) == ("Int", None)


def full_stores(program: str) -> None:
    """A store that can't grow ends the scene by its fault, which a `with` raises, and has what was answered."""
    # A file that passes a megabyte gives an error, and no signal.
    with wrapped(program, "trap '' XFSZ; ulimit -f 2048") as (limited, room):
        path, count = room / "level.db", 0

        def fill() -> None:
            nonlocal count
            with scene.open(path, KINDS, limited) as world:
                for count in range(100_000):
                    world.spawn(Name="a" * 50_000)

        error = error_of(StoreError, fill)
        assert error.number in (65, 66) and 0 < count < 1000, error
        with scene.open(path, KINDS, program) as world:
            assert len(world.rows()) in (count, count + 1)


def ended_programs(program: str) -> None:
    """A program that has ended is told by each call and by `with`, once, and hides no other error."""
    with wrapped(program, "echo $$ > pid") as (noted, room):

        def end(world: Calls) -> Calls:
            os.kill(int((room / "pid").read_text()), signal.SIGKILL)
            return world

        def leave(fail: Callable[[Calls], Any]) -> None:
            with scene.open(kinds=KINDS, program=noted) as world:
                fail(end(world))

        for call in (lambda world: world.spawn(Health=1), Calls.show, Calls.undo, lambda world: None):
            error = error_of(Ended, leave, call)
            assert error.status == -9 and error.number is None and not isinstance(error, StoreError), error
        error_of(ZeroDivisionError, leave, lambda world: 1 // 0)
        world = end(scene.open(kinds=KINDS, program=noted))
        error_of(Ended, world.show)
        error_of(Ended, world.show)
        world.close()
        error_of(Ended, end(scene.open(kinds=KINDS, program=noted)).close)
    error = error_of(Ended, scene.open, program=program, options=["--frobnicate"])
    assert error.status == 2 and "bad command line" in str(error), error
    error_of(FileNotFoundError, scene.open, program=f"{program}_that_is_not_there")


def interrupted_calls(program: str) -> None:
    """An answer that comes too late for its call isn't another one's: the program is ended."""
    with wrapped(program, "read line; echo; exec sleep 20") as (slow, _):

        def interrupt(number: int, frame: object) -> None:
            raise TimeoutError

        usual = signal.signal(signal.SIGALRM, interrupt)
        try:
            world = scene.open(program=slow)
            signal.setitimer(signal.ITIMER_REAL, 0.1)
            error_of(TimeoutError, world.show)
            assert error_of(Ended, world.show).status == -signal.SIGKILL
            world.close()
        finally:
            signal.signal(signal.SIGALRM, usual)


class Notes(logging.Handler):
    """What is logged."""

    def __init__(self) -> None:
        super().__init__()
        self.said: List[str] = []

    def emit(self, record: logging.LogRecord) -> None:
        self.said.append(record.getMessage())


def notes(program: str) -> None:
    """What the program says beside its answers goes to the log, where it is slow before its answer."""
    log, kept = logging.getLogger("scene"), Notes()
    log.addHandler(kept)
    log.propagate = False
    try:
        with wrapped(program, "echo 'scene: a note' >&2") as (talking, _):
            with scene.open(kinds=KINDS, program=talking) as world:
                assert is_bad(world.line, "jump") and kept.said == ["scene: a note"], kept.said
        with wrapped(program, "echo 'scene: another' >&2; sleep 3; echo 'scene: fault 66 DiskFault' >&2; exit 3 #") as (
            slow,
            _,
        ):
            error = error_of(StoreError, scene.open, kinds=KINDS, program=slow)
            assert str(error) == "fault 66 DiskFault" and kept.said[1:] == ["scene: another"], kept.said
    finally:
        log.removeHandler(kept)
        log.propagate = True


def examples_twice(program: str) -> None:
    """The examples of README.md and of the module run twice on the same store without a word on standard error."""
    codes = [code for code in fenced() if "library=" not in code]
    shown = re.search(r"\n((?:    .*\n)+)", str(scene.__doc__))
    assert len(codes) == 1 and shown is not None
    for code in (*codes, "import scene\n" + textwrap.dedent(shown[1])):
        with tempfile.TemporaryDirectory() as room:
            os.symlink(program, f"{room}/scene")
            for _ in range(2):
                run_example(code, room)
            with scene.open(f"{room}/level.db", program=program) as world:
                assert world.shape_of("Health") == "Int"


def library_example(library: str) -> None:
    """The examples of docs/BINDINGS.md and of the module for a library run without a word on standard error."""
    from scene import library as module

    codes = [code for code in fenced() if "library=" in code]
    shown = re.search(r"\n((?:    .*\n)+)", str(module.__doc__))
    assert len(codes) == 1 and shown is not None
    with tempfile.TemporaryDirectory() as room:
        os.symlink(Path(library).parent, f"{room}/FOLDER")
        assert run_example(codes[0], room) == ""
        said = run_example("from scene.library import LibraryScene\n" + textwrap.dedent(shown[1]), room)
        assert said == "[('0v1', 'At')] (1, 2, 3)\n1 15\n", said


def frames_example(library: str) -> None:
    """The example of an engine's loop finds that all is the same."""
    words = [sys.executable, "-B", "-W", "error", str(Path(__file__).with_name("examples") / "frames.py"), library]
    done = subprocess.run(words, stdout=subprocess.PIPE, stderr=subprocess.PIPE, check=False)
    assert (done.returncode, done.stderr) == (0, b""), (done.stdout + done.stderr).decode()
    assert len(done.stdout.splitlines()) == 4 and b"checksum 533421186486051598\n" in done.stdout, done.stdout.decode()


def all_files() -> None:
    """Every Python file of the repository is for the version that README.md names."""
    sys.path.append(str(TOP / "tools"))
    from python_version import faults

    found, count = faults()
    assert count and not found, found


def fenced() -> List[str]:
    """The examples in Python of README.md and docs/BINDINGS.md."""
    text = "".join((TOP / name).read_text() for name in ("README.md", "docs/BINDINGS.md"))
    return re.findall(r"```python\n(.*?)```", text, re.DOTALL)


def run_example(code: str, room: str) -> str:
    """Runs an example in a folder, which has to end well, without a word on standard error; and what it prints."""
    paths = {"PYTHONPATH": str(Path(__file__).parent), "PATH": f"{room}:{os.environ['PATH']}"}
    done = subprocess.run(
        [sys.executable, "-B", "-W", "error", "-c", code],
        cwd=room,
        env={**os.environ, **paths},
        stdout=subprocess.PIPE,
        stderr=subprocess.PIPE,
        check=False,
    )
    assert done.returncode == 0 and done.stderr == b"", done.stderr.decode()
    return done.stdout.decode()


def plays(library: str, name: str) -> None:
    """lines.py prints of an example what the program prints, and ends as it does."""
    script = (EXAMPLES / f"{name}.scene").read_bytes()
    words = [sys.executable, "-B", str(Path(__file__).with_name("lines.py")), library]
    done = subprocess.run(words, input=script, stdout=subprocess.PIPE, stderr=subprocess.PIPE, check=False)
    assert done.stdout == (EXAMPLES / f"{name}.out").read_bytes(), "other bytes"
    # The program tells of the first bad lines alone why they are bad.
    told = EXAMPLES / f"{name}.err"
    wanted = re.findall(r"^scene: (line \d+: .*)", told.read_text() if told.exists() else "", re.MULTILINE)
    found = re.findall(r"^lines: (line \d+: .*)", done.stderr.decode(), re.MULTILINE)
    assert found[: len(wanted)] == wanted, "other reasons"
    status = EXAMPLES / f"{name}.status"
    assert done.returncode == (int(status.read_text()) if status.exists() else 0), f"status {done.returncode}"


def is_run(name: str) -> bool:
    """Whether an example is a script that is run, and ends as a script can."""
    words = EXAMPLES / f"{name}.args"
    status = EXAMPLES / f"{name}.status"
    asked = words.read_text().split("\n")[:-1] if words.exists() else ["run"]
    ends = int(status.read_text()) if status.exists() else 0
    return asked[:1] == ["run"] and not {"--help", "-h"} & set(asked) and ends < 2


@contextmanager
def quiet() -> Iterator[List[str]]:
    """Keeps back what is said on standard error, where nothing should be: the list then has it."""
    said: List[str] = []
    sys.stderr.flush()
    usual = os.dup(2)
    with tempfile.TemporaryFile() as kept:
        os.dup2(kept.fileno(), 2)
        try:
            yield said
        finally:
            os.dup2(usual, 2)
            os.close(usual)
            kept.seek(0)
            said.append(kept.read().decode())


BOTH = (
    commands,
    frames,
    frames_name_what_they_spawn,
    frames_that_fail,
    reads,
    bad_values,
    wrong_types,
    names_of_kinds,
    texts,
    texts_with_spaces,
    undo_and_redo,
    changes,
    full_histories,
    saves,
    threads,
    closes,
    reasons,
    refused_lines,
    *tried_calls.BOTH,
    *tried_questions.BOTH,
    *tried_settings.BOTH,
    *tried_steps.BOTH,
    *tried_writes.BOTH,
)
PROGRAMS = (
    stores,
    kinds_of_stores,
    full_stores,
    ended_programs,
    interrupted_calls,
    notes,
    examples_twice,
    *tried_questions.PROGRAMS,
    *tried_sending.PROGRAMS,
    *tried_settings.PROGRAMS,
)


def of_library(path: str, library: Begin) -> List[Tuple[str, Callable[..., None], Tuple[Any, ...]]]:
    """What is tried over the library at a path."""
    # (a Python without ctypes has the shell)
    import tried_library  # pylint: disable=import-outside-toplevel
    import tried_sharing  # pylint: disable=import-outside-toplevel

    modules = (tried_library, tried_sharing, tried_settings, tried_steps, tried_writes)
    own = [one for tried in modules for one in tried.LIBRARY]
    of_path = (library_example, names_of_faults, tried_library.header_is_whole, frames_example)
    names = sorted(found.stem for found in EXAMPLES.glob("*.scene") if is_run(found.stem))
    return [
        *(("the library", one, (library,)) for one in (*BOTH, *own)),
        *(("the library", one, (path,)) for one in of_path),
        *(("lines.py", plays, (path, name)) for name in names),
    ]


def main() -> int:
    program = sys.argv[1] if len(sys.argv) > 1 else PROGRAM
    folder = os.environ.get("SCENE_LIB_DIR")

    def shell(kinds: Any = None) -> Calls:
        return scene.open(kinds=KINDS if kinds is None else kinds, program=program, options=["--depth", "100"])

    def library(kinds: Any = None) -> Calls:
        return scene.open(kinds=KINDS if kinds is None else kinds, library=f"{folder}/libscene.so")

    tried: List[Tuple[str, Callable[..., None], Tuple[Any, ...]]] = [("the version", all_files, ())]
    if Path(program).exists():
        tried += [("the shell", one, (shell,)) for one in BOTH]
        tried += [("the shell", one, (program,)) for one in PROGRAMS]
    else:
        tried += [("the shell", missing, (program,))]
    if folder is None:
        print("Python: the library isn't tried, as SCENE_LIB_DIR names no folder; `./scene library FOLDER` makes one")
    else:
        tried += of_library(f"{folder}/libscene.so", library)
        if Path(program).exists():
            tried += [("both", tried_calls.both_alike, (shell, library))]
    failed = 0
    for over, one, words in tried:
        with quiet() as said:
            try:
                one(*words)
                wrong = ""
            except Exception:  # pylint: disable=broad-except
                wrong = traceback.format_exc(limit=-3)
        if wrong or said != [""]:
            failed += 1
            what = " ".join([one.__name__, *(word for word in words[1:] if isinstance(word, str))])
            print(f"Python, {over}, {what}: {wrong or 'standard error has '}{''.join(said)}", file=sys.stderr)
    print(f"Python: {len(tried) - failed} are as they have to be, {failed} aren't")
    return 1 if failed else 0


def missing(program: str) -> None:
    """There is no program to try."""
    raise AssertionError(f"there is no program {program}; `./scene build` builds it")


if __name__ == "__main__":
    sys.exit(main())
