"""What try_scene.py tries over both: trees, resources, systems, steps of several frames, requests, and the two beside
one another."""
from __future__ import annotations

import random
from typing import Any, Callable, Dict, List, Tuple

from scene import AddInt, AddVec, BadLine, Calls, CountInto, DespawnAtZero, Entity, Refused, SceneError
from scene import SpawnChild, System
from trying import KINDS, UNUSUAL, Begin, error_of, is_bad, is_set_up, refusal, spawned, to_come, told

RESOURCES: Dict[str, Any] = {"seen": True, "left": -5, "at": (1, -2, 3), "title": "Big House \n", "door": Entity("7v9")}


def trees(begin: Begin) -> None:
    """Each row has its parent and its children, in their order, also behind an undo."""
    with begin() as world:
        one, two, three, four = (spawned(world, Health=number) for number in range(4))
        world.set_parent(three, one)
        world.set_parent(two, one)
        world.insert(four, Name="four")
        assert world.roots() == [one, four] and isinstance(world.roots()[0], Entity)
        assert world.children_of(one) == [three, two] and world.children_of(two) == world.children_of("7v9") == []
        assert world.parent_of(two) == one and isinstance(world.parent_of(two), Entity)
        assert world.parent_of(one) is None and world.parent_of("7v9") is None
        assert world.row(one)[2:] == (None, (three, two)) and world.row(three)[2:] == (one, ())
        assert [row.entity for row in world.rows()] == [one, two, three, four]
        assert world.rows() == [world.row(entity) for entity in (one, two, three, four)]
        world.set_parent(one, four)
        assert world.roots() == [four] and world.row(four).children == (one,)
        world.undo(2)
        assert world.roots() == [one, four] and world.row(four).values() == {"Health": 3}
        world.redo(2)
        world.despawn_all(one)
        assert world.roots() == [four] and world.children_of(four) == [] == world.children_of(one)
        assert world.is_alive(four) and not world.is_alive(two) and not world.is_alive("0v0")
        for call in (world.row, world.cells, lambda it: world.get(it, "Health"), world.get):
            assert told(refusal(call, two)) == told(refusal(call, "0v0")) == (1, "NoSuchEntity", [], None)
        assert world.cells(four) == {"Health": (3, 4, 4), "Name": ("four", 7, 7)}
        for read in (world.parent_of, world.children_of, world.is_alive, world.row, world.cells):
            assert is_bad(read, "7") and is_bad(read, "+0")
            error_of(TypeError, read, 7)


def resources(begin: Begin) -> None:
    """Resources have values of all shapes, and texts any characters."""
    with begin() as world:
        for name, value in RESOURCES.items():
            world.put(name, value)
        assert list(world.resources()) == sorted(RESOURCES)
        for tick, (name, value) in enumerate(RESOURCES.items(), 1):
            assert world.resource(name) == value and world.resources()[name] == (value, tick, tick), name
        assert isinstance(world.resource("door"), Entity) and not isinstance(world.resource("title"), Entity)
        assert world.resource("seen") is True
        for text in (*UNUSUAL, " ", "two words", "a\r\nb\n", "long \u00e9" * 10_000):
            world.put("title", text, "Text")
            assert world.resource("title") == text and type(world.resource("title")) is str, repr(text)
        world.put("left", "7", "Int")
        assert world.resource("left") == 7
        world.put("left", "7v1", "Link")
        assert world.resources()["left"].value == "7v1"
        before = world.show(), world.resources()
        assert told(refusal(world.put, "Big House", 1)) == (30, "BadName", [], (0, 0, 0))
        assert told(refusal(world.drop, "right")) == (10, "NoSuchResource", [], (0, 0, 0))
        for name in ("right", "", "a b", "\u044f", "\ud800", "x" * 100):
            assert told(refusal(world.resource, name)) == (10, "NoSuchResource", [], None)
        for wrong in (None, 1.5, False, b"a", {}):
            assert "left" in str(error_of(TypeError, world.put, "left", wrong))
        for value, shape in ((2**63, "Int"), ((1, 2), "Vec3"), ("cat", "Link"), ("\ud800", "Text"), ("five", "Int")):
            assert "left" in str(error_of(BadLine, world.put, "left", value, shape))
        assert is_bad(world.put, "left", 1, "Float") and is_bad(world.put, "left", (1, 2))
        error_of(TypeError, world.put, "left", 5, "Tag")
        for call in (lambda: world.put(5, 5), lambda: world.drop(None), lambda: world.resource(5)):  # type: ignore
            error_of(TypeError, call)
        assert (world.show(), world.resources()) == before
        world.drop("left")
        assert "left" not in world.resources() and refusal(world.resource, "left").number == 10
        world.undo()
        assert world.resources() == before[1]


def resources_of_frames(begin: Begin) -> None:
    """In a frame a resource is put with all the rest, or not at all, and names what the frame has spawned behind it."""
    with begin() as world:
        with world.frame():
            cat = to_come(world, Name="cat")
            world.put("title", "a b")
            assert is_bad(world.put, "door", cat)
        world.put("door", cat)
        assert world.resource("door") == cat.entity == "0v1" and world.resource("title") == "a b"
        before = world.resources()
        try:
            with world.frame():
                world.put("title", "other")
                world.drop("right")
            raise AssertionError("the frame was done")
        except Refused as refused:
            assert told(refused) == (10, "NoSuchResource", [], (0, 0, 1))
        assert world.resources() == before


def systems(begin: Begin) -> None:
    """Systems do to the rows of their filter what their steps say, as one frame."""
    with begin({"P": "Vec3", "V": "Vec3", "N": "Int", "Name": "Text"}) as world:
        one = spawned(world, P=(0, 0, 0), V=(1, 2, 3))
        two = spawned(world, P=(5, 5, 5), V=(-1, 0, 0), N=2)
        world.add_system("move", AddVec("P", "V"), need=["P", "V"])
        world.add_system("left", AddInt("N", -1), CountInto("left"), need="N")
        assert world.advance() == [] and world.resource("left") == 1
        assert (world.get(one, "P"), world.get(two, "P"), world.get(two, "N")) == ((1, 2, 3), (4, 5, 5), 1)
        world.add_phase()
        world.add_system("end", DespawnAtZero("N"), need=["N"])
        world.add_system("birth", SpawnChild({"Name": "a b;c", "N": 9}), need=["P"], without=["N"])
        made = world.advance()
        assert made == world.children_of(one) == ["1v2"] and isinstance(made[0], Entity)
        assert world.row(made[0]).values() == {"Name": "a b;c", "N": 9} and not world.is_alive(two)
        world.undo()
        assert world.is_alive(two) and not world.is_alive(made[0])
        world.clear_systems()
        before = world.rows()
        assert world.advance() == [] and world.rows() == before
        world.undo()


def systems_as_objects(begin: Begin) -> None:
    """A system by itself can be added to several scenes, and does what its steps say."""
    age = System("age", [AddInt("Health", -1), CountInto("left")], need=["Health"], without="Name")
    for count in (1, 2):
        with begin() as world:
            cats = [spawned(world, Health=9) for _ in range(count)]
            spawned(world, Health=9, Name="cat")
            world.add_system(age)
            world.advance()
            assert world.resource("left") == count and {world.get(cat, "Health") for cat in cats} == {8}
            assert world.get(f"{count}v1", "Health") == 9
            for more in ({"need": ["Health"]}, {"without": ["At"]}):
                error_of(TypeError, world.add_system, age, **more)
            error_of(TypeError, world.add_system, age, AddInt("Health", 1))
            error_of(TypeError, world.add_system, System("age", AddInt("Health", 1)))  # type: ignore[arg-type]
            assert is_bad(world.add_system, System("age", [AddInt("Nothing", 1)]))
            assert world.advance() == [] and {world.get(cat, "Health") for cat in cats} == {7}
    assert age == System("age", age.steps, ["Health"], "Name") != System("age", age.steps)


def refused_systems(begin: Begin) -> None:
    """What makes no system is bad at once, and what makes no schedule is refused, and leaves the scene as it was."""
    with begin({"P": "Vec3", "N": "Int"}) as world:
        row = spawned(world, P=(0, 0, 0), N=2**63 - 1)
        before = world.show()
        world.add_system("up", AddInt("N", 1), need=["N"])
        assert told(refusal(world.advance)) == (14, "Overflow", [row], (0, 0, 0))
        world.add_system("again", AddInt("N", 1), need=["N"])
        assert told(refusal(world.advance)) == (21, "Conflict", ["0", "0", "1"], None)
        world.clear_systems()
        world.add_system("none", AddInt("N", 1))
        assert told(refusal(world.advance)) == (22, "BadRule", ["0", "0"], None)
        world.clear_systems()
        for step in (AddVec("P", "Q"), AddInt("M", 1), AddInt("N", 2**63), DespawnAtZero("M"), SpawnChild({"M": 1})):
            assert is_bad(world.add_system, "bad", step, need=["N"]), step
        assert is_bad(world.add_system, "bad", need=["M"]) and is_bad(world.add_system, "bad", without=["N", "M"])
        wrong: Tuple[Any, ...] = (AddInt("N", 1.5), AddInt(5, 1), SpawnChild({"N": 1.5}), CountInto(5), "addint", None)
        for step in wrong:
            error_of(TypeError, world.add_system, "bad", step, need=["N"])
        error_of(TypeError, world.add_system, None)
        assert world.advance() == []
        world.undo()
        assert world.show() == before
        with world.frame():
            for call in (world.advance, world.add_phase, world.clear_systems, lambda: world.add_system("bad")):
                assert is_bad(call)


def steps_of_frames(begin: Begin) -> None:
    """Several frames are taken back, or done again, or none where there are fewer."""
    with begin() as world:
        cat = spawned(world, Health=0)
        for health in range(1, 6):
            world.insert(cat, Health=health)
        world.undo(3)
        assert world.get(cat, "Health") == 2 and world.status()[:4] == (3, 3, 3, 3)
        world.redo(2)
        assert world.get(cat, "Health") == 4 and world.status()[:4] == (5, 3, 5, 1)
        world.undo(0)
        world.redo(0)
        before = world.status(), world.show(), world.line("history")
        for count in (6, 7, 10**30):
            assert told(refusal(world.undo, count)) == (15, "NothingToUndo", [], None)
        for count in (2, 10**30):
            assert told(refusal(world.redo, count)) == (16, "NothingToRedo", [], None)
        for wrong in (None, 1.0, "1", True):
            error_of(TypeError, world.undo, wrong)
            error_of(TypeError, world.redo, wrong)
        assert is_bad(world.undo, -1) and is_bad(world.redo, -(2**64))
        assert before == (world.status(), world.show(), world.line("history"))
        with world.frame():
            assert all(is_bad(call, count) for call in (world.undo, world.redo) for count in (0, 1, 2, 99))
        world.undo()
        assert world.status()[2:4] == (5, 1)
        world.undo(5)
        assert world.rows() == []
        world.redo(5)
        assert world.get(cat, "Health") == 4


def steps_to_a_limit(begin: Begin) -> None:
    """A limit of calls that is reached on the way is told, and no frame is taken back."""
    with begin() as world:
        world.line("calls 5")
        cat = spawned(world, Health=0)
        for health in range(1, 4):
            world.insert(cat, Health=health)
        assert told(refusal(world.undo, 3)) == (17, "HistoryFull", ["5"], None)
        assert world.line("history") == ["history 4"] and world.status()[2:4] == (4, 0)
        world.undo()
        assert world.get(cat, "Health") == 2 and world.status()[2:4] == (3, 1)
        assert told(refusal(world.redo)) == (17, "HistoryFull", ["5"], None)


def numbers(begin: Begin) -> None:
    """A scene tells its numbers."""
    with begin() as world:
        assert world.status() == (0, 0, 0, 0, 0, 2**20, len(KINDS))
        cat = spawned(world)
        spawned(world)
        world.despawn(cat)
        world.undo()
        status = world.status()
        assert status == (2, 1, 2, 1, 2, 2**20, 5) and (status.tick, status.rewinds, status.slots) == (2, 1, 2)
        with begin({}) as other:
            other.line("slots 7")
            assert other.status().limit == 7


def additions(begin: Begin) -> None:
    """What was added since the mark is told apart from what was changed."""
    with begin() as world:
        cat = spawned(world, Health=9)
        assert world.added() == world.changed() == [(cat, "Health")]
        world.mark()
        world.insert(cat, Health=5, Name="cat")
        world.insert(cat, Health=5)
        assert world.added() == [(cat, "Name")] and world.changed() == [(cat, "Name"), (cat, "Health")]
        assert isinstance(world.added()[0][0], Entity)
        world.mark()
        assert world.added() == world.changed() == []
        world.undo(2)
        assert told(refusal(world.added)) == told(refusal(world.changed)) == (18, "Rewound", ["2"], None)


def reading(world: Calls) -> List[Callable[[], Any]]:
    """The calls that only read."""
    named = (world.is_alive, world.parent_of, world.children_of)
    calls: List[Callable[[], Any]] = [lambda call=call: call("7v9") for call in named]  # type: ignore[misc]
    calls += [world.roots, world.rows, world.resources, world.status, world.changed, world.added, world.show]
    return [*calls, world.kinds, world.past, world.future, lambda: list(world.each_row())]


def setups_and_frames(begin: Begin) -> None:
    """A read ends the setup, and in a frame it is out of place."""
    with begin() as world:
        count = len(reading(world))
    for number in range(count):
        with begin() as world:
            world.declare("Late", "Tag")
            assert reading(world)[number]() in (False, None, [], {}, world.status(), world.show(), world.kinds())
            assert is_set_up(world)
    for call in (lambda it: it.get("7v9", "Name"), lambda it: it.cells("7v9"), lambda it: it.resource("left")):
        with begin() as world:
            refusal(call, world)
            assert is_set_up(world)
    with begin() as world:
        cat = spawned(world, Name="cat")
        world.put("left", 1)
        with world.frame():
            reads = [*reading(world), lambda: world.row(cat), lambda: world.cells(cat), lambda: world.resource("left")]
            assert all(str(error_of(BadLine, call)).startswith("a frame is open") for call in reads)
        world.line("begin")
        assert is_bad(world.roots)
        world.request("commit")
        assert world.roots() == [cat]
        world.request("begin")
        assert is_bad(world.roots) and world.request("spawn", cells={}) == {"answer": "queued"}
        assert world.line("commit") == ["done 1v1"] and world.roots() == [cat, "1v1"]


def requests(begin: Begin) -> None:
    """What a request asks for is answered as its line, and a bad one says where."""
    with begin() as world:
        assert is_bad(world.line, "show\nshow") and is_bad(world.line, '{"do":"spawn","cells":{}}') and not world.rows()
        assert world.request("spawn", cells={"Name": "two words"}) == {"answer": "done", "entities": ["0v1"]}
        assert world.request("put", name="title", shape="Text", value="a \u044f\n")["answer"] == "done"
        assert "resource title Text=\"a \u044f\\n\"@2/2" in world.show()
        assert world.request("get", entity="0v1")["cells"] == {"Name": ["two words", 1, 1]}
        assert told(refusal(world.request, "despawn", entity="7v9")) == (1, "NoSuchEntity", [], (0, 0, 0))
        before = world.show()
        for path, bad in {
            "do": {"do": "jump"},
            "entity": {"do": "despawn"},
            "cells.Nam": {"do": "spawn", "cells": {"Nam": 1}},
            'cells.a "': {"do": "spawn", "cells": {'a "': 1}},
            "value[2]": {"do": "insert", "entity": "0v1", "kind": "At", "value": [1, 2, 0.5]},
        }.items():
            error = error_of(BadLine, world.request, **bad)
            assert error.path == path, error
        assert error_of(BadLine, world.request, "show", more="\ud800").path is None
        placed = error_of(BadLine, world.request, "commit")
        assert placed.path is None and str(placed).startswith("no frame is open")
        error_of(TypeError, world.request, "despawn", entity=b"0v1")
        assert world.show() == before


# The cells of two rows; and requests, each with its keys and its answer.
NAMED = {"Name": ["", 4, 4], "Health": [6, 1, 3]}
PLACED = {"At": [[1, -2, 3], 2, 2], "Target": ["0v1", 2, 2]}
ANSWERS: Tuple[Tuple[str, Dict[str, Any], Dict[str, Any]], ...] = (
    ("depth", {"limit": 9}, {"answer": "ok"}),
    ("spawn", {"cells": {"Health": 5, "Hidden": True}}, {"answer": "done", "entities": ["0v1"]}),
    ("begin", {}, {"answer": "ok"}),
    ("spawn", {"cells": {"At": [1, -2, 3], "Target": "0v1"}}, {"answer": "queued"}),
    ("parent", {"child": "+0", "parent": "0v1"}, {"answer": "queued"}),
    ("queue", {}, {"answer": "ok"}),
    ("spawn", {"cells": {"Name": "a b"}}, {"answer": "queued"}),
    ("commit", {}, {"answer": "done", "entities": ["1v1", "2v1"]}),
    ("mark", {}, {"answer": "mark", "rewinds": 0, "tick": 2}),
    ("insert", {"entity": "0v1", "kind": "Health", "value": 6}, {"answer": "done", "entities": []}),
    ("insert", {"entity": "0v1", "kind": "Name", "value": ""}, {"answer": "done", "entities": []}),
    ("added", {}, {"answer": "added", "cells": [{"entity": "0v1", "kind": "Name"}]}),
    ("despawnifalive", {"entity": "7v9"}, {"answer": "done", "entities": []}),
    ("put", {"name": "left", "shape": "Vec3", "value": [1, 2, 3]}, {"answer": "done", "entities": []}),
    ("put", {"name": "door", "shape": "Link", "value": "1v1"}, {"answer": "done", "entities": []}),
    ("undo", {}, {"answer": "undone"}),
    ("redo", {}, {"answer": "redone"}),
    ("mark", {}, {"answer": "mark", "rewinds": 1, "tick": 7}),
    ("remove", {"entity": "0v1", "kind": "Hidden"}, {"answer": "done", "entities": []}),
    ("despawn", {"entity": "2v1"}, {"answer": "done", "entities": []}),
    ("history", {}, {"answer": "history", "calls": 11}),
    ("get", {"entity": "0v1"}, {"answer": "row", "entity": "0v1", "cells": NAMED}),
    ("phase", {}, {"answer": "ok"}),
    ("system", {"name": "none", "need": ["Name"], "without": [], "steps": []}, {"answer": "ok"}),
    ("clear", {}, {"answer": "ok"}),
    ("as", {"session": 3}, {"answer": "ok"}),
    ("advance", {}, {"answer": "done", "entities": []}),
    ("changed", {}, {"answer": "changed", "cells": []}),
    (
        "show",
        {},
        {
            "answer": "world",
            "tick": 10,
            "generations": [1, 1, 2],
            "free": [2],
            "tables": [
                {"kinds": ["Name", "Health"], "rows": [{"entity": "0v1", "cells": NAMED}]},
                {"kinds": ["At", "Target"], "rows": [{"entity": "1v1", "cells": PLACED}]},
            ],
            "children": {"0v1": ["1v1"]},
            "resources": {"door": ["Link", "1v1", 7, 7], "left": ["Vec3", [1, 2, 3], 6, 6]},
        },
    ),
)


def answers(begin: Begin) -> None:
    """Each request is answered in the form of docs/SHELL.md."""
    with begin() as world:
        for do, keys, wanted in ANSWERS:
            found = world.request(do, **keys)
            assert found == wanted, (do, found)
        dumped = world.request("dumpall")
        assert dumped["answer"] == "scene" and dumped["text"]["scene"] == 2
        with begin({}) as other:
            other.load(world.save())
            assert other.request("dumpall") == dumped


def requests_of_setups(begin: Begin) -> None:
    """A request too declares kinds, or loads a scene text, whose kinds then are all there are, and tells its faults as
    a line does."""
    with begin({"A": "Int"}) as world:
        text = world.save()
    with begin({"A": "Text"}) as world:
        assert world.request("kind", name="B", shape="Int") == {"answer": "ok"}
        assert (world.shape_of("A"), world.shape_of("B")) == ("Text", "Int")
        assert told(refusal(world.request, "kind", name="a b", shape="Int")) == (30, "BadName", [], None)
        unknown = error_of(Refused, world.request, "load", text='{"scene":1,"\u044f \\"":0}')
        assert told(unknown) == (51, "UnknownKey", ['"\u044f \\""'], None)
        assert world.request("load", text=text) == {"answer": "ok"}
        assert (world.shape_of("A"), world.shape_of("B")) == ("Int", None)


BOTH = (
    trees,
    resources,
    resources_of_frames,
    systems,
    systems_as_objects,
    refused_systems,
    steps_of_frames,
    steps_to_a_limit,
    numbers,
    additions,
    setups_and_frames,
    requests,
    answers,
    requests_of_setups,
)


# ---- the two beside one another


def outcome(call: Callable[[], Any]) -> Any:
    """What a call gives, or its error."""
    try:
        return call()
    except (SceneError, TypeError) as error:
        return type(error), str(error) if isinstance(error, Refused) else ""


def some_call(any_of: random.Random) -> Callable[[Calls], Any]:
    """A call that is done to both, with what it is about."""
    kind, name = any_of.choice([*KINDS, "Nothing"]), any_of.choice(("left", "title", "a b"))
    one, two = (f"{any_of.randrange(9)}v{any_of.choice((1, 1, 1, 2))}" for _ in range(2))
    value = any_of.choice((True, 5, -(2**63), (1, -2, 3), "a b\n", Entity(one), "7", None))
    cells = {kind: value, any_of.choice([*KINDS]): value}
    count = any_of.randrange(4)
    return any_of.choice(
        (
            lambda it: it.spawn(Health=count),
            lambda it: it.spawn(**cells),
            lambda it: it.insert(one, **cells),
            lambda it: it.insert(one, Name="a", At=(count, 2, 3)),
            lambda it: it.insert_all([one, two], **{kind: [value, value]}),
            lambda it: it.insert_all([one, two][:count], Health=(count, 2), Name=("a b", "")),
            lambda it: it.remove(one, kind),
            lambda it: it.set_parent(one, two),
            lambda it: it.set_parent(one, None),
            lambda it: it.despawn(one) if count else it.despawn_all(one),
            lambda it: it.put(name, value),
            lambda it: it.drop(name),
            lambda it: it.undo(count),
            lambda it: it.redo(count),
            lambda it: it.mark(),
            lambda it: it.add_system("age", AddInt("Health", count), CountInto("left"), need=["Health"]),
            lambda it: it.add_system("birth", SpawnChild({kind: value}), need=["At"], without=["Name"]),
            lambda it: it.add_phase(),
            lambda it: it.clear_systems(),
            lambda it: it.advance(),
            lambda it: it.get(one, kind),
            lambda it: it.request("despawnifalive", entity=one),
        )
    )


def both_alike(shell: Begin, library: Begin) -> None:
    """At each of many random calls both give the same, and hold the same scene."""
    any_of = random.Random(7)
    refused = 0
    with shell() as one, library() as other:
        for world in (one, other):
            world.request("depth", limit=50)
        for step in range(1500):
            call = some_call(any_of)
            came = outcome(lambda: call(one))
            assert came == outcome(lambda: call(other)), (step, came)
            refused += isinstance(came, tuple) and came[:1] == (Refused,)
            if step % 10 == 0:
                reads = ("rows", "roots", "resources", "status", "show", "changed", "added", "save", "kinds", "tables")
                for read in (*reads, "now", "past", "future", "past_step", "future_step"):
                    came = outcome(getattr(one, read))
                    assert came == outcome(getattr(other, read)), (step, read, came)
                assert one.request("show") == other.request("show"), step
                assert one.save(world_alone=True) == other.save(world_alone=True), step
                found = [list(world.each_row("Health", without=["At"], page=3)) for world in (one, other)]
                assert found[0] == found[1], step
        assert 100 < refused < 1400 and one.status().tick > 20, (refused, one.status())
