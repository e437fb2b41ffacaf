"""What try_scene.py tries of what a scene has beside its entities: kinds, the depth of undo, systems that go together,
and its text."""
from __future__ import annotations

import json
import tempfile
from contextlib import suppress

import scene
from scene import AddInt, BadLine, KindsDiffer, Refused
from trying import KINDS, Begin, error_of, is_bad, is_set_up, over_library, refusal, spawned, to_come, told


def declared_kinds(begin: Begin) -> None:
    """Kinds are declared one by one, of each shape, up to 64, and one that isn't good leaves those that there are."""
    with begin({}) as world:
        for name, shape in KINDS.items():
            world.declare(name, shape)
            assert world.shape_of(name) == shape
        for name in ("a b", "9", "", "x" * 33, "\u65e5", "a\0", "a="):
            assert told(refusal(world.declare, name, "Tag")) == (30, "BadName", [], None), name
        for shape in ("Text", "Int"):
            assert told(refusal(world.declare, "Health", shape)) == (31, "KindTaken", [], None)
        assert is_bad(world.declare, "\ud800", "Tag") and is_bad(world.declare, "Late", "tag")
        for name, shape in ((None, "Tag"), (5, "Tag"), (b"Late", "Tag"), ("Late", 0), ("Late", None)):
            error_of(TypeError, world.declare, name, shape)
        for number in range(len(KINDS), 64):
            world.declare(f"Kind{number}", "Int")
        assert told(refusal(world.declare, "Late", "Tag")) == (32, "KindsFull", [], None)
        assert world.shape_of("Late") is None and world.shape_of("Kind63") == "Int"
        one = spawned(world, Health=1, Kind63=2)
        assert world.row(one).values() == {"Health": 1, "Kind63": 2} and world.status().kinds == 64
        assert is_set_up(world)
        saved = world.save(world_alone=True)
    with begin({}) as other:
        other.load(saved)
        other.set_depth(5)
        assert is_set_up(other) and other.shape_of("LateKind") is None
        assert other.shape_of("Kind63") == "Int"
    assert error_of(KindsDiffer, begin, {"a b": "Tag"}).number == 30


def kinds_at_any_time(begin: Begin) -> None:
    """A kind is declared at any time: behind frames, in one, behind a load, and over undo and redo."""
    with begin({"Health": "Int"}) as world:
        cat = spawned(world, Health=9)
        before = world.rows(), world.status()
        assert world.kinds() == {"Health": "Int"}
        world.declare("Mood", "Int")
        assert world.shape_of("Mood") == "Int" and world.kinds() == {"Health": "Int", "Mood": "Int"}
        assert (world.rows(), world.status()) == (before[0], before[1]._replace(kinds=2))
        assert world.line("history") == ["history 0"]
        for name, number in (("Mood", 31), ("a b", 30)):
            assert refusal(world.declare, name, "Tag").number == number
        assert is_bad(world.declare, "Late", "tag") and world.shape_of("Late") is None
        world.insert(cat, Mood=3)
        with world.frame() as made:
            # (what was told of all kinds has this one too, which a frame can't ask for)
            world.declare("Name", "Text")
            assert world.shape_of("Name") == "Text" and world.in_frame
            dog = to_come(world, Name="a dog")
            world.insert(dog, Mood=5)
        assert world.cells(made[0])["Name"].value == "a dog" and len(world.tables("Mood")) == 2
        world.undo(3)
        assert world.tables() == [] and list(world.kinds()) == ["Health", "Mood", "Name"]
        world.redo(3)
        step = world.past_step()
        assert step is not None and step.deltas[0].cells == {"Name": "a dog"}
        world.request("declare", name="At", shape="Vec3")
        world.insert(cat, At=(1, 2, 3))
        assert world.get(cat, "At") == (1, 2, 3) and world.kinds_of(0b1000) == ["At"]
        saved = world.save()
    with begin({}) as other:
        other.load(saved)
        other.declare("Late", "Link")
        assert other.shape_of("Late") == "Link" and other.save(True).count('"Late"') == 1
        other.insert(cat, Late=cat)
        other.undo(2)
        assert other.cells(cat) and other.status().redo == 2


def kinds_in_frames_that_are_dropped(program: str) -> None:
    """A kind that a frame declares stays where the frame is dropped or refused, also in a store."""
    with tempfile.TemporaryDirectory() as room:
        path = f"{room}/level.db"
        with scene.open(path, {"A": "Int"}, program) as world:
            with suppress(KeyError), world.frame():
                world.spawn(A=1)
                world.declare("B", "Int")
                raise KeyError
            with suppress(Refused), world.frame():
                world.declare("C", "Tag")
                world.insert("7v9", A=1)
            assert list(world.kinds()) == ["A", "B", "C"] and world.rows() == []
        with scene.open(path, {"D": "Text"}, program) as world:
            assert list(world.kinds()) == ["A", "B", "C", "D"] and world.status().kinds == 4
            world.spawn(B=1, C=True, D="a b")
            assert world.cells("0v1")["D"].value == "a b"


def depths(begin: Begin) -> None:
    """A depth that is set in the setup is that of undo; others than 1 to 1,048,576 are bad."""
    with begin() as world:
        for wrong in (0, -1, 2**20 + 1, 2**32 + 1, 10**30):
            assert "depth" in str(error_of(BadLine, world.set_depth, wrong))
        for wrong in (None, "3", 1.5, True):
            error_of(TypeError, world.set_depth, wrong)
        world.set_depth(2**20)
        world.set_depth(3)
        world.declare("Late", "Tag")
        for number in range(5):
            world.spawn(Health=number)
        assert world.status()[:4] == (5, 0, 3, 0)
        assert told(refusal(world.undo, 4)) == (15, "NothingToUndo", [], None)
        world.undo(3)
        assert len(world.rows()) == 2 and refusal(world.undo).number == 15


def depths_at_any_time(begin: Begin) -> None:
    """Over the library a depth is set at any time, and leaves the last answer and an open frame as they are."""
    with begin() as begun:
        world = over_library(begun)
        for number in range(10):
            spawned(world, Health=number)
        world.undo(2)
        before = world.rows()
        world.set_depth(5)
        assert world.depth == 5 and world.rows() == before and world.status()[:2] == (8, 2)
        assert world.status().undo <= 5 and world.past_step(4) is not None and world.past_step(5) is None
        world.redo(2)
        assert world.status()[2:4] == (5, 0)
        cat = spawned(world, Name="cat")
        with world.frame() as made:
            world.spawn(Name="dog")
            world.set_depth(1)
            assert world.in_frame and world.depth == 1
        assert made == [f"{cat.index + 1}v1"] and world.status().undo == 1
        world.set_depth(2)
        assert world.spawned_last() == made
        for wrong in (0, 2**20 + 1, 2**32 + 2):
            assert is_bad(world.set_depth, wrong)
        assert world.depth == 2 and world.status().undo == 1
        world.undo()
        assert refusal(world.undo).number == 15 and world.get(cat, "Name") == "cat"


def depths_of_shells(program: str) -> None:
    """Over the shell a depth that comes too late is bad in words that say so, and the scene stays."""
    with scene.open(kinds=KINDS, program=program) as world:
        world.set_depth(2)
        spawned(world, Health=1)
        assert "in the setup alone" in str(error_of(BadLine, world.set_depth, 1))
        with world.frame():
            assert "in the setup alone" in str(error_of(BadLine, world.set_depth, 1))
        before = world.save()
        world.undo()
        world.redo()
        assert world.save() == before


def systems_that_go_together(begin: Begin) -> None:
    """Systems are checked as an advance does it, without an advance, in the setup, in a frame and behind all else."""
    with begin() as begun:
        world = over_library(begun)
        assert world.check_systems() is None
        world.declare("Late", "Int")
        world.add_system("up", AddInt("Health", 1), need=["Health"])
        cat = spawned(world, Health=2**63 - 1)
        before = world.save()
        world.check_systems()
        assert world.spawned_last() == [cat]
        world.add_system("again", AddInt("Health", 1), need=["Health"])
        with world.frame() as made:
            world.spawn(Health=1)
            assert told(refusal(world.check_systems)) == (21, "Conflict", [], None) and world.in_frame
        assert told(refusal(world.check_systems))[:2] == told(refusal(world.advance))[:2] == (21, "Conflict")
        world.undo()
        world.clear_systems()
        world.check_systems()
        world.add_system("up", AddInt("Health", 1), need=["Health"])
        world.add_phase()
        world.add_system("again", AddInt("Health", 1), need=["Health"])
        world.check_systems()
        # (a row that overflows is no fault of the systems)
        assert refusal(world.advance).name == "Overflow" and world.check_systems() is None
        world.add_system("none", AddInt("Health", 1))
        assert told(refusal(world.check_systems)) == (22, "BadRule", [], None) and made == ["1v1"]
        assert world.save(world_alone=True) == json_of_world(before) and world.is_alive(cat)
        world.close()
        assert "closed" in str(error_of(scene.Closed, world.check_systems))


def json_of_world(saved: str) -> str:
    """The text of the world alone, from that of a scene with all that can be undone and redone."""
    text = json.loads(saved)
    text["scene"] = 1
    del text["undo"], text["redo"]
    return json.dumps(text, separators=(",", ":"), ensure_ascii=False)


def worlds_alone(begin: Begin) -> None:
    """A scene is saved with all that can be undone and redone, or its world alone; both are loaded."""
    with begin() as world:
        cat = spawned(world, Name="a b \u65e5\U0001f415")
        world.insert(cat, Health=5)
        world.put("title", "Big House")
        world.undo()
        whole, alone = world.save(), world.save(world_alone=True)
        assert alone == json_of_world(whole) == world.line("dump")[0] and whole == world.line("dumpall")[0]
        for text, steps in ((whole, (2, 1)), (alone, (0, 0))):
            with begin({}) as other:
                other.load(text)
                assert other.rows() == world.rows() and other.resources() == world.resources() == {}
                assert other.status()[2:4] == steps and other.save(world_alone=True) == alone
        with world.frame():
            assert is_bad(world.save) and is_bad(world.save, True)


def saves_change_nothing(begin: Begin) -> None:
    """Over the library a save leaves the last answer, and one that grows or shrinks is whole."""
    with begin() as begun:
        world = over_library(begun)
        cat = spawned(world, Name="cat")
        for length in (10, 5000, 100_000, 3, 5000, 4900, 0):
            world.put("title", "\u00e9" * length)
            made = spawned(world, Health=length)
            whole, alone = world.save(), world.save(world_alone=True)
            assert world.spawned_last() == [made]
            assert (whole, alone) == (world.line("dumpall")[0], world.line("dump")[0])
        world.mark()
        world.insert(cat, Name="c")
        assert world.changed() == [(cat, "Name")] and world.save() and world.listed_last() == [(cat, "Name")]
        with begin({"A": "Int"}) as other:
            assert json.loads(other.save())["kinds"] == [["A", "Int"]]
            other.declare("B", "Int")
            assert json.loads(other.save())["kinds"] == [["A", "Int"], ["B", "Int"]]
        world.put("title", "a" * 67_108_864)
        assert told(refusal(world.save)) == (56, "TooLong", [], None)
        world.undo()
        assert world.save(world_alone=True) == world.line("dump")[0]


BOTH = (declared_kinds, kinds_at_any_time, depths, worlds_alone)
LIBRARY = (depths_at_any_time, systems_that_go_together, saves_change_nothing)
PROGRAMS = (depths_of_shells, kinds_in_frames_that_are_dropped)
