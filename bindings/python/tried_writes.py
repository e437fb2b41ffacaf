"""What try_scene.py tries of writes in one call: a spawn with all its components, and inserts to many entities."""
from __future__ import annotations

from typing import Any, Dict, Tuple

from scene import BadLine, Closed, Entity, Refused
from trying import KINDS, UNUSUAL, Begin, error_of, is_bad, over_library, refusal, spawned, to_come, told

WHOLE: Dict[str, Any] = {"Name": "a \u65e5\U0001f415 b", "Health": -(2**63), "At": (1, -2, 2**62), "Hidden": True}


def spawns_of_cells(begin: Begin) -> None:
    """A spawn has all its components, of all shapes, or isn't there; in a frame it has a name of the frame's own."""
    with begin({**KINDS, "More": "Text"}) as it:
        for more in (*UNUSUAL, "two words\n", "long \u00e9" * 2000):
            one = spawned(it, More=more, Target="7v9", **WHOLE)
            assert it.row(one).values() == {**WHOLE, "More": more, "Target": "7v9"}, repr(more[:99])
        count, before = len(it.rows()), it.show()
        assert it.status().tick == count
        assert is_bad(it.spawn, Health=1, Nothing=1) and is_bad(it.spawn, Name="a", More="\ud800")
        error_of(TypeError, it.spawn, Name="a", Health=None)
        assert it.show() == before
        with it.frame() as made:
            first, empty = to_come(it, **WHOLE, More=""), to_come(it)
            it.insert(first, Health=1)
            it.set_parent(empty, first)
            assert first.entity is None
            third = to_come(it, Name="third")
        assert made == [first.entity, empty.entity, third.entity] == [f"{count + place}v1" for place in range(3)]
        assert it.row(made[0]).values() == {**WHOLE, "More": "", "Health": 1} and it.parent_of(made[1]) == made[0]
        assert it.row(made[2]).values() == {"Name": "third"} and it.row(made[1]).cells == {}
        it.line("begin")
        assert it.spawn(**WHOLE) is None
        it.line("commit")
        assert it.row(f"{count + 3}v1").values() == WHOLE
    with begin({}) as it:
        it.line("slots 1")
        assert it.spawn() == "0v1" and refusal(it.spawn).name == "EntitiesFull"


def inserts_to_many(begin: Begin) -> None:
    """Many entities get components in one frame, kind by kind, and one undo takes all of them back."""
    with begin() as world:
        cats = [spawned(world, Health=number) for number in range(3)]
        before = world.show()
        columns: Dict[str, Any] = {
            "Health": range(7, 10),
            "Name": ["a b", "\u65e5\U0001f415\0", ""],
            "At": ((number, -number, "5") for number in range(3)),
            "Hidden": [True] * 3,
            "Target": reversed(cats),
        }
        world.insert_all(iter(cats), **columns)
        assert world.status()[:3] == (4, 0, 4)
        for number, cat in enumerate(cats):
            wanted = {"Health": 7 + number, "Name": columns["Name"][number], "At": (number, -number, 5), "Hidden": True}
            assert world.row(cat).values() == {**wanted, "Target": cats[2 - number]}
        assert world.cells(cats[0])["Health"] == (7, 1, 4) and isinstance(world.get(cats[0], "Target"), Entity)
        after = world.show()
        world.undo()
        assert world.show() == before
        world.redo()
        assert world.show() == after
        for texts in (UNUSUAL[:3], UNUSUAL[3:6], UNUSUAL[-3:], ("", "", ""), ("a", "long \u00e9" * 2000, "b")):
            world.insert_all(cats, Name=texts)
            assert [world.get(cat, "Name") for cat in cats] == list(texts)
        world.insert_all([cats[0], cats[1], cats[0]], Health=[1, 2, 3])
        assert [world.get(cat, "Health") for cat in cats] == [3, 2, 9]
        with world.frame():
            new = to_come(world, Health=1)
        world.insert_all([new], Health=[5], Name=["new"])
        assert world.row(new).values() == {"Health": 5, "Name": "new"}


def inserts_of_nothing(begin: Begin) -> None:
    """A frame that writes nothing is a frame too."""
    with begin() as world:
        cat = spawned(world, Health=1)
        before = world.rows()
        for entities, columns in (([], {}), ([], {"Health": [], "Name": ()}), ([cat], {}), ((), {"Health": iter(())})):
            tick = world.status().tick
            world.insert_all(entities, **columns)
            assert world.status()[:2] == (tick + 1, 0) and world.rows() == before
        world.undo(4)
        assert world.status()[:4] == (1, 4, 1, 4)


def inserts_that_are_refused(begin: Begin) -> None:
    """Where one write is refused, none is done, and its place tells which one it is."""
    with begin() as world:
        cat, gone, dog = (spawned(world, Health=number) for number in range(3))
        world.despawn(gone)
        before = world.show(), world.status()
        for entities, place in (([cat, gone, dog], 1), (["0v0"], 0), ([cat, dog, "7v9"], 2), ([gone, gone], 0)):
            found = refusal(world.insert_all, entities, Health=[5] * len(entities))
            assert told(found) == (1, "NoSuchEntity", [], (0, 0, place)), found
        found = refusal(world.insert_all, [cat, gone], Health=[1, 2], Name=["a", "b"])
        assert told(found) == (1, "NoSuchEntity", [], (0, 0, 1))
        assert (world.show(), world.status()) == before
        with begin({"Health": "Int"}) as other:
            other.line("calls 1")
            one = spawned(other, Health=1)
            assert told(refusal(other.insert_all, [one], Health=[2])) == (17, "HistoryFull", ["1"], None)
            assert other.get(one, "Health") == 1


def bad_inserts(begin: Begin) -> None:
    """Unequal lists, other kinds and values, and an open frame are bad, before anything is written."""
    with begin() as world:
        cats = [spawned(world, Health=number) for number in range(2)]
        before = world.show(), world.status()
        for columns in ({"Health": [1]}, {"Health": [1, 2, 3]}, {"Health": []}, {"Health": [1, 2], "Name": ["a"]}):
            assert "2 entities" in str(error_of(BadLine, world.insert_all, cats, **columns)), columns
        assert "0 entities" in str(error_of(BadLine, world.insert_all, [], Health=[1]))
        wrong: Tuple[Tuple[str, Any], ...] = (("Nothing", 1), ("", 1), ("Health", 2**63), ("Health", "five"))
        wrong += (("Name", "\ud800"), ("At", (1, 2)), ("Target", "+0"), ("Target", "cat"))
        for kind, value in wrong:
            assert kind in str(error_of(BadLine, world.insert_all, cats, **{"Name": ["a", "b"], kind: [value, value]}))
        for kind, value in (("Health", None), ("Health", 1.5), ("Name", b"a"), ("Hidden", False), ("At", 5)):
            assert kind in str(error_of(TypeError, world.insert_all, cats, **{kind: [value, value]}))
        for values in ("ab", b"ab", 5, None):
            assert "Name" in str(error_of(TypeError, world.insert_all, cats, Name=values))
        for entity in ("cat", "+0", "", "0v01", "4294967296v1"):
            assert is_bad(world.insert_all, [cats[0], entity], Health=[1, 2])
        for other in (None, 7):
            error_of(TypeError, world.insert_all, [other], Health=[1])
            error_of(TypeError, world.insert_all, other, Health=[1])
        assert (world.show(), world.status()) == before
        with world.frame() as made:
            new = to_come(world, Health=3)
            assert str(error_of(BadLine, world.insert_all, cats, Health=[5, 6])).startswith("a frame is open")
            assert is_bad(world.insert_all, [new], Health=[5]) and is_bad(world.insert_all, [])
        assert made == [new.entity] and [world.get(cat, "Health") for cat in (*cats, new)] == [0, 1, 3]


def inserts_of_columns(begin: Begin) -> None:
    """Over the library columns that were read are written back, whose entities take no other look, by one call."""
    with begin() as begun:
        world = over_library(begun)
        for number in range(1000):
            world.spawn(Health=number, **({"Name": f"number {number}"} if number % 3 else {}))
        calls = int(world.line("history")[0].split()[1])
        for mask, _ in world.tables("Health"):
            ids = world.entities(mask)
            twice = [health * 2 for health in world.column(mask, "Health")]
            world.insert_all(ids, Health=twice, Hidden=[True] * len(ids))
        for mask, _ in world.tables("Name"):
            ids = world.entities(mask)
            world.insert_all(ids, Name=[text.upper() for text in world.texts(mask, "Name")])
        assert int(world.line("history")[0].split()[1]) == calls + 3
        for number, row in enumerate(sorted(world.rows(), key=lambda row: row.entity.index)):
            wanted = {"Name": f"NUMBER {number}"} if number % 3 else {}
            assert row.values() == {**wanted, "Health": 2 * number, "Hidden": True}
        world.close()
        for call in (world.spawn, lambda: world.insert_all([])):
            assert "closed" in str(error_of(Closed, call))


def last_answers_of_writes(begin: Begin) -> None:
    """What a spawn tells isn't told behind inserts to many, and a bad call leaves it."""
    with begin() as begun:
        world = over_library(begun)
        cat = spawned(world, Health=1)
        assert world.spawned_last() == [cat]
        assert is_bad(world.spawn, Nothing=1) and is_bad(world.insert_all, [cat], Health=[])
        assert world.spawned_last() == [cat]
        world.insert_all([cat], Health=[2])
        assert world.spawned_last() == []
        try:
            with world.frame():
                world.spawn(Health=1)
                world.insert("7v9", Health=1)
        except Refused:
            assert world.spawned_last() == []
        assert spawned(world) == "1v1"


BOTH = (spawns_of_cells, inserts_to_many, inserts_of_nothing, inserts_that_are_refused, bad_inserts)
LIBRARY = (inserts_of_columns, last_answers_of_writes)
