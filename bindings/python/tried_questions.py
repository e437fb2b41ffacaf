"""What try_scene.py tries of what a scene is asked: kinds, tables, rows in pages, moments, the depth and texts of all
kinds; and of frames that are dropped."""
from __future__ import annotations

import re
import tempfile
from contextlib import suppress
from itertools import islice
from pathlib import Path
from typing import Any, Callable, Dict, List, Tuple

import scene
from scene import AddInt, BadLine, Calls, Closed, CountInto, Entity, Moment, Row, SpawnChild
from scene.program import HELD, batches
from trying import KINDS, UNUSUAL, Begin, error_of, is_bad, is_set_up, refusal, spawned, to_come, told, wrapped

# Texts that are no names, and that a line, or a request that isn't escaped, would spoil.
TEXTS = (*map(str, UNUSUAL), "two words", "\n", "a\r\nb", 'a "b"', "\u041a\u043e\u0442 \u0438 \u043f\u0451\u0441")
TEXTS += ("\U0001f408\u200d\u2b1b", '"}', "{", "# a", "0v1 A=1", "a,b;c", " ")


def some_rows(world: Calls, count: int) -> List[Entity]:
    """Entities of several tables, of which some have a parent."""
    with world.frame() as made:
        for number in range(count):
            cells: Dict[str, Any] = {"Health": number} if number % 3 else {}
            if number % 4 == 0:
                cells.update(Name=f"number {number}", Hidden=True)
            world.spawn(**cells)
        for number in range(1, count, 2):
            world.set_parent(f"+{number}", f"+{number // 5}")
    return made


def kinds_and_tables(begin: Begin) -> None:
    """The kinds are told by their numbers, and the kind sets that there are by those, as a filter asks for them."""
    with begin() as world:
        assert list(world.kinds().items()) == list(KINDS.items())
        world.kinds().clear()
        assert world.shape_of("Name") == "Text" and world.shape_of("Nothing") is None and world.kinds() == KINDS
        assert world.tables() == []
        some_rows(world, 12)
        spawned(world)
        assert world.tables() == [(0, 4), (0b10, 6), (0b1001, 1), (0b1011, 2)]
        told_kinds = [world.kinds_of(mask) for mask, _ in world.tables()]
        assert told_kinds == [[], ["Health"], ["Name", "Hidden"], ["Name", "Health", "Hidden"]]
        assert world.tables("Health") == [(0b10, 6), (0b1011, 2)] == world.tables("Health", "Health")
        assert world.tables("Health", without=["Name", "At"]) == [(0b10, 6)]
        assert world.tables(without="Health") == [(0, 4), (0b1001, 1)] and world.tables("At") == []
        assert world.tables("Health", without=["Health"]) == []
        assert is_bad(world.tables, "Nothing") and is_bad(world.tables, without=["Health", "Nothing"])
        error_of(TypeError, world.tables, 5)
    with begin({}) as world:
        assert world.kinds() == {} and is_set_up(world) and world.kinds_of(3) == []
        world.close()
        for call in (world.kinds, world.tables, world.past, world.future, world.past_step, world.now):
            error_of(Closed, call)


def rows_in_pages(begin: Begin) -> None:
    """Rows come one by one, those that a filter matches, with parent and children, whatever a page has."""
    with begin() as world:
        assert list(world.each_row()) == []
        made = some_rows(world, 150)
        rows = world.rows()
        assert len(rows) == 150 and rows == [world.row(row.entity) for row in rows]
        assert [row for row in rows if row.children] and {row.parent for row in rows} > {None, made[0]}
        for page in (1, 7, 149, 150, 151, 1000, 2**40):
            assert list(world.each_row(page=page)) == rows, page
        for need, without in ((["Health"], []), (["Name", "Health"], []), ([], ["Name"]), (["Health"], ["Name"])):
            wanted = [row for row in rows if set(need) <= set(row.cells) and not set(without) & set(row.cells)]
            assert list(world.each_row(*need, without=without, page=10)) == wanted and 150 > len(wanted) > 10
        assert list(world.each_row("At")) == [] == list(world.each_row("Name", without="Name"))
        assert is_bad(world.each_row, "Nothing") and is_bad(world.each_row, without=["Nothing"])
        assert is_bad(world.each_row, page=0) and is_bad(world.each_row, page=-5)
        for wrong in (None, 1.5, "5", True):
            error_of(TypeError, world.each_row, page=wrong)
        with world.frame():
            assert str(error_of(BadLine, world.each_row)).startswith("a frame is open")
        world.close()
        error_of(Closed, world.each_row)


def long_pages(begin: Begin) -> None:
    """A page has texts of any length, and an entity any number of children."""
    with begin() as world:
        with world.frame() as made:
            for number in range(1500):
                world.spawn()
                if number:
                    world.set_parent(f"+{number}", "+0")
            texts = [chr(0x41A + number) * 50_000 for number in range(5)]
            for text in texts:
                world.spawn(Name=text)
        rows = list(world.each_row())
        assert [row.entity for row in rows] == made and rows[0].children == tuple(made[1:1500])
        assert all(row.parent == made[0] for row in rows[1:1500]) and world.children_of(made[0]) == made[1:1500]
        assert [row.values() for row in rows[1500:]] == [{"Name": text} for text in texts]


def rows_of_a_scene_that_changes(begin: Begin) -> None:
    """Rows can't be read on where the scene was changed; what only reads doesn't matter."""

    changes: Tuple[Callable[[Calls], Any], ...] = (lambda it: it.undo(), lambda it: it.spawn(), lambda it: it.advance())
    changes += (lambda it: it.undo() or it.redo(), lambda it: it.save())
    for change in changes:
        with begin() as world:
            for number in range(6):
                spawned(world, **({"Health": number} if number < 3 else {"Name": "a"}))
            rows = world.each_row(page=3)
            # (the first table, which is a page)
            assert [next(rows).values() for _ in range(3)] == [{"Name": "a"}] * 3
            world.mark()
            change(world)
            if change is changes[-1]:
                assert [row.values() for row in rows] == [{"Health": number} for number in range(3)]
            else:
                assert "changed" in str(error_of(BadLine, next, rows))


def moments(begin: Begin) -> None:
    """Views follow by moments of their own, of which none disturbs another, nor the mark."""
    with begin() as world:
        first = world.now()
        assert first == Moment(0, 0) and world.changed_since(first) == []
        cat, dog = spawned(world, Health=1), spawned(world, Health=2, Name="dog")
        second = world.now()
        world.mark()
        world.insert(cat, Health=3)
        world.insert(dog, At=(1, 2, 3))
        everything = [(cat, "Health"), (dog, "Name"), (dog, "Health"), (dog, "At")]
        assert world.changed_since(first) == world.added_since(first) == everything
        assert world.changed_since(second) == world.changed() == [(cat, "Health"), (dog, "At")]
        assert world.added_since(second) == world.added() == [(dog, "At")]
        assert world.changed_since(first, need=["Name"]) == everything[1:]
        assert world.changed_since(first, without=["Name"]) == world.added_since(first, (), "Name") == everything[:1]
        assert world.changed_since(world.now()) == [] == world.changed_since(first, ["Hidden"])
        assert isinstance(world.changed_since(second)[0][0], Entity)
        assert is_bad(world.changed_since, first, ["Nothing"])
        before = world.now()
        world.undo()
        for moment in (first, second, before):
            assert told(refusal(world.changed_since, moment)) == (18, "Rewound", ["1"], None)
            assert told(refusal(world.added_since, moment)) == (18, "Rewound", ["1"], None)
        after = world.now()
        assert after.rewinds == 1 and after.tick == before.tick - 1
        world.redo()
        assert world.changed_since(after) == [(dog, "At")] and world.now() == Moment(1, before.tick)


def wrong_moments(begin: Begin) -> None:
    """What is no moment is told before anything is asked."""
    with begin() as world:
        for wrong in (None, 5, "ab", [0, 0], ("0", 0), (0, 1.5), (True, 0), (None, None)):
            for since in (world.changed_since, world.added_since):
                error_of(TypeError, since, wrong)
        for bad in ((), (1,), (0, 0, 0), (-1, 0), (0, 2**64)):
            assert is_bad(world.changed_since, bad) and is_bad(world.added_since, bad)
        assert world.changed_since((0, 2**64 - 1)) == []  # type: ignore[arg-type]
        assert told(refusal(world.changed_since, Moment(2**64 - 1, 0))) == (18, "Rewound", ["0"], None)


def own_depths(begin: Begin) -> None:
    """The depth is told."""
    with begin() as world:
        world.set_depth(7)
        assert world.depth == 7 and is_set_up(world)


def open_frames(begin: Begin) -> None:
    """Whether a frame is open is told, also of one that a line or request opens, and behind what is bad or refused."""
    with begin() as world:
        assert not world.in_frame
        with world.frame():
            assert world.in_frame
        assert not world.in_frame
        for play in (world.line, world.request):
            play("begin")
            assert world.in_frame and is_bad(play, "begin") and is_bad(play, "undo") and world.in_frame
            play("commit")
            assert not world.in_frame and is_bad(play, "commit") and not world.in_frame
            play("begin")
            world.despawn("7v9")
            assert refusal(play, "commit").name == "NoSuchEntity" and not world.in_frame


def dropped_frames(begin: Begin) -> None:
    """A frame that is dropped does nothing, and isn't a call."""
    with begin() as world:
        cat = spawned(world, Health=9)
        before = world.show(), world.line("history")
        assert not world.drop_frame()
        for _ in range(2):
            world.line("begin")
            world.insert(cat, Health=5)
            assert world.drop_frame() and not world.drop_frame()
        error_of(ZeroDivisionError, fail_in_frame, world)
        assert (world.show(), world.line("history")) == before
        # Its `with` finds no frame any more.
        error = error_of(BadLine, drop_in_frame, world)
        assert "no frame is open" in str(error)
        world.undo()
        assert not world.rows()
        world.close()
        assert "closed" in str(error_of(Closed, world.drop_frame))


def fail_in_frame(world: Calls) -> None:
    """A frame that an error ends."""
    with world.frame():
        world.spawn(Health=1)
        raise ZeroDivisionError


def drop_in_frame(world: Calls) -> None:
    """A frame that is dropped before its end."""
    with world.frame():
        world.spawn(Health=1)
        world.drop_frame()


def spawns_of_dropped_frames(begin: Begin) -> None:
    """What a frame that is dropped was to spawn names nothing, in it and behind it."""
    with begin() as world:
        with suppress(ZeroDivisionError), world.frame() as made:
            lost = to_come(world, Name="cat")
            raise ZeroDivisionError
        assert made == [] and lost.entity is None and not world.in_frame
        assert is_bad(world.despawn, lost) and is_bad(world.get, lost)
        with suppress(BadLine), world.frame():
            left = to_come(world, Name="cat")
            assert world.drop_frame() and is_bad(world.despawn, left) and not world.in_frame
            one = world.spawn(Health=1)
        assert one == "0v1" and left.entity is None and [row.entity for row in world.rows()] == [one]
        with suppress(KeyboardInterrupt), world.frame():
            world.spawn()
            raise KeyboardInterrupt
        assert world.status()[:4] == (1, 0, 1, 0) and world.spawn() == "1v1"


# ---- texts


def texts_are_no_names(begin: Begin) -> None:
    """Any text may be asked for as a name: where it is none, each call says so, and the scene stays as it was."""
    with begin() as world:
        for text in TEXTS:
            assert told(refusal(world.declare, text, "Int")) == (30, "BadName", [], None), repr(text)
        cat = spawned(world, Health=1)
        before = world.show()
        for text in TEXTS:
            bad: Tuple[Callable[[], Any], ...] = (
                lambda: world.spawn(**{text: 1}),
                lambda: world.insert(cat, **{text: 1}),
                lambda: world.insert_all([cat], **{text: [1]}),
                lambda: world.remove(cat, text),
                lambda: world.get(cat, text),
                lambda: world.tables(text),
                lambda: world.each_row(text),
                lambda: world.changed_since(world.now(), [text]),
                lambda: world.added_since(world.now(), (), text),
                lambda: world.add_system("age", AddInt(text, 1), need=["Health"]),
                lambda: world.add_system("age", SpawnChild({text: 1}), need=["Health"]),
                lambda: world.add_system("age", need=[text]),
            )
            for number, call in enumerate(bad):
                assert text in str(error_of(BadLine, call)), (number, repr(text))
            assert world.shape_of(text) is None
            assert told(refusal(world.put, text, 1)) == (30, "BadName", [], (0, 0, 0)), repr(text)
            assert refusal(world.drop, text).number == refusal(world.resource, text).number == 10, repr(text)
            for name, step in ((text, AddInt("Health", 1)), ("count", CountInto(text))):
                world.add_system(name, step, need=["Health"])
                assert told(refusal(world.advance)) == (22, "BadRule", ["0", "0"], None), (name, step)
                world.clear_systems()
            if "\n" in text:
                assert is_bad(world.line, text), repr(text)
            if text not in ("+0", "7v9"):
                abouts = (world.despawn, world.despawn_all, world.get, world.row, world.children_of, world.is_alive)
                assert all(is_bad(about, text) for about in abouts), repr(text)
        for wrong in ("show \ud800", "\ud800"):
            assert is_bad(world.line, wrong) and is_bad(world.request, wrong) and is_bad(world.load, wrong)
        for call in (world.line, world.load):
            error_of(TypeError, call, 5)
            error_of(TypeError, call, b"show")
        assert world.show() == before


def texts_as_values(begin: Begin) -> None:
    """Any text is a value, of a component, of a resource and of what a system spawns."""
    with begin() as world:
        cat = spawned(world, Health=1)
        for text in TEXTS:
            with world.frame():
                one = to_come(world, Name=text)
                world.insert(one, Target=cat)
                world.put("title", text, "Text")
            world.clear_systems()
            world.add_system("birth", SpawnChild({"Name": text}), CountInto("left"), need=["Health"])
            child = world.advance()[0]
            assert world.get(one, "Name") == world.get(child, "Name") == world.resource("title") == text, repr(text)
            assert [row.cells["Name"].value for row in world.each_row("Name") if row.entity == child] == [text]
            step = world.past_step(1)
            assert step is not None and step.deltas[-1].after == text and step.deltas[0].cells == {"Name": text}
            world.undo()
            again = world.future_step()
            assert again is not None and again.deltas[0].cells == {"Name": text} and not world.is_alive(child)
            world.redo()
            world.insert_all([child], Name=[text + " "])
            assert world.row(child).values() == {"Name": text + " "} and world.parent_of(child) == cat
        assert world.resource("left") == 1


# ---- questions


EVERYTHING: Dict[str, Any] = {"need": [], "without": []}
PUT = {"after": ["Int", 3, 4, 4], "before": None, "name": "left", "op": "resourceset"}
CAT = {"entity": "0v1", "cells": {"Health": [5, 1, 1], "Name": ["a b", 1, 1]}}
KITTEN = {"entity": "1v1", "cells": {"Health": [6, 2, 2]}}
NOW = {"answer": "status", "tick": 4, "rewinds": 0, "past": 4, "future": 0, "depth": 9, "slots": 2, "limit": 2**20}
CAT_CELLS = [{"entity": "0v1", "kind": kind} for kind in ("Health", "Name")]
# Requests that ask, each with its keys and its answer.
QUESTIONS: Tuple[Tuple[str, Dict[str, Any], Dict[str, Any]], ...] = (
    ("status", {}, NOW),
    ("kinds", {}, {"answer": "kinds", "kinds": [["Health", "Int"], ["Name", "Text"]]}),
    ("tables", {"need": ["Name"], "without": []}, {"tables": [{"kinds": ["Health", "Name"], "rows": 1}]}),
    ("rows", {**EVERYTHING, "from": 0, "count": 5}, {"rows": [KITTEN, CAT]}),
    ("rows", {**EVERYTHING, "from": 1, "count": 1}, {"rows": [CAT]}),
    ("children", {"entity": "0v1"}, {"answer": "children", "entities": ["1v1"]}),
    ("parentof", {"entity": "1v1"}, {"answer": "parent", "entity": "0v1"}),
    ("parentof", {"entity": "0v1"}, {"answer": "parent", "entity": None}),
    ("resources", {}, {"resources": {"left": ["Int", 3, 4, 4]}}),
    ("past", {"from": 0, "count": 1}, {"answer": "steps", "length": 4, "steps": [{"tick": 3, "deltas": 1}]}),
    ("future", {"from": 0, "count": 1}, {"answer": "steps", "length": 0, "steps": []}),
    ("deltas", {"of": "past", "step": 0}, {"record": {"deltas": [PUT], "tick": 3}}),
    ("deltas", {"of": "future", "step": 0}, {"record": None}),
    ("step", {"way": "forth"}, {"answer": "step", "way": "forth", "deltas": [PUT]}),
    ("step", {"way": "back"}, {"answer": "step", "way": "back", "deltas": None}),
    (
        "changedsince",
        {**EVERYTHING, "rewinds": 0, "tick": 1},
        {"answer": "changed", "cells": [{"entity": "1v1", "kind": "Health"}]},
    ),
    ("addedsince", {"need": ["Name"], "without": [], "rewinds": 0, "tick": 0}, {"answer": "added", "cells": CAT_CELLS}),
    ("undo", {}, {"answer": "undone"}),
    ("step", {"way": "back"}, {"answer": "step", "way": "back", "deltas": [PUT]}),
    ("begin", {}, {"answer": "ok"}),
    ("dropframe", {}, {"answer": "ok"}),
    ("status", {}, {**NOW, "tick": 3, "rewinds": 1, "past": 3, "future": 1}),
    ("redo", {"count": 1}, {"answer": "redone"}),
    ("redo", {"count": 0}, {"answer": "redone"}),
    ("status", {}, {**NOW, "rewinds": 1}),
)


def questions(begin: Begin) -> None:
    """Each request that asks is answered in its form, and leaves the scene and the mark."""
    with begin({"Health": "Int", "Name": "Text"}) as world:
        world.set_depth(9)
        cat = spawned(world, Health=5, Name="a b")
        world.set_parent(spawned(world, Health=6), cat)
        world.put("left", 3)
        before = world.save(), world.line("history"), world.changed()
        for do, keys, wanted in QUESTIONS:
            if do == "undo":
                assert (world.save(), world.line("history"), world.changed()) == before
            found = world.request(do, **keys)
            assert found == {"answer": do, **wanted}, (do, found)


def bad_questions(begin: Begin) -> None:
    """A bad question tells why, and the path of what is bad in it; one that is refused, the fault."""
    with begin() as world:
        whole: Dict[str, Any] = {"need": [], "without": [], "from": 0, "count": 1}
        for path, changed in {
            "need[1]": {"need": ["Health", "\u041a\u043e\u0442\n"]},
            "from": {"from": -1},
            "count": {"count": 2**32},
            'a "': {'a "': 1},
        }.items():
            error = error_of(BadLine, world.request, "rows", **{**whole, **changed})
            assert error.path == path and str(error).startswith(scene_text(path)), error
        assert error_of(BadLine, world.request, "children", entity="+0").path == "entity"
        assert refusal(world.request, "children", entity="9v9").number == 1
        for count in (-1, 2**32, True, "1"):
            assert error_of(BadLine, world.request, "undo", count=count).path == "count"
        dropped = error_of(BadLine, world.request, "dropframe")
        assert dropped.path is None and str(dropped).startswith("no frame is open")


def scene_text(text: str) -> str:
    """A text as a reason has it."""
    return '"' + text.replace('"', '\\"') + '"'


# ---- over the shell alone


def questions_in_frames(program: str) -> None:
    """Over the shell nothing is asked in an open frame, which stays open."""
    with scene.open(kinds=KINDS, program=program) as world:
        now = world.now()
        with world.frame() as made:
            world.spawn(Health=1)
            asked: Tuple[Callable[[], Any], ...] = (world.tables, world.now, world.past_step, world.future_step)
            asked += (lambda: world.changed_since(now), lambda: world.added_since(now), lambda: world.depth)
            for number, call in enumerate(asked):
                assert str(error_of(BadLine, call)).startswith("a frame is open"), number
        assert made == ["0v1"] and world.changed_since(now) == [("0v1", "Health")]


def pages_are_asked_for_one_by_one(program: str) -> None:
    """No page is asked for before its rows are, and none twice."""
    with wrapped(program, f'tee asked | {program} "$@"; exit') as (heard, room):
        with scene.open(kinds=KINDS, program=heard) as world:
            some_rows(world, 25)
            rows = world.each_row(page=10)
            taken: List[Row] = []
            for count, pages in ((0, []), (1, [0]), (9, [0]), (1, [0, 10]), (9, [0, 10]), (9, [0, 10, 20])):
                taken += islice(rows, count)
                asked = re.findall(r'"do":"rows".*"from":(\d+),"count":10', (room / "asked").read_text())
                assert list(map(int, asked)) == pages, (len(taken), asked)
            assert next(rows, None) is None and taken == world.rows()


def answers_in_parts(program: str) -> None:
    """Of requests that are sent together each has its own answer, however the answers come."""
    slowly = 'while IFS= read -r line; do printf "%s\\n" "$line"; sleep 0.01; done'
    with wrapped(program, f'{program} "$@" | {slowly}; exit') as (slow, _):
        with scene.open(kinds=KINDS, program=slow) as world:
            one, two = spawned(world, Health=1), spawned(world, Name="\n\n")
            world.set_parent(two, one)
            assert list(world.each_row()) == world.rows() == [world.row(two), world.row(one)]
            assert [row.parent for row in world.rows()] == [one, None] and refusal(world.row, "7v9").number == 1
            assert world.children_of(one) == [two]


def requests_in_batches(program: str) -> None:
    """What is sent together is never more than a pipe holds, whose other end waits for its answers to be read."""
    lines = [b"x" * length for length in (1, HELD, 1, HELD - 1, 1, 3 * HELD, *[HELD // 40] * 100)]
    found = list(batches(lines))
    assert [line for batch in found for line in batch] == lines and [] not in found
    assert all(len(b"".join(batch)) <= HELD or len(batch) == 1 for batch in found)
    assert [len(batch) for batch in found] == [1, 1, 2, 1, 1, 40, 40, 20]
    with scene.open(kinds=KINDS, program=program) as world:
        made = some_rows(world, 3000)
        assert sorted(row.entity for row in world.each_row(page=2**20)) == sorted(made)


def moments_of_stores(program: str) -> None:
    """A moment, the count of what was taken back, and the frames that are kept are those of the store."""
    with tempfile.TemporaryDirectory() as room:
        path = Path(room) / "level.db"
        with scene.open(path, KINDS, program) as world:
            cat = spawned(world, Name="a \u041a\u043e\u0442")
            world.insert(cat, Health=1)
            world.undo(2)
            world.redo()
            moment, status, steps = world.now(), world.status(), (world.past_step(), world.future_step())
            assert moment == (2, 1) and status[:4] == (1, 2, 1, 1)
        with scene.open(path, program=program) as world:
            assert (world.now(), world.status(), world.kinds()) == (moment, status, KINDS)
            assert (world.past_step(), world.future_step()) == steps
            world.redo()
            assert world.changed_since(moment) == [(cat, "Health")]
            world.undo()
            assert told(refusal(world.changed_since, moment)) == (18, "Rewound", ["3"], None)


def dropped_frames_of_stores(program: str) -> None:
    """A frame that is dropped isn't in the store, and what comes behind it is."""
    with tempfile.TemporaryDirectory() as room:
        path = Path(room) / "level.db"
        with scene.open(path, KINDS, program) as world:
            for number in range(3):
                with suppress(ZeroDivisionError), world.frame():
                    world.spawn(Name="lost")
                    raise ZeroDivisionError
                with world.frame():
                    world.spawn(Health=number)
            assert world.drop_frame() is False
            before = world.rows(), world.save(), world.line("history")
            world.line("begin")
            world.spawn(Name="lost")
        with scene.open(path, KINDS, program) as world:
            assert (world.rows(), world.save(), world.line("history")) == before
            assert [row.values() for row in world.rows()] == [{"Health": number} for number in range(3)]


BOTH = (
    kinds_and_tables,
    rows_in_pages,
    long_pages,
    rows_of_a_scene_that_changes,
    moments,
    wrong_moments,
    own_depths,
    open_frames,
    dropped_frames,
    spawns_of_dropped_frames,
    texts_are_no_names,
    texts_as_values,
    questions,
    bad_questions,
)
PROGRAMS = (
    questions_in_frames,
    pages_are_asked_for_one_by_one,
    answers_in_parts,
    requests_in_batches,
    moments_of_stores,
    dropped_frames_of_stores,
)
