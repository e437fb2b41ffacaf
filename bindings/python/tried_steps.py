"""What try_scene.py tries of what each frame did: its deltas, and a view that follows by them alone."""
from __future__ import annotations

import random
import time
from collections import Counter
from typing import Any, Callable, Dict, List, Optional, Tuple

from scene import AddInt, Calls, CountInto, Delta, DespawnAtZero, Entity, KeptStep, Refused, SpawnChild, StepSummary
from trying import KINDS, UNUSUAL, Begin, error_of, is_bad, over_library, spawned


def kept_steps(begin: Begin) -> None:
    """What each frame did is told in its order, before and behind what is there, and the same backward."""
    with begin() as world:
        assert world.past_step() is None is world.future_step() and world.past() == [] == world.future()
        with world.frame():
            world.spawn(Health=0, At=(1, -2, 3), Target="7v9", Hidden=True, Name="")
            world.spawn(Health=1)
            world.set_parent("+1", "+0")
            world.put("left", 7)
        cat, dog = Entity("0v1"), Entity("1v1")
        first = KeptStep(0, first_deltas(cat, dog))
        assert world.past_step() == first and world.future_step() is None
        some_changes(world, cat, dog)
        second = KeptStep(1, second_deltas(cat, dog))
        assert world.past_step() == second, world.past_step()
        assert world.past_step(1) == first and world.past_step(2) is None
        told = world.past_step(1)
        assert told is not None and told.deltas[0].cells is not None
        assert isinstance(told.deltas[0].cells["Target"], Entity) and list(told.deltas[0].cells) == list(KINDS)
        world.undo()
        assert world.future_step() == second and world.past_step() == first and world.future_step(1) is None
        back = second.undone()
        assert back[0] == Delta("spawned", dog, parent_after=cat, place_after=0, row_after=0, cells={"Target": cat})
        assert back[3] == Delta("shifted", dog, "Health", None, 1, row_after=0)
        assert back[-1] == Delta("set", cat, "Health", -(2**63), 0) and KeptStep(1, back).undone() == second.deltas
        world.undo()
        assert (world.future_step(), world.future_step(1), world.future_step(2)) == (first, second, None)
        assert world.future() == [StepSummary(0, 4), StepSummary(1, 9)] and world.past() == []


def first_deltas(cat: Entity, dog: Entity) -> List[Delta]:
    cells = {"Name": "", "Health": 0, "At": (1, -2, 3), "Hidden": True, "Target": Entity("7v9")}
    return [
        Delta("spawned", cat, cells=cells),
        Delta("spawned", dog, cells={"Health": 1}),
        Delta("linked", dog, parent_after=cat, place_after=0),
        Delta("resource", None, after=7, name="left"),
    ]


def some_changes(world: Calls, cat: Entity, dog: Entity) -> None:
    """A frame that does all that a delta tells, but a spawn."""
    with world.frame():
        world.insert(cat, Health=-(2**63), Name="a\u65e5\0")
        world.remove(cat, "Name")
        world.remove(cat, "At")
        world.insert(dog, Target=cat)
        world.remove(dog, "Health")
        world.put("left", "\u00e9" * 5000)
        world.drop("left")
        world.despawn(dog)


def second_deltas(cat: Entity, dog: Entity) -> List[Delta]:
    return [
        Delta("set", cat, "Health", 0, -(2**63)),
        Delta("set", cat, "Name", "", "a\u65e5\0"),
        Delta("shifted", cat, "Name", "a\u65e5\0", None, row_before=0),
        Delta("shifted", cat, "At", (1, -2, 3), None, row_before=0),
        Delta("shifted", dog, "Target", None, cat, row_before=0),
        Delta("shifted", dog, "Health", 1, None, row_before=0),
        Delta("resource", None, None, 7, "\u00e9" * 5000, name="left"),
        Delta("resource", None, None, "\u00e9" * 5000, None, name="left"),
        Delta("despawned", dog, parent_before=cat, place_before=0, row_before=0, cells={"Target": cat}),
    ]


def places_of_steps(begin: Begin) -> None:
    """A place of a step is a whole number from 0, and may be greater than any."""
    with begin() as world:
        spawned(world)
        for step in (world.past_step, world.future_step):
            assert step(2**64) is step(2**32) is None and is_bad(step, -1)
            for wrong in (None, "0", 0.5, True):
                error_of(TypeError, step, wrong)
        for listing in (world.past, world.future):
            assert listing(2**64) == listing(1, 2**70) == listing(0, 0) == [] and is_bad(listing, -1)
            assert is_bad(listing, 0, -1)
            for wrong in (None, "0", 0.5, True):
                error_of(TypeError, listing, wrong)
                error_of(TypeError, listing, 0, wrong)


def lists_of_steps(begin: Begin) -> None:
    """The frames that are kept are listed with their ticks and the counts of their deltas, from any place on."""
    with begin() as world:
        for number in range(30):
            with world.frame():
                for _ in range(number):
                    world.spawn(Health=number)
        told = [StepSummary(number, number) for number in range(30)]
        assert world.past() == told[:9:-1] and world.past(count=100) == world.past(0, 2**40) == told[::-1]
        assert world.past(3, 2) == [StepSummary(26, 26), StepSummary(25, 25)] and world.past(29) == told[:1]
        assert world.past(30) == [] == world.future()
        world.undo(7)
        assert world.past(0, 1) == told[22:23] and world.future() == told[23:] and world.future(5, 9) == told[28:]
        kept = world.past_step(2)
        assert kept is not None and (kept.tick, len(kept.deltas)) == world.past(2, 1)[0] == told[20]


def steps_in_frames(begin: Begin) -> None:
    """Over the library an open frame hides no step."""
    with begin() as begun:
        world = over_library(begun)
        spawned(world, Health=1)
        before = world.past_step()
        with world.frame():
            world.spawn()
            assert world.past_step() == before is not None
        assert world.past_step(1) == before


def texts_of_steps(begin: Begin) -> None:
    """Each text of a step is that of its delta, whatever was written since, and whatever its characters."""
    with begin({"Name": "Text", "More": "Text"}) as world:
        one = spawned(world)
        texts = [str(text) for text in (*UNUSUAL, "two words\n", "long \u00e9" * 10_000, "a", "")]
        with world.frame():
            for number, text in enumerate(texts):
                world.spawn(Name=text, More=f"more {number}")
                world.insert(one, Name=text)
                world.put("title", text, "Text")
        world.insert(one, Name="other")
        world.despawn("1v1")
        told = world.past_step(2)
        assert told is not None and len(told.deltas) == 3 * len(texts)
        before: Optional[str] = None
        for number, text in enumerate(texts):
            come, written, put = told.deltas[3 * number : 3 * number + 3]
            assert come.cells == {"Name": text, "More": f"more {number}"}, repr(text)
            assert written[:5] == ("set" if number else "shifted", one, "Name", before, text)
            assert put[:5] == ("resource", None, None, before, text) and put.name == "title"
            before = text


def steps_of_many(begin: Begin) -> None:
    """A step of many rows is told whole, with the texts of each kind, as it came and as it went; in little time, which
    would be some seconds if each row and each text took a way through those before it."""
    with begin({"Name": "Text", "At": "Vec3", "More": "Text"}) as world:
        many = 10_000
        with world.frame() as made:
            for number in range(many):
                more = {"More": f"more {number}"} if number % 3 == 0 else {}
                world.spawn(Name="\u00e9" * (number % 50) + str(number), At=(number, 0, -number), **more)
        with world.frame():
            for entity in made:
                world.despawn(entity)
            world.put("title", "none is left")
        cells: List[Dict[str, Any]] = [
            {"Name": "\u00e9" * (number % 50) + str(number), "At": (number, 0, -number)} for number in range(many)
        ]
        for number in range(0, many, 3):
            cells[number]["More"] = f"more {number}"
        begins = time.process_time()
        came, went = world.past_step(1), world.past_step()
        spent = time.process_time() - begins
        assert came == KeptStep(0, [Delta("spawned", entity, cells=each) for entity, each in zip(made, cells)])
        assert went is not None and len(went.deltas) == many + 1
        assert went.deltas[-1] == Delta("resource", None, after="none is left", name="title")
        gone = [(delta.change, delta.entity, delta.cells) for delta in went.deltas[:-1]]
        assert gone == [("despawned", entity, each) for entity, each in zip(made, cells)]
        assert spent < 2, spent


def values_of_resources(begin: Begin) -> None:
    """A resource is told before and after, of whatever shape it was and is."""
    with begin() as world:
        before: Any = None
        for value in (True, -5, (1, -2, 3), "a b", Entity("7v9"), "7v9", "", None):
            if value is None:
                world.drop("door")
            else:
                world.put("door", value)
            told = world.past_step()
            assert told is not None and told.deltas == [Delta("resource", None, None, before, value, name="door")]
            assert type(told.deltas[0].after) is type(value) and type(told.deltas[0].before) is type(before)
            before = value


# ---- a view by deltas alone


class Follower:
    """A view that knows all of a scene by deltas alone: tables of entities in their order, components, the tree, and
    resources. It has no scene that it could ask."""

    def __init__(self) -> None:
        self.tables: Dict[Tuple[str, ...], List[Entity]] = {}
        self.cells: Dict[Entity, Dict[str, Any]] = {}
        self.parents: Dict[Entity, Entity] = {}
        self.children: Dict[Entity, List[Entity]] = {}
        self.resources: Dict[str, Any] = {}

    def follow(self, delta: Delta) -> None:
        """Follows a delta. What it tells of before has to be what is there."""
        entity = delta.entity
        if entity is None:
            assert delta.name is not None and self.resources.get(delta.name) == delta.before
            write(self.resources, delta.name, delta.after)
        elif delta.change == "spawned":
            self.cells[entity] = dict(delta.cells or {})
            self.come(entity, delta.row_after)
            self.link(entity, delta.parent_after, delta.place_after)
        elif delta.change == "despawned":
            self.unlink(entity, delta.parent_before, delta.place_before)
            self.leave(entity, delta.row_before)
            assert self.cells.pop(entity) == delta.cells and entity not in self.children
        elif delta.change == "linked":
            self.unlink(entity, delta.parent_before, delta.place_before)
            self.link(entity, delta.parent_after, delta.place_after)
        else:
            self.write(entity, delta)

    def write(self, entity: Entity, delta: Delta) -> None:
        """Follows a component that came, went or was written."""
        assert delta.kind is not None and self.cells[entity].get(delta.kind) == delta.before
        if delta.change == "set":
            self.cells[entity][delta.kind] = delta.after
            return
        self.leave(entity, delta.row_before)
        write(self.cells[entity], delta.kind, delta.after)
        self.come(entity, delta.row_after)

    def table(self, entity: Entity) -> List[Entity]:
        """The table of an entity: that of its kind set."""
        return self.tables.setdefault(tuple(kind for kind in KINDS if kind in self.cells[entity]), [])

    def leave(self, entity: Entity, place: Optional[int]) -> None:
        """The row leaves its table by swap out: from its last place, where none is told."""
        table = self.table(entity)
        at = len(table) - 1 if place is None else place
        assert table[at] == entity
        table[at] = table[-1]
        table.pop()

    def come(self, entity: Entity, place: Optional[int]) -> None:
        """The row comes to its table: to the end, or to a place, from which the row there goes to the end."""
        table = self.table(entity)
        table.append(entity)
        if place is not None:
            table[place], table[-1] = table[-1], table[place]

    def unlink(self, entity: Entity, parent: Optional[Entity], place: Optional[int]) -> None:
        """The entity leaves its parent."""
        assert self.parents.pop(entity, None) == parent
        if parent is not None:
            assert place is not None and self.children[parent].pop(place) == entity
            if not self.children[parent]:
                del self.children[parent]

    def link(self, entity: Entity, parent: Optional[Entity], place: Optional[int]) -> None:
        """The entity comes to a place among the children of its parent."""
        if parent is not None:
            assert place is not None and place <= len(self.children.get(parent, ()))
            self.parents[entity] = parent
            self.children.setdefault(parent, []).insert(place, entity)

    def compare(self, world: Calls) -> None:
        """The scene has just what this knows, in the same order."""
        order = sorted(self.tables, key=lambda kinds: sum(1 << list(KINDS).index(kind) for kind in kinds))
        wanted = [
            (one, self.cells[one], self.parents.get(one), tuple(self.children.get(one, ())))
            for kinds in order
            for one in self.tables[kinds]
        ]
        assert [(row.entity, row.values(), row.parent, row.children) for row in world.rows()] == wanted
        assert {name: cell.value for name, cell in world.resources().items()} == self.resources


def write(values: Dict[str, Any], name: str, value: Any) -> None:
    """Writes a value, or takes it away where it is None."""
    if value is None:
        del values[name]
    else:
        values[name] = value


def random_value(any_of: random.Random, kind: str) -> Any:
    """A value of a kind."""
    texts = (*map(str, UNUSUAL), "a b", "\u65e5" * any_of.randrange(2000))
    numbers = any_of.randrange(9), any_of.randrange(-(2**63), 2**63), 0
    values = {"Health": numbers[0], "Name": any_of.choice(texts), "Hidden": True, "At": numbers}
    return values.get(kind, Entity(f"{numbers[0]}v1"))


def random_frame(world: Calls, any_of: random.Random) -> None:
    """A frame of commands about entities that are there or were, which is refused where one of them can't be."""
    named = [f"{any_of.randrange(20)}v{any_of.choice((1, 1, 2))}" for _ in range(6)]
    kinds = any_of.sample(list(KINDS), 2)
    cells = {kind: random_value(any_of, kind) for kind in kinds}
    name = any_of.choice(("left", "title"))
    commands: List[Callable[[], Any]] = [
        lambda: world.spawn(**cells),
        lambda: world.set_parent(world.spawn(Health=1, Name="child"), named[0]),  # type: ignore[arg-type]
        lambda: world.insert(named[1], **cells),
        lambda: world.remove(named[2], kinds[0]),
        lambda: world.set_parent(named[3], named[4]),
        lambda: world.despawn_all(named[5]),
        lambda: world.put(name, cells[kinds[0]]),
        lambda: world.drop(name),
    ]
    with world.frame():
        for command in any_of.choices(commands, (4, 3, 4, 2, 3, 1, 2, 1), k=any_of.randrange(1, 3)):
            command()


def random_step(world: Calls, any_of: random.Random, do: str, count: int) -> None:
    """A step: a frame, an advance, inserts to many, or several frames back or forth."""
    if do == "frame":
        random_frame(world, any_of)
    elif do == "advance":
        world.advance()
    elif do == "insert_all":
        alive = [row.entity for row in world.rows()]
        named, kind = any_of.sample(alive, min(len(alive), count)), any_of.choice(list(KINDS))
        world.insert_all(named, **{kind: [random_value(any_of, kind) for _ in named]})
    else:
        getattr(world, do)(count)


def deltas_of(world: Calls, do: str, count: int) -> List[Delta]:
    """The deltas that lead on from the scene before a step."""
    step = world.future_step if do == "undo" else world.past_step
    kept = [step(place) for place in reversed(range(count if do in ("undo", "redo") else 1))]
    assert None not in kept
    told_by = [one.undone() if do == "undo" else one.deltas for one in kept if one]
    return [each for deltas in told_by for each in deltas]


def steps_are_followed(begin: Begin) -> None:
    """A view by deltas alone has what the scene has behind each of many frames, advances, undos and redos."""
    with begin() as world:
        any_of = random.Random(7)
        world.add_system("age", AddInt("Health", -1), DespawnAtZero("Health"), CountInto("left"), need=["Health"])
        world.add_phase()
        world.add_system("birth", SpawnChild({"Name": "a \u65e5", "Health": 2}), need=["Hidden", "At"])
        view, done = Follower(), Counter[str]()
        choices = ("frame", "frame", "frame", "frame", "insert_all", "advance", "undo", "undo", "redo", "redo", "redo")
        for _ in range(1000):
            do, count = any_of.choice(choices), any_of.randrange(1, 5)
            try:
                random_step(world, any_of, do, count)
            except Refused:
                do = "refused"
            else:
                for delta in deltas_of(world, do, count):
                    view.follow(delta)
            view.compare(world)
            done[do] += 1
        assert min(done.values()) >= 20 and len(done) == 6, done
        assert sum(done.values()) - done["refused"] >= 300, done


BOTH = (
    kept_steps,
    places_of_steps,
    lists_of_steps,
    texts_of_steps,
    values_of_resources,
    steps_are_followed,
)
LIBRARY = (steps_in_frames, steps_of_many)
