#!/usr/bin/env -S python3 -B
"""The loop of an engine over the C library: 10,000 entities in a tree, drawn by columns, and followed by two views.

    bindings/python/examples/frames.py [LIBRARY]

Systems move all entities for 60 frames, each drawn into a checksum. Then come 300 random steps: frames of many
writes, removals, new parents, resources, advances, and undos and redos of several frames. One view follows each step
by the deltas of its frames, and reads nothing anew; another one now and then by a moment of its own, and reads anew
where something was undone; a model beside the scene keeps what has to be there. Scene, model and the first view are
compared whole at each step, and the tree now and then. In the end the scene is saved, and loaded into another one.

Without a path, the library is the one that SCENE_LIBRARY names, or else libscene.so in the folder of SCENE_LIB_DIR. The
status is 0, or 1 where something differs, which is told.
"""
import random
import sys
from pathlib import Path

sys.path.insert(0, str(Path(__file__).resolve().parents[1]))

from scene import AddInt, AddVec, CountInto, Refused  # noqa: E402
from scene.library import LibraryScene  # noqa: E402

COUNT, GROUPS, FRAMES, STEPS, DEPTH = 10_000, 100, 60, 300, 25
KINDS = {"At": "Vec3", "Speed": "Vec3", "Health": "Int", "Name": "Text"}
FOLLOWED = ("At", "Health")


def same(found, wanted, what):
    """Ends the program where two things that have to be the same aren't."""
    if found != wanted:
        print(f"frames: {what} differs: {str(found)[:200]}, and not {str(wanted)[:200]}")
        sys.exit(1)


class Model:
    """What the scene has to hold, and what each frame changed: places of lists, with what was there and what is."""

    def __init__(self):
        self.speed = [(number % 7 - 3, number % 5 - 2, number % 3 - 1) for number in range(COUNT)]
        self.lists = {
            "At": [(number, number // GROUPS, 0) for number in range(COUNT)],
            "Health": list(range(1, COUNT + 1)),
            "parent": [None, *([0] * (GROUPS - 1)), *(1 + number % (GROUPS - 1) for number in range(COUNT - GROUPS))],
            "resources": ["start"],
        }
        self.past, self.future = [], []

    def write(self, changes):
        """A new frame: changes of a list, a place and what is to be there."""
        frame = [(name, place, self.lists[name][place], value) for name, place, value in changes]
        self.past = [*self.past, frame][-DEPTH:]
        self.future = []
        for name, place, _, value in frame:
            self.lists[name][place] = value

    def undo(self):
        self.future.append(self.past.pop())
        for name, place, value, _ in reversed(self.future[-1]):
            self.lists[name][place] = value

    def redo(self):
        self.past.append(self.future.pop())
        for name, place, _, value in self.past[-1]:
            self.lists[name][place] = value


class StepView:
    """What the scene holds, kept by the deltas of frames, undos and redos alone."""

    def __init__(self, level, ids):
        self.level, self.moment, self.followed = level, level.now(), 0
        self.places = {None: None, **{entity: place for place, entity in enumerate(ids)}}
        self.lists = {kind: level.values(ids, kind) for kind in FOLLOWED}
        self.lists["parent"] = [self.places[level.parent_of(entity)] for entity in ids]
        self.lists["resources"] = [level.resource("title")]

    def follow(self):
        """Follows what was done since, or what was undone; both since the last time would be too much."""
        now = self.level.now()
        back = now.rewinds - self.moment.rewinds
        forth = now.tick - self.moment.tick + back
        for place in reversed(range(back)):
            self.write(self.level.future_step(place).undone())
        for place in reversed(range(forth)):
            self.write(self.level.past_step(place).deltas)
        self.moment = now

    def write(self, deltas):
        """Follows the deltas of a frame."""
        at, places = self.lists, self.places
        for delta in deltas:
            if delta.kind in FOLLOWED:
                at[delta.kind][places[delta.entity]] = delta.after
            elif delta.change == "linked":
                at["parent"][places[delta.entity]] = places[delta.parent_after]
            elif delta.name == "title":
                at["resources"] = [delta.after]
        self.followed += len(deltas)


class MomentView:
    """Values of the scene, kept by what was written since a moment of the view's own."""

    def __init__(self, level, ids):
        self.level, self.ids = level, level.packed(ids)
        self.followed = self.anew = 0
        self.read()

    def read(self):
        """Reads all."""
        self.values = {kind: self.level.values(self.ids, kind) for kind in FOLLOWED}
        self.moment = self.level.now()

    def follow(self):
        """Reads what was written since, or all where something was undone."""
        try:
            written = self.level.changed_since(self.moment)
        except Refused:
            self.anew += 1
            self.read()
            return
        for kind in FOLLOWED:
            entities = [entity for entity, changed in written if changed == kind]
            values = self.values[kind]
            for entity, value in zip(entities, self.level.values(entities, kind)):
                values[entity.index] = value
        self.followed += len(written)
        self.moment = self.level.now()
        self.forget()

    def forget(self):
        """What was taken away isn't told: the view then has more than the scene."""
        for kind in FOLLOWED:
            there = sum(rows for _, rows in self.level.tables(kind))
            if there != COUNT - self.values[kind].count(None):
                self.values[kind] = self.level.values(self.ids, kind)


def build(level, model):
    """A root, groups below it, and all others below the groups, in one frame."""
    with level.frame() as made:
        entities = []
        for number, parent in enumerate(model.lists["parent"]):
            cells = {kind: model.lists[kind][number] for kind in FOLLOWED}
            entities.append(level.spawn(Speed=model.speed[number], Name=f"number {number}", **cells))
            if parent is not None:
                level.set_parent(entities[-1], entities[parent])
    level.put("title", model.lists["resources"][0])
    level.add_system("move", AddVec("At", "Speed"), need=["At", "Speed"])
    level.add_system("age", AddInt("Health", -1), CountInto("left"), need=["Health"])
    same(made, [f"{number}v1" for number in range(COUNT)], "what was spawned")
    return made


def advance(level, model):
    """A turn of the systems, in the scene and in the model."""
    health, at = (model.lists[kind] for kind in ("Health", "At"))
    moved = [(x + by_x, y + by_y, z + by_z) for (x, y, z), (by_x, by_y, by_z) in zip(at, model.speed)]
    same(level.advance(), [], "what an advance spawned")
    same(level.resource("left"), COUNT - health.count(None), "the count of a system")
    model.write(
        [
            *(("At", place, value) for place, value in enumerate(moved)),
            *(("Health", place, value - 1) for place, value in enumerate(health) if value is not None),
        ]
    )


def drawn(level):
    """The sum of all that a frame shows, read by columns."""
    total = 0
    for mask, _ in level.tables("At"):
        total += sum(memoryview(level.column(mask, "At")).cast("B").cast("q"))
        if "Health" in level.kinds_of(mask):
            total += sum(level.column(mask, "Health"))
    return total


class Game:
    """The steps, and how many there were of each."""

    def __init__(self, level):
        self.level, self.model, self.any_of = level, Model(), random.Random(1)
        self.ids = build(level, self.model)
        # (so that they aren't read from their texts at each step)
        self.packed = level.packed(self.ids)
        self.told = dict.fromkeys(("undo", "redo", "refused"), 0)

    def places(self):
        """Places of some entities, each once."""
        return self.any_of.sample(range(COUNT), self.any_of.randrange(1, 40))

    def write(self):
        """A frame of many writes."""
        changes = [("Health", place, self.any_of.randrange(1000)) for place in self.places()]
        changes += [("At", place, (self.any_of.randrange(1000), place, 1)) for place in self.places()]
        with self.level.frame():
            for kind, place, value in changes:
                self.level.insert(self.ids[place], **{kind: value})
        self.model.write(changes)

    def remove(self):
        """A frame that takes components away."""
        has = [place for place in self.places() if self.model.lists["Health"][place] is not None]
        with self.level.frame():
            for place in has:
                self.level.remove(self.ids[place], "Health")
        self.model.write([("Health", place, None) for place in has])

    def move(self):
        """A frame that gives an entity another parent, or none."""
        place = self.any_of.randrange(1, COUNT)
        parent = self.any_of.randrange(min(place, GROUPS)) if self.any_of.randrange(4) else None
        if parent is None and self.model.lists["parent"][place] is None:
            return
        self.level.set_parent(self.ids[place], None if parent is None else self.ids[parent])
        self.model.write([("parent", place, parent)])

    def put(self):
        """A resource whose text has any characters."""
        text = "".join(self.any_of.choice(' aé"\\\n日') for _ in range(self.any_of.randrange(20)))
        self.level.put("title", text)
        self.model.write([("resources", 0, text)])

    def steps(self, do):
        """Several frames back, or forth again; where there are fewer, none."""
        there = len(self.model.past if do == "undo" else self.model.future)
        count = self.any_of.randrange(1, min(there, 10) + 3)
        if count > there:
            before = self.level.status()
            try:
                getattr(self.level, do)(getattr(before, do) + count)
                same("done", "refused", f"{do} of more frames than there are")
            except Refused as refused:
                same(refused.number, 15 if do == "undo" else 16, "a fault")
            same(self.level.status(), before, f"the scene behind a refused {do}")
            self.told["refused"] += 1
            return
        getattr(self.level, do)(count)
        for _ in range(count):
            getattr(self.model, do)()
        self.told[do] += 1

    def step(self):
        """A random step."""
        choice = self.any_of.randrange(80)
        if choice < 20:
            self.write()
        elif choice < 47:
            (self.remove, self.move, self.put)[choice % 3]()
        elif choice < 48:
            advance(self.level, self.model)
        else:
            self.steps("undo" if choice < 58 else "redo")

    def compare(self, view):
        """The scene, a view of it, and the model hold the same."""
        for kind in FOLLOWED:
            same(self.level.values(self.packed, kind), self.model.lists[kind], f"{kind} in the scene")
        same(view.lists, self.model.lists, "a view by deltas")
        parents = self.model.lists["parent"]
        same(self.level.roots(), [self.ids[place] for place in range(COUNT) if parents[place] is None], "the roots")
        same(self.level.resource("title"), self.model.lists["resources"][0], "a resource")

    def compare_tree(self):
        """Each entity has its parent, and is one of its parent's children."""
        parents = [None if parent is None else self.ids[parent] for parent in self.model.lists["parent"]]
        rows = {row.entity: row for row in self.level.rows()}
        same([rows[entity].parent for entity in self.ids], parents, "the parents")
        below = sorted(entity for entity, parent in zip(self.ids, parents) if parent is not None)
        same(sorted(child for row in rows.values() for child in row.children), below, "the children")
        group = self.ids[self.any_of.randrange(GROUPS)]
        same(self.level.children_of(group), list(rows[group].children), "the children of one")


def play(game):
    """The random steps, after each of which one view follows, and after some the other one too."""
    # (so that undos seldom go over advances, of which each has two deltas of every entity)
    for _ in range(DEPTH):
        game.write()
    often, seldom = StepView(game.level, game.ids), MomentView(game.level, game.ids)
    for number in range(1, STEPS + 1):
        game.step()
        often.follow()
        game.compare(often)
        if number % 7 == 0:
            seldom.follow()
            same(seldom.values, {kind: often.lists[kind] for kind in FOLLOWED}, "a view by moments")
        if number % 150 == 0:
            game.compare_tree()
    told = ", ".join(f"{count} {name}" for name, count in game.told.items())
    print(f"{STEPS} steps: {told}; the view by moments read anew {seldom.anew} times")
    print(f"followed {often.followed} deltas and {seldom.followed} changes")


def save_and_load(level, library):
    """A scene that is loaded from what another one saves is the same, and goes back and forth as that does."""
    text = level.save()
    with LibraryScene(library=library) as other:
        other.load(text)
        for back in (0, 3):
            for one in (level, other):
                one.undo(back)
            same(other.rows(), level.rows(), f"the loaded scene, {back} frames back")
            same(other.resources(), level.resources(), f"the loaded resources, {back} frames back")
        for one in (level, other):
            one.redo(3)
        same(other.save(), text, "the text that the loaded scene saves")
        same(level.save(), text, "the text that the scene saves again")
    print(f"saved and loaded {len(text)} characters")


def main():
    library = sys.argv[1] if len(sys.argv) > 1 else None
    with LibraryScene(KINDS, library) as level:
        level.set_depth(DEPTH)
        game = Game(level)
        checksum = 0
        for number in range(FRAMES):
            advance(level, game.model)
            checksum = (checksum * 31 + drawn(level)) % 2**61
        same(game.level.resource("left"), COUNT, "the count of a system")
        print(f"{FRAMES} frames of {COUNT} entities: checksum {checksum}")
        play(game)
        save_and_load(level, library)


if __name__ == "__main__":
    main()
