"""A world that notes each raw change as a delta (docs/JOURNAL.md, "The six deltas")."""
from reference.replayed import Replayed
from world import parts_of

LAST_GENERATION = 2**32 - 1


class Recorder(Replayed):
    """The world of a scene text, whose changes go into `deltas`, in the words of docs/SCENE_FILES.md."""

    def __init__(self, scene):
        super().__init__(scene)
        self.deltas = []

    def declare(self, name, shape):
        """A kind comes last. No delta tells of it, and no undo takes it."""
        self.set_kinds([*self.kinds, [name, shape]])

    # What deltas tell

    def numbered(self, name, cell):
        return [self.numbers[name], *cell]

    def numbered_cells(self, entity):
        return sorted(self.numbered(name, cell) for name, cell in self.cells[entity].items())

    def link_of(self, child):
        """The parent and the place among its children, or None."""
        parent = self.parents.get(child)
        return None if parent is None else [parent, self.children[parent].index(child)]

    # Changes that are noted

    def note(self, op, **parts):
        self.deltas.append({"op": op, **parts})

    def spawn(self, cells):
        fresh = not self.free
        entity = super().spawn(cells)
        self.note("spawned", entity=entity, cells=self.numbered_cells(entity), fresh=fresh)
        return entity

    def despawn(self, entity):
        cells, link, place = self.numbered_cells(entity), self.link_of(entity), self.places[entity]
        retired = parts_of(entity)[1] == LAST_GENERATION
        super().despawn(entity)
        self.note("despawned", entity=entity, cells=cells, link=link, place=place, retired=retired)

    def despawn_all(self, entity):
        """Despawns an entity and all below it, children before parents, without recursion."""
        waiting, order = [entity], []
        while waiting:
            order.append(waiting.pop())
            waiting.extend(self.children.get(order[-1], ()))
        # Each parent came before its children, and the last child first: turned about, this is the post-order.
        for each in reversed(order):
            self.despawn(each)

    def insert(self, entity, name, value):
        before, place = self.cells[entity].get(name), self.places[entity]
        super().insert(entity, name, value)
        after = self.numbered(name, self.cells[entity][name])
        if before is None:
            self.note("shifted", entity=entity, cell=after, inward=True, place=place)
        else:
            self.note("cellset", entity=entity, before=self.numbered(name, before), after=after)

    def remove(self, entity, name):
        cell, place = self.numbered(name, self.cells[entity][name]), self.places[entity]
        super().remove(entity, name)
        self.note("shifted", entity=entity, cell=cell, inward=False, place=place)

    def parent(self, child, parent):
        before = self.link_of(child)
        super().parent(child, parent)
        self.note("linked", entity=child, before=before, after=[parent, len(self.children[parent]) - 1])

    def unparent(self, child):
        before = self.link_of(child)
        super().unparent(child)
        self.note("linked", entity=child, before=before, after=None)

    def put(self, name, shape, value):
        before = self.resources.get(name)
        super().put(name, shape, value)
        self.note("resourceset", name=name, before=before, after=self.resources[name])

    def drop(self, name):
        before = self.resources[name]
        super().drop(name)
        self.note("resourceset", name=name, before=before, after=None)

    # Frames

    def begin(self):
        self.deltas = []
        self.tick += 1

    def finish(self):
        """The record of the frame."""
        return {"tick": self.tick - 1, "deltas": self.deltas}
