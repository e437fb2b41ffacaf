"""Spawns and despawns by which each entity gets its own id.

A spawn takes the last index of the free list, and a new one only where none is free: so to take an index, those before
it are taken too, and may be freed again.
"""
from world import parts_of

LAST_GENERATION = 2**32 - 1
MOST_TURNS = 1000


class NotSaid(Exception):
    """That no lines give an entity its id."""


class Slots:
    """What is spawned and despawned in a sketch of a plan, so that its slots become those of the goal."""

    def __init__(self, sketch):
        self.sketch, self.world, self.goal = sketch, sketch.world, sketch.goal

    def spawn(self, entity, cells):
        """Spawns an entity of the goal, or, where it was spawned early, gives it its cells."""
        index, _ = parts_of(entity)
        if self.world.live.get(index) == entity:
            for name, value in cells.items():
                self.sketch.say("insert", entity, name, value)
            return
        if index in self.world.live:
            self.despawn(self.world.live[index])
        elif index < len(self.world.generations) and index not in self.world.free:
            raise NotSaid(entity)
        while self.world.next_index() != index:
            self.take_next()
        self.turn(index, self.live_generation(index))
        self.sketch.say("spawn", cells)

    def despawn(self, entity):
        """Despawns an entity, whose children would refuse that."""
        for child in list(self.world.children.get(entity, ())):
            self.sketch.say("unparent", child)
        self.sketch.say("despawn", entity)

    def live_generation(self, index):
        """The generation with which an index is to live at last, before it may be freed."""
        generation = self.goal.generations[index]
        return generation if index in self.goal.live or generation == LAST_GENERATION else generation - 1

    def generation(self, index):
        return self.world.generations[index] if index < len(self.world.generations) else 1

    def turn(self, index, generation):
        """Spawns and despawns at an index, which is next, until a spawn gives the generation."""
        turns = generation - self.generation(index)
        if not 0 <= turns <= MOST_TURNS:
            raise NotSaid(f"{index}v{generation}")
        for _ in range(turns):
            self.sketch.say("spawn", {})
            self.despawn(self.world.live[index])

    def take_next(self):
        """Takes the next index with the generation that it is to have, for an entity of the goal or until the end."""
        index = self.world.next_index()
        if index >= len(self.goal.generations):
            raise NotSaid(f"{index}v1")
        self.turn(index, self.live_generation(index))
        self.sketch.say("spawn", {})

    def despawn_gone(self, is_end):
        """Despawns what the goal hasn't, in the order of the goal's free list and up to its generations.

        Before the end an entity stays whose index is taken again: it is despawned just before that."""
        order = {index: place for place, index in enumerate(self.goal.free)}
        gone = [index for index, entity in self.world.live.items() if entity not in self.goal.cells]
        for index in sorted(gone, key=lambda index: order.get(index, len(order))):
            if index in self.goal.live and not is_end:
                continue
            self.despawn(self.world.live[index])
            if index < len(self.goal.generations) and self.goal.generations[index] > self.world.generations[index]:
                self.turn(index, self.goal.generations[index])

    def take_what_rises(self):
        """Takes the free indices whose generation is to rise, and the new ones of the goal that are free there."""
        rises = [place for place, index in enumerate(self.world.free) if self.rises(index)]
        lowest = rises[0] if rises else len(self.world.free)
        if len(self.world.generations) < len(self.goal.generations):
            lowest = 0
        while len(self.world.free) > lowest:
            self.take_next()
        while len(self.world.generations) < len(self.goal.generations):
            self.take_next()

    def rises(self, index):
        return index < len(self.goal.generations) and self.goal.generations[index] > self.world.generations[index]
