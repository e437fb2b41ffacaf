"""The world with its past and its future."""
from reference.recorder import Recorder

MOST_DEPTH = 1_048_576


class Timeline(Recorder):
    """`past` and `future` have the records, the nearest frame last."""

    def __init__(self, scene, depth):
        """The world of a scene text of version 2, or of 1, which has no record."""
        super().__init__(scene)
        self.past, self.future, self.depth = list(scene.get("undo", ())), scene.get("redo", [])[::-1], depth
        self.drop_beyond_depth()

    def keep_frame(self):
        """The frame that was begun is accepted."""
        self.past.append(self.finish())
        self.future = []
        self.drop_beyond_depth()

    def drop_beyond_depth(self):
        """Drops what the depth leaves no room for, the oldest first."""
        del self.past[: max(0, len(self.past) - self.depth)]

    def undo(self):
        record = self.past.pop()
        self.future.append(record)
        self.take_back(record["deltas"])
        self.tick = record["tick"]

    def redo(self):
        record = self.future.pop()
        self.past.append(record)
        self.make(record["deltas"])
        self.tick = record["tick"] + 1
        self.drop_beyond_depth()
