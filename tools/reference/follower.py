"""Follows lines by their answers: the kinds, the phases, and each frame, undo and redo."""
import json

from line_requests import COMMANDS, ENDS, read
from reference.timeline import MOST_DEPTH
from request_forms import DECLARE

# Those that don't end the setup.
SETUP = frozenset(("kind", "slots", "load", "calls", "depth", DECLARE))
MOST_SLOTS = 1_048_576
# As many calls a shell counts, where no line `calls` says fewer.
MOST_CALLS = 2**64 - 1


class Follower:
    """What lines have come to so far. Who follows makes `on_setup_end()`, `on_frame(queues)`, `on_advance()`,
    `on_undo()` and `on_redo()`."""

    def __init__(self):
        self.in_setup, self.loaded, self.most_calls = True, None, MOST_CALLS
        self.limit, self.depth = MOST_SLOTS, MOST_DEPTH
        self.set_kinds([])
        self.phases, self.frame = [], None

    def set_kinds(self, kinds):
        self.kinds, self.shapes = kinds, dict(map(tuple, kinds))

    def declare(self, name, shape):
        """A kind comes last, in the setup or behind it."""
        self.set_kinds([*self.kinds, [name, shape]])

    def end_setup(self):
        if self.in_setup:
            self.in_setup = False
            self.on_setup_end()

    def follow(self, line, answer):
        """Follows a line by the word of its answer, and gives the request that it is; None for one that asks for
        nothing."""
        if answer in ("bad", "nothing"):
            return None
        request = read(line, self.shapes)
        word = request["do"]
        if word not in SETUP:
            self.end_setup()
        if answer == "ok":
            self.follow_ok(request)
        elif answer == "queued":
            self.frame[-1].append(request)
        elif answer in ("undone", "redone"):
            self.turn(request)
        elif answer == "done" and word == "advance":
            self.on_advance()
        elif answer == "done":
            self.on_frame([[request]] if word in COMMANDS else self.frame)
        if word in ENDS:
            self.frame = None
        return request

    def turn(self, request):
        """Follows an undo or a redo, or several."""
        turn_once = self.on_undo if request["do"] == "undo" else self.on_redo
        for _ in range(request.get("count", 1)):
            turn_once()

    def follow_ok(self, request):
        word = request["do"]
        if word in SETUP:
            self.follow_setup(request)
        elif word == "begin":
            self.frame = [[]]
        elif word == "queue":
            self.frame.append([])
        elif word in ("phase", "system", "clear"):
            self.phases = phases_after(self.phases, request)

    def follow_setup(self, request):
        """A line that is good in the setup, of which a declaration may also come behind it."""
        word = request["do"]
        if word in ("kind", DECLARE):
            self.declare(request["name"], request["shape"])
        elif word == "load":
            self.loaded = json.loads(request["text"])
            self.set_kinds(self.loaded["kinds"])
        elif word == "slots":
            self.limit = request["limit"]
        elif word == "depth":
            self.depth = request["limit"]
        elif word == "calls":
            self.most_calls = request["limit"]


def phases_after(phases, request):
    """The phases, as lists of systems, with one line more."""
    if request["do"] == "clear":
        return []
    if request["do"] == "phase":
        return [*phases, []]
    *before, last = phases or [[]]
    return [*before, [*last, request]]
