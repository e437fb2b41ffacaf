"""What questions, declarations of kinds, and undos and redos of several frames are answered (docs/SHELL.md, "Questions",
"Kinds at any time", "Requests"), as the reference works it out from a shell's other lines and their answers alone."""
import json
import re

from line_requests import COMMANDS
from program_runs import NAME
from reference.follower import Follower
from reference.queues import apply_queue
from reference.systems import advance, matching_rows, matching_sets
from reference.timeline import Timeline
from request_forms import DECLARE, DROP_FRAME, Bad, Reader

MOST_KINDS = 64
CALLS = COMMANDS | {"commit", "advance", "undo", "redo"}
# With which no call is entered.
NO_CALLS = ("BadRule", "Conflict", "HistoryFull")


class Refused(Exception):
    """The fault of a refusal, with its number, its name and its fields."""


class Shell(Follower):
    """A shell as its lines and their answers tell it. Its world stands once the setup has ended."""

    def __init__(self):
        super().__init__()
        self.world, self.rewinds, self.calls = None, 0, 0

    # Lines that aren't questions

    def hear(self, line, answer):
        """Follows a line whose answer isn't worked out, by its answer."""
        request = self.follow(line, answer["answer"])
        self.calls += calls_of(request, answer) if request else 0

    def hear_compaction(self):
        """The store was compacted: its calls, and the cursor's rewinds, are counted anew behind the setup."""
        self.calls = self.rewinds = 0

    def declare(self, name, shape):
        super().declare(name, shape)
        if self.world is not None:
            self.world.declare(name, shape)
            self.calls = 0

    def on_setup_end(self):
        # (behind a load more kinds may have been declared)
        self.world = Timeline({**(self.loaded or new_scene(self.limit)), "kinds": self.kinds}, self.depth)

    def on_frame(self, queues):
        self.world.begin()
        for queue in queues:
            apply_queue(self.world, queue)
        self.world.keep_frame()

    def on_advance(self):
        self.world.begin()
        advance(self.world, self.phases)
        self.world.keep_frame()

    def on_undo(self):
        self.world.undo()
        self.rewinds += 1

    def on_redo(self):
        self.world.redo()

    # Questions

    def answer(self, line):
        """Does a question, a declaration, an undo or a redo of several frames, or the end of a frame that is dropped,
        and gives its answer as a line of JSON; or a `Bad`, without a path where the line is out of place."""
        request = Reader(self.kinds).read(line)
        try:
            answer = self.answer_to(request)
        except Refused as refused:
            number, name, fields = refused.args
            answer = {"answer": "refused", "number": number, "name": name, **fields}
        self.calls += calls_of(request, answer)
        return text_of(answer)

    def answer_to(self, request):
        word = request["do"]
        if word == DECLARE:
            self.expect_good_kind(request["name"])
            self.declare(request["name"], request["shape"])
            return {"answer": "ok"}
        if (self.frame is None) == (word == DROP_FRAME):
            raise Bad("OutOfPlace")
        if word == DROP_FRAME:
            self.frame = None
            return {"answer": "ok"}
        self.end_setup()
        return ANSWERS[word](self, request)

    def expect_good_kind(self, name):
        """A `Refused` where no further kind may have the name."""
        if not re.fullmatch(NAME, name):
            raise Refused(30, "BadName", {})
        if name in self.shapes:
            raise Refused(31, "KindTaken", {})
        if len(self.kinds) == MOST_KINDS:
            raise Refused(32, "KindsFull", {})

    def records(self, side):
        """The records of the past, the newest first, or of the future, the next one first."""
        return getattr(self.world, side)[::-1]

    def live(self, entity):
        if entity not in self.world.cells:
            raise Refused(1, "NoSuchEntity", {})
        return entity

    def cells_of(self, entity):
        """The cells of an entity by the names of their kinds, ascending by kind."""
        cells = self.world.cells[entity]
        return {name: cells[name] for name in sorted(cells, key=self.world.numbers.get)}


def calls_of(request, answer):
    """How many calls of the history a line is that isn't bad. Several undos or redos are none where they are refused."""
    if request["do"] not in CALLS or answer["answer"] == "queued" or answer.get("name") in NO_CALLS:
        return 0
    return 1 if "count" not in request else request["count"] * (answer["answer"] != "refused")


def new_scene(limit):
    """A world without entities, as a scene text has it, but for its kinds."""
    lists = {part: [] for part in ("children", "free", "generations", "resources", "tables")}
    return {**lists, "limit": limit, "scene": 1, "tick": 0}


def text_of(answer):
    return json.dumps(answer, ensure_ascii=False, separators=(",", ":"))


def with_keys_in_order(delta):
    return dict(sorted(delta.items()))


# ---- each question


def status(shell, _):
    world = shell.world
    numbers = {"tick": world.tick, "rewinds": shell.rewinds, "past": len(world.past), "future": len(world.future)}
    return {"answer": "status", **numbers, "depth": world.depth, "slots": len(world.generations), "limit": world.limit}


def history(shell, _):
    return {"answer": "history", "calls": shell.calls}


def kinds_now(shell, _):
    return {"answer": "kinds", "kinds": shell.world.kinds}


def tables(shell, request):
    world = shell.world
    found = [
        {"kinds": sorted(kinds, key=world.numbers.get), "rows": len(world.tables[kinds])}
        for kinds in matching_sets(world, request)
    ]  # fmt: skip
    return {"answer": "tables", "tables": found}


def rows(shell, request):
    found = part_of(matching_rows(shell.world, request), request)
    return {"answer": "rows", "rows": [{"entity": entity, "cells": shell.cells_of(entity)} for entity in found]}


def part_of(items, request):
    return items[request["from"] : request["from"] + request["count"]]


def children(shell, request):
    return {"answer": "children", "entities": shell.world.children.get(shell.live(request["entity"]), [])}


def parent(shell, request):
    return {"answer": "parent", "entity": shell.world.parents.get(shell.live(request["entity"]))}


def resources(shell, _):
    return {"answer": "resources", "resources": dict(sorted(shell.world.resources.items()))}


def steps(shell, request):
    records = shell.records(request["do"])
    found = [{"tick": record["tick"], "deltas": len(record["deltas"])} for record in part_of(records, request)]
    return {"answer": "steps", "length": len(records), "steps": found}


def deltas(shell, request):
    found = shell.records(request["of"])[request["step"] :][:1]
    records = [{"deltas": list(map(with_keys_in_order, record["deltas"])), "tick": record["tick"]} for record in found]
    return {"answer": "deltas", "record": records[0] if records else None}


def step(shell, request):
    is_forth = request["way"] == "forth"
    found = shell.records("past" if is_forth else "future")[:1]
    done = [record["deltas"] if is_forth else record["deltas"][::-1] for record in found]
    return {"answer": "step", "way": request["way"], "deltas": list(map(with_keys_in_order, done[0])) if done else None}


def cells_since(shell, request):
    if request["rewinds"] != shell.rewinds:
        raise Refused(18, "Rewound", {"rewinds": shell.rewinds})
    word = request["do"].removesuffix("since")
    tick_at = {"added": 1, "changed": 2}[word]
    found = [
        {"entity": entity, "kind": name}
        for entity in matching_rows(shell.world, request)
        for name, cell in shell.cells_of(entity).items()
        if cell[tick_at] > request["tick"]
    ]
    return {"answer": word, "cells": found}


# ---- undos and redos, of several frames too


def undos(shell, request):
    return turned(shell, request, shell.world.past, (15, "NothingToUndo", {}))


def redos(shell, request):
    return turned(shell, request, shell.world.future, (16, "NothingToRedo", {}))


def turned(shell, request, records, at_end):
    """Does so many, or none where one of them would be refused: a full history comes before the end of the records."""
    room = shell.most_calls - shell.calls
    if request.get("count", 1) > min(len(records), room):
        raise Refused(*(at_end if len(records) < room else (17, "HistoryFull", {"length": shell.most_calls})))
    shell.turn(request)
    return {"answer": "undone" if request["do"] == "undo" else "redone"}


ANSWERS = {
    "status": status, "kinds": kinds_now, "tables": tables, "rows": rows, "children": children, "parentof": parent,
    "resources": resources, "past": steps, "future": steps, "deltas": deltas, "step": step, "changedsince": cells_since,
    "addedsince": cells_since, "history": history, "undo": undos, "redo": redos,
}  # fmt: skip
