"""Scenes over the program's shell (docs/SHELL.md): `Scene`. Its calls are lines or requests, and wait for answers."""
from __future__ import annotations

import json
from contextlib import suppress
from itertools import count as counting
from pathlib import Path
from typing import Any, Dict, Iterable, Iterator, List, Mapping, Optional, Sequence, Tuple, Union, overload

from scene.calls import Calls, request_sent
from scene.deltas import KeptStep, StepSummary
from scene.errors import BadLine, Refused, SceneError, told_in_json
from scene.program import Program, program_named
from scene.told import deltas_told, entities_told, entity_told, resources_told, value_told
from scene.values import KIND, PAGE, Cell, Entity, Given, Moment, Named, Row, Spawned, Status, Value, count_named
from scene.values import depth_named, entity_named, kind_named, line_named, moment_named, page_named, shape_named
from scene.values import target_named, text_named

# The greatest place, and the greatest count, that a request can name.
MOST = 2**32 - 1
NO_SUCH_ENTITY = 1
# In which words a line is bad whose value is `?` for a kind of each shape.
BAD_VALUES = {
    "Tag": "is a Tag, and so has no =",
    "Int": "`?` is no whole number",
    "Vec3": "`?` isn't three whole numbers",
    "Text": "`?` is no part of the text before it",
    "Link": "`?` is no entity",
}


def moment_told(status: Mapping[str, Any]) -> Moment:
    """The moment of an answer to `status`."""
    return Moment(status["rewinds"], status["tick"])


class World:
    """What an answer to `show` tells beside the rows: the tree of the entities."""

    def __init__(self, answer: Mapping[str, Any]) -> None:
        self.tables: List[Dict[str, Any]] = answer["tables"]
        self.children: Dict[str, List[Entity]] = {
            parent: entities_told(children) for parent, children in answer["children"].items()
        }
        self.parents = {child: Entity(parent) for parent, children in self.children.items() for child in children}

    def roots(self) -> List[Entity]:
        """The entities without a parent, by their index."""
        named = (Entity(row["entity"]) for table in self.tables for row in table["rows"])
        return sorted((entity for entity in named if entity not in self.parents), key=lambda entity: entity.index)

    def row(self, entity: Entity, cells: Dict[str, Cell]) -> Row:
        """The row of an entity, whose components are given."""
        return Row(entity, cells, self.parents.get(entity), tuple(self.children.get(entity, ())))


class Scene(Calls):
    """A scene in a shell of its own, kept in the store at a path, if one is given. `with` ends the shell.

    The arguments are those of `scene.open`. A program that isn't there is the OSError that says so, as
    FileNotFoundError; one that ends at once, an `Ended`; a store that can't be opened, a `StoreError`; kinds that the
    store has in other shapes, `KindsDiffer`.

    It has no columns, no check of systems, and no readers in other threads: those are `LibraryScene`'s own. A call that
    another exception interrupts, as a KeyboardInterrupt, ends the program, and each later one is an `Ended`.
    """

    def __init__(
        self,
        store: Union[str, Path, None] = None,
        kinds: Optional[Mapping[str, str]] = None,
        program: Union[str, Path, None] = None,
        options: Sequence[str] = (),
    ) -> None:
        kept = [] if store is None else ["--store", str(store)]
        self._program = Program([program_named(program), "shell", "--framed", *options, *kept])
        # The shapes of the kinds that were asked for; and of all, once they are told: behind the setup they stay, but
        # for those that are declared.
        self._shapes: Dict[str, str] = {}
        self._all_shapes: Optional[Dict[str, str]] = None
        self._in_frame = False
        try:
            # The answer to an empty line comes when the store is open, or else the reason why it isn't.
            self.line("")
            self._declare_all(kinds)
        except BaseException:
            with suppress(SceneError):
                self.close()
            raise

    def close(self) -> None:
        """Ends the shell. An `Ended` or a `StoreError` tells why it ended otherwise, if no call has told it."""
        self._program.close()

    # ---- lines and requests

    def line(self, text: str) -> List[str]:
        if line_named(text).startswith("{"):
            raise BadLine("a request is no line of a script: `request` sends one")
        # The shell drops a carriage return at the end of a line, and takes spaces there for none.
        end = " \n" if text.endswith("\r") else "\n"
        answer = self._program.ask((text + end).encode())
        is_refused = bool(answer) and answer[0].startswith(("refused ", "fault "))
        self._came(text.lstrip(" ").partition(" ")[0], Refused(answer[0]) if is_refused else None)
        return answer

    def request(self, do: str, **keys: Any) -> Dict[str, Any]:
        return self._request_all([{"do": do, **keys}])[0]

    def _request_all(self, requests: Sequence[Mapping[str, Any]]) -> List[Dict[str, Any]]:
        """The answers to requests that are sent together. Where several are errors, the first one is raised."""
        sent = [request_sent(keys) + b"\n" for keys in requests]
        answers: List[Dict[str, Any]] = [json.loads(answer) for answer in self._program.ask_all(sent)]
        for keys, answer in zip(requests, answers):
            self._came(keys["do"], told_in_json(answer))
            if keys["do"] == "declare" and self._all_shapes is not None:
                self._all_shapes[keys["name"]] = keys["shape"]
        return answers

    def _came(self, word: str, error: Optional[SceneError]) -> None:
        """Keeps what this side has to know of a line or a request, by its first word, and raises why it wasn't done."""
        if word in ("begin", "commit", "dropframe") and not isinstance(error, BadLine):
            # (a commit that is refused ends the frame too)
            self._in_frame = word == "begin"
        if error:
            raise error
        if word == "load":
            self._shapes.clear()
        self._noted(word)

    # ---- kinds

    def declare(self, name: str, shape: str) -> None:
        self.request("declare", name=kind_named(name), shape=shape_named(name, shape))

    def kinds(self) -> Dict[str, str]:
        self._all_shapes = dict(self.request("kinds")["kinds"])
        return dict(self._all_shapes)

    def _shapes_now(self) -> Dict[str, str]:
        """The shapes of all kinds, which are asked for once."""
        return self.kinds() if self._all_shapes is None else self._all_shapes

    def _kind_names(self) -> Sequence[str]:
        return list(self._shapes_now())

    def shape_of(self, kind: str) -> Optional[str]:
        if self._all_shapes is not None:
            return self._all_shapes.get(kind_named(kind))
        if kind not in self._shapes and KIND.fullmatch(kind_named(kind)):
            try:
                # It is bad for any shape, does nothing, and is said to be bad in the words of the shape.
                self.line(f"spawn {kind}=? ?")
            except BadLine as bad:
                shapes = [shape for shape, words in BAD_VALUES.items() if words in str(bad)]
                if shapes:
                    self._shapes[kind] = shapes[0]
                elif "no kind is named" not in str(bad):
                    raise
        return self._shapes.get(kind)

    def set_depth(self, depth: int) -> None:
        limit = depth_named(depth)
        try:
            self.request("depth", limit=limit)
        except BadLine:
            raise BadLine("over the shell a depth is set in the setup alone: over the library at any time") from None

    # ---- commands and frames

    def spawn(self, /, **cells: Given) -> Union[Entity, Spawned, None]:
        answer = self.request("spawn", cells=self._fitting(cells))
        return Entity(answer["entities"][0]) if answer["answer"] == "done" else self._spawned()

    def insert(self, entity: Named, /, **cells: Given) -> None:
        named = target_named(entity)
        for kind, value in self._fitting(cells).items():
            self.request("insert", entity=named, kind=kind, value=value)

    def insert_all(self, entities: Iterable[Named], /, **columns: Iterable[Given]) -> None:
        named = [entity_named(entity) for entity in entities]
        writes = [(kind, self._fitting_column(kind, values, len(named))) for kind, values in columns.items()]
        with self.frame():
            self._request_all(
                [
                    {"do": "insert", "entity": entity, "kind": kind, "value": value}
                    for kind, values in writes
                    for entity, value in zip(named, values)
                ]
            )

    def _begin(self) -> None:
        self.request("begin")

    def _committed(self) -> List[Entity]:
        return entities_told(self.request("commit")["entities"])

    def drop_frame(self) -> bool:
        try:
            self.request("dropframe")
        except BadLine:
            return False
        return True

    def _drop_frame(self) -> None:
        # It is gone already where the shell is, or where a line has committed it.
        with suppress(SceneError):
            self.drop_frame()

    @property
    def in_frame(self) -> bool:
        return self._in_frame

    def _steps(self, do: str, count: int) -> None:
        asked = count_named(count)
        # (one that is refused is a call of the history only without a count)
        self.request(do, **({} if asked == 1 else {"count": min(asked, MOST)}))

    # ---- reading

    @overload
    def get(self, entity: Named) -> str: ...

    @overload
    def get(self, entity: Named, kind: str) -> Value: ...

    def get(self, entity: Named, kind: Optional[str] = None) -> Value:
        named = entity_named(entity)
        if kind is None:
            return self.line(f"get {named}")[0]
        shape = self._known_shape(kind)
        cells = self.request("get", entity=named)["cells"]
        if kind not in cells:
            raise Refused("refused 3 NotPresent")
        return value_told(shape, cells[kind][0])

    def cells(self, entity: Named) -> Dict[str, Cell]:
        return self._cells(self.request("get", entity=entity_named(entity))["cells"])

    def _cells(self, told: Mapping[str, List[Any]]) -> Dict[str, Cell]:
        """The components that an answer tells."""
        shapes = self._shapes_now()
        return {name: Cell(value_told(shapes[name], value), *ticks) for name, (value, *ticks) in told.items()}

    def _rows(self, told: Sequence[Tuple[Entity, Dict[str, Cell]]]) -> List[Row]:
        """The rows of entities with these components, whose parents and children are asked for together."""
        asked = [{"do": do, "entity": entity} for entity, _ in told for do in ("parentof", "children")]
        answers = self._request_all(asked)
        return [
            Row(entity, cells, entity_told(above["entity"]), tuple(entities_told(below["entities"])))
            for (entity, cells), above, below in zip(told, answers[::2], answers[1::2])
        ]

    def _world(self) -> World:
        return World(self.request("show"))

    def row(self, entity: Named) -> Row:
        return self._rows([(entity_named(entity), self.cells(entity))])[0]

    def rows(self) -> List[Row]:
        world = self._world()
        told = (row for table in world.tables for row in table["rows"])
        return [world.row(Entity(row["entity"]), self._cells(row["cells"])) for row in told]

    def each_row(self, *need: str, without: Sequence[str] = (), page: int = PAGE) -> Iterator[Row]:
        wanted, size = self._filter(need, without), page_named(page)
        return self._pages(wanted, size, self.now())

    def _filter(self, need: Sequence[str], without: Sequence[str]) -> Dict[str, List[str]]:
        """A filter as a request has it."""
        return {"need": self._all_known(need), "without": self._all_known(without)}

    def _pages(self, wanted: Mapping[str, Any], size: int, began: Moment) -> Iterator[Row]:
        """The rows that a filter matches, of which so many are asked for at once."""
        for first in counting(0, size):
            page = {"do": "rows", **wanted, "from": first, "count": size}
            status, answer = self._request_all([{"do": "status"}, page])
            self._check_moment(began, moment_told(status))
            rows = [(Entity(row["entity"]), self._cells(row["cells"])) for row in answer["rows"]]
            yield from self._rows(rows)
            if len(rows) < size:
                return

    def tables(self, *need: str, without: Sequence[str] = ()) -> List[Tuple[int, int]]:
        told = self.request("tables", **self._filter(need, without))["tables"]
        bits = {kind: 1 << number for number, kind in enumerate(self._kind_names())}
        return [(sum(bits[kind] for kind in table["kinds"]), table["rows"]) for table in told]

    def _about(self, do: str, entity: Named) -> Optional[Dict[str, Any]]:
        """What a request tells about an entity; None where that isn't alive."""
        try:
            return self.request(do, entity=entity_named(entity))
        except Refused as refused:
            if refused.number != NO_SUCH_ENTITY:
                raise
            return None

    def is_alive(self, entity: Named) -> bool:
        return self._about("parentof", entity) is not None

    def parent_of(self, entity: Named) -> Optional[Entity]:
        told = self._about("parentof", entity)
        return None if told is None else entity_told(told["entity"])

    def children_of(self, entity: Named) -> List[Entity]:
        told = self._about("children", entity)
        return [] if told is None else entities_told(told["entities"])

    def roots(self) -> List[Entity]:
        return self._world().roots()

    def resources(self) -> Dict[str, Cell]:
        return resources_told(self.request("resources")["resources"])

    def resource(self, name: str) -> Value:
        text_named("the name of a resource", name)
        found = self.resources().get(name)
        if found is None:
            raise Refused("refused 10 NoSuchResource")
        return found.value

    def status(self) -> Status:
        told = self.request("status")
        numbers = (told[name] for name in ("tick", "rewinds", "past", "future", "slots", "limit"))
        return Status(*numbers, len(self._shapes_now()))

    @property
    def depth(self) -> int:
        return int(self.request("status")["depth"])

    # ---- following

    def now(self) -> Moment:
        return moment_told(self.request("status"))

    def _since(
        self, what: str, moment: Moment, need: Sequence[str], without: Sequence[str]
    ) -> List[Tuple[Entity, str]]:
        wanted = {**self._filter(need, without), **moment_named(moment)._asdict()}
        return self._cells_named(f"{what}since", **wanted)

    def _kept_step(self, way: str, place: int) -> Optional[KeptStep]:
        record = self.request("deltas", of=way, step=min(place, MOST))["record"]
        if record is None:
            return None
        return KeptStep(record["tick"], deltas_told(list(self._shapes_now().items()), record["deltas"]))

    def _summaries(self, way: str, first: int, count: int) -> List[StepSummary]:
        told = self.request(way, **{"from": min(first, MOST), "count": min(count, MOST)})["steps"]
        return [StepSummary(step["tick"], step["deltas"]) for step in told]

    # ---- texts

    def load(self, text: str) -> None:
        # A line break is white space of JSON, as a tab is, and neither can stand within a string.
        self.line("load " + text_named("a scene text", text).replace("\n", "\t"))
