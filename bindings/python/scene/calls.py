"""What a scene can do, whatever it stands on."""
from __future__ import annotations

import json
import reprlib
from abc import ABC, abstractmethod
from contextlib import contextmanager
from types import TracebackType
from typing import Any, Dict, Iterable, Iterator, List, Mapping, Optional, Sequence, Tuple, Type, TypeVar, Union
from typing import overload

from scene.deltas import KeptStep, StepSummary
from scene.errors import BadLine, KindsDiffer, Refused, SceneError
from scene.systems import Step, System, step_asked
from scene.values import PAGE, SHAPES, Cell, Entity, Given, Moment, Named, Row, Spawned, Spawns, Status, Value
from scene.values import count_named, fitting, place_named, resource_value, shape_named, target_named
from scene.values import text_named

Own = TypeVar("Own", bound="Calls")


def request_sent(request: Mapping[str, Any]) -> bytes:
    """A request as it is sent: without escapes, which would make a text up to three times as long. What is no text goes
    as it is, so that it is told where all is told that is no JSON."""
    return json.dumps(request, separators=(",", ":"), ensure_ascii=False).encode("utf-8", "surrogatepass")


class Calls(ABC):
    """What a scene can do. A command is a frame by itself, or goes into the open one. `with` closes the scene.

    Each call can raise `Refused`, where the rules of docs/MODEL.md refuse it; `BadLine`, where it is out of place or
    names no kind; TypeError, where a value is of a type that can't be; `Closed`; `NoMemory`, `OtherThread` and `Shared`
    over the library, and `Ended` over the shell. But for `NoMemory` and `Ended` the scene is then as it was.

    A command is refused as NoSuchEntity where an entity isn't alive, as BadLocal where the frame has no such spawn, and
    as HistoryFull where the limit of the line `calls` is reached; in a frame that is told at its end.

    An entity may be given as the text of one, as what a `spawn` in a frame gave, and, in an open frame, as `+K`: the
    K-th that it spawns, from 0.

    What only reads is out of place in an open frame, and ends the setup; over the library `tables`, `now`,
    `changed_since`, `added_since`, `past_step`, `future_step` and `depth` also go in one, and tell of the scene before
    it. Each costs what it gives, but that over the shell `roots` asks for the whole world, and `resource` for all.
    """

    # What the open frame of a `with` spawns.
    _spawns: Optional[Spawns] = None

    # ---- lines and requests

    @abstractmethod
    def line(self, text: str) -> List[str]:
        """Plays a line of a script (docs/SCRIPTS.md), given without its break, and gives the lines of its answer.

        So what has no call of its own can be had, as sessions.
        """

    @abstractmethod
    def request(self, do: str, **keys: Any) -> Dict[str, Any]:
        """Plays a request (docs/SHELL.md, "Requests"), and gives its answer, as `request("get", entity="0v1")`.

        `do` is the first word of the line that it stands for, or what it asks or does that no line does, as `status`.
        Its texts have any characters. A bad request is a `BadLine`, with the path of the part that is bad; a value that
        JSON doesn't have, a TypeError.
        """

    @abstractmethod
    def close(self) -> None:
        """Ends the scene. Once more is fine; any other call is `Closed` then."""

    def __enter__(self: Own) -> Own:
        return self

    def __exit__(
        self, kind: Optional[Type[BaseException]], error: Optional[BaseException], trace: Optional[TracebackType]
    ) -> None:
        try:
            self.close()
        except SceneError:
            # What went wrong first is what the caller has to see.
            if error is None:
                raise

    def _noted(self, word: str) -> None:
        """Notes what the frame of a `with` has to know of a line or a request that was answered, by its first word."""
        if self._spawns is not None:
            self._spawns.note(word)

    def _spawned(self) -> Optional[Spawned]:
        """The entity that the frame of a `with` spawns by its newest command."""
        return None if self._spawns is None or self._spawns.is_over else self._spawns.newest()

    # ---- kinds

    @abstractmethod
    def kinds(self) -> Dict[str, str]:
        """The shapes of all kinds by their names, in the order in which they were declared."""

    @abstractmethod
    def shape_of(self, kind: str) -> Optional[str]:
        """The shape of a kind; None where no kind has the name. It also goes in the setup and in an open frame."""

    @abstractmethod
    def _kind_names(self) -> Sequence[str]:
        """The names of all kinds by their numbers."""

    def kinds_of(self, mask: int) -> List[str]:
        """The names of the kinds of a set, as `tables` gives it, by their numbers."""
        return [name for number, name in enumerate(self._kind_names()) if mask >> number & 1]

    @abstractmethod
    def declare(self, name: str, shape: str) -> None:
        """Declares a kind by its name and its shape, Tag, Int, Vec3, Text or Link.

        That goes at any time, also in an open frame and behind a `load`. It is no frame, and no undo takes the kind;
        behind the setup it begins the count of the line `history` anew. A name that isn't good is refused as BadName,
        one that is taken as KindTaken, a 65th as KindsFull; another shape is a BadLine.
        """

    def _declare_all(self, kinds: Optional[Mapping[str, str]]) -> None:
        """Declares those of the kinds that aren't there. All are looked at before the first one is declared."""
        if not isinstance(kinds or {}, Mapping):
            raise TypeError(f"kinds= is a mapping of names to shapes, and {reprlib.repr(kinds)} isn't")
        asked = dict(kinds or {})
        for step in (self._compare, self._declare_missing):
            for name, shape in asked.items():
                try:
                    step(name, shape)
                except (Refused, BadLine) as error:
                    told = f"the kind {name}, asked for as {shape}: {error}"
                    raise KindsDiffer(told, error.number, error.name) from None

    def _compare(self, name: str, shape: str) -> None:
        """A kind that is there has to be of this shape."""
        there = self.shape_of(name)
        if there not in (None, shape_named(name, shape)):
            raise KindsDiffer(f"it is there as {there}", 31, "KindTaken")

    def _declare_missing(self, name: str, shape: str) -> None:
        """Declares a kind that isn't there."""
        if self.shape_of(name) is None:
            self.declare(name, shape)

    def _known_shape(self, kind: str) -> str:
        """The shape of a kind that has to be there."""
        shape = self.shape_of(kind)
        if shape is None:
            raise BadLine(f"no kind is named {kind}")
        return shape

    def _known(self, kind: str) -> str:
        """The name of a kind that has to be there."""
        self._known_shape(kind)
        return kind

    def _all_known(self, kinds: Sequence[str]) -> List[str]:
        """The names of kinds that have to be there; a text alone is one name."""
        return [self._known(kind) for kind in ((kinds,) if isinstance(kinds, str) else kinds)]

    def _fitting(self, cells: Mapping[str, Given]) -> Dict[str, Value]:
        """The values of cells. All are read before one is given, so that none is left where one is bad."""
        return {name: fitting(name, *SHAPES[self._known_shape(name)], value) for name, value in cells.items()}

    @abstractmethod
    def set_depth(self, depth: int) -> None:
        """Sets of how many frames a record is kept, 1 to 1,048,576: those beyond it can't be undone or redone any more.

        Over the library that goes at any time, also in an open frame, and begins the count of the line `history` anew;
        over the shell in the setup alone, and behind it is a BadLine.
        """

    def _fitting_column(self, kind: str, values: Iterable[Given], count: int) -> List[Value]:
        """The values of a column, which are so many."""
        shape = SHAPES[self._known_shape(kind)]
        if isinstance(values, (str, bytes)) or not isinstance(values, Iterable):
            raise TypeError(f"{kind} has a value for each entity, and {reprlib.repr(values)} has none")
        found = [fitting(kind, *shape, value) for value in values]
        if len(found) != count:
            raise BadLine(f"{kind} has a value for each entity: {len(found)} values are given to {count} entities")
        return found

    # ---- commands

    @abstractmethod
    def spawn(self, /, **cells: Given) -> Union[Entity, Spawned, None]:
        """Spawns an entity with components, given by the names of their kinds, as `spawn(Health=9)`.

        In the `with` of a `frame` it gives a `Spawned`, which later commands take for the entity; in a frame that a
        line began, None. Where there are as many as there can be, it is refused as EntitiesFull.
        """

    @abstractmethod
    def insert(self, entity: Named, /, **cells: Given) -> None:
        """Gives an entity components, or other values to those that it has, as `insert(cat, Health=5)`.

        Each is a frame of its own where none is open. All values are read before the first one is given.
        """

    @abstractmethod
    def insert_all(self, entities: Iterable[Named], /, **columns: Iterable[Given]) -> None:
        """Gives many entities components, or other values to those that they have, as one frame: all, or none.

        Each kind has a value for each entity, in their order, as `insert_all([cat, dog], Health=[5, 6])`; they are
        written kind by kind. Where there is nothing to write it is a frame too. All values are read before the first
        one is given. Another count of values, and an open frame, are a BadLine; where one is refused, its `place` tells
        the number of the write.
        """

    def remove(self, entity: Named, kind: str) -> None:
        """Takes the component of a kind from an entity. Where it has none, that is refused as NotPresent."""
        self._known(kind)
        self.request("remove", entity=target_named(entity), kind=kind)

    def despawn(self, entity: Named) -> None:
        """Despawns an entity. One with children is refused as HasChildren."""
        self.request("despawn", entity=target_named(entity))

    def despawn_all(self, entity: Named) -> None:
        """Despawns an entity and all below it."""
        self.request("despawnall", entity=target_named(entity))

    def set_parent(self, child: Named, parent: Optional[Named]) -> None:
        """Makes an entity the last child of another; with None, takes it from its parent.

        An entity below itself is refused as Cycle, and None for one without a parent as NoParent.
        """
        below = target_named(child)
        if parent is None:
            self.request("unparent", child=below)
        else:
            self.request("parent", child=below, parent=target_named(parent))

    def parent(self, child: Named, parent: Optional[Named]) -> None:
        """The same as `set_parent`."""
        self.set_parent(child, parent)

    def put(self, name: str, value: Given, shape: Optional[str] = None) -> None:
        """Puts a resource, as `put("title", "Level 1")`, in place of the one of that name, if there is one.

        Its shape is that of the value: an `Entity`, or what a `spawn` in a frame gave, is a Link, and another text a
        Text. A name that isn't good is refused as BadName; another shape, or a value that isn't of the shape, is a
        BadLine or a TypeError.
        """
        asked, read = resource_value(name, value, shape)
        self.request("put", name=name, shape=asked, value=read)

    def drop(self, name: str) -> None:
        """Takes a resource away. Where none has the name, that is refused as NoSuchResource."""
        self.request("drop", name=text_named("the name of a resource", name))

    # ---- frames

    @contextmanager
    def frame(self) -> Iterator[List[Entity]]:
        """A frame of all commands of a `with`, done whole or not at all. Its list then has the entities spawned.

        What a `spawn` gives names the entity to the frame's later commands, and behind it to all calls. An error in the
        `with` drops the frame, and leaves the scene as it was. Where a command is refused, so is the frame, at its end,
        and nothing of it is done. A frame in a frame is a BadLine.
        """
        self._begin()
        spawns = self._spawns = Spawns()
        made: List[Entity] = []
        try:
            try:
                yield made
            except BaseException:
                self._drop_frame()
                raise
            made += self._committed()
        finally:
            self._spawns = None
            spawns.end(made)

    @abstractmethod
    def _begin(self) -> None:
        """Opens a frame."""

    @abstractmethod
    def _committed(self) -> List[Entity]:
        """Ends the open frame by doing it, and gives what it spawned."""

    @abstractmethod
    def drop_frame(self) -> bool:
        """Drops the open frame: nothing of it is done, and no call is made. Whether one was open.

        An error in the `with` of a `frame` does it by itself. Where it is called there, the end of the `with` is a
        BadLine, as no frame is open any more.
        """

    @abstractmethod
    def _drop_frame(self) -> None:
        """Drops the open frame, if one is open, behind an error, which no other one may hide."""

    @property
    @abstractmethod
    def in_frame(self) -> bool:
        """Whether a frame is open."""

    def undo(self, count: int = 1) -> None:
        """Takes the newest frames back, so many: all of them, or none.

        Refused as NothingToUndo, where there are fewer, and as HistoryFull, where the limit of calls is reached before.
        """
        self._steps("undo", count)

    def redo(self, count: int = 1) -> None:
        """Does the last frames that were taken back again, so many: all of them, or none.

        Refused as NothingToRedo, where there are fewer, so behind a new frame, and as HistoryFull, as `undo` is.
        """
        self._steps("redo", count)

    @abstractmethod
    def _steps(self, do: str, count: int) -> None:
        """Goes so many frames back, or forth again."""

    # ---- reading

    @overload
    def get(self, entity: Named) -> str: ...

    @overload
    def get(self, entity: Named, kind: str) -> Value: ...

    @abstractmethod
    def get(self, entity: Named, kind: Optional[str] = None) -> Value:
        """The value of a component; without a kind, the row of an entity as a line writes it.

        Refused as NoSuchEntity, where the entity isn't alive, and as NotPresent, where it has no component of the kind.
        """

    @abstractmethod
    def cells(self, entity: Named) -> Dict[str, Cell]:
        """The components of an entity by the names of their kinds, each with its ticks. Refused as `get` is."""

    @abstractmethod
    def row(self, entity: Named) -> Row:
        """The row of an entity: its components, its parent and its children. Refused as `get` is."""

    @abstractmethod
    def rows(self) -> List[Row]:
        """The rows of all entities, by table and then by place."""

    @abstractmethod
    def each_row(self, *need: str, without: Sequence[str] = (), page: int = PAGE) -> Iterator[Row]:
        """The rows of the entities that have all kinds of `need` and none of `without`, in the order of `rows`, one
        after the other: `for row in level.each_row("Health", without=["Hidden"])`.

        So many rows as a page has are asked for at once; over the library a page is a table. Where the scene is changed
        before the last page, the next one is a BadLine: places of rows may be others then. A page that is no whole
        number from 1 is a TypeError or a BadLine.
        """

    def _check_moment(self, began: Moment, now: Moment) -> None:
        """Raises that rows can't be read on, where the scene was changed since."""
        if now != began:
            raise BadLine("the scene was changed while its rows were read")

    @abstractmethod
    def tables(self, *need: str, without: Sequence[str] = ()) -> List[Tuple[int, int]]:
        """The kind sets that some entities have, of those with all kinds of `need` and none of `without`: ascending,
        each with the count of its entities. The kind of number k is bit k; `kinds_of` names them."""

    @abstractmethod
    def is_alive(self, entity: Named) -> bool:
        """Whether an entity is alive."""

    @abstractmethod
    def parent_of(self, entity: Named) -> Optional[Entity]:
        """The parent of an entity; None where it has none, as where it isn't alive."""

    @abstractmethod
    def children_of(self, entity: Named) -> List[Entity]:
        """The children of an entity, in their order; none where it isn't alive."""

    @abstractmethod
    def roots(self) -> List[Entity]:
        """The entities that have no parent, by their index."""

    @abstractmethod
    def resources(self) -> Dict[str, Cell]:
        """The resources by their names, in the order of the names' bytes, each with its ticks."""

    @abstractmethod
    def resource(self, name: str) -> Value:
        """The value of a resource. Refused as NoSuchResource, where none has the name."""

    @abstractmethod
    def status(self) -> Status:
        """The numbers of the scene."""

    @property
    @abstractmethod
    def depth(self) -> int:
        """How many frames are kept at most, to be undone."""

    def show(self) -> str:
        """The text of the world: all that the line `show` answers."""
        return "\n".join(self.line("show"))

    # ---- following, by moments

    @abstractmethod
    def now(self) -> Moment:
        """This moment, which a view keeps to ask by `changed_since` what was written since."""

    def changed_since(
        self, moment: Moment, need: Sequence[str] = (), without: Sequence[str] = ()
    ) -> List[Tuple[Entity, str]]:
        """The components that were changed since a moment, those included that were added: of the entities that have
        all kinds of `need` and none of `without`, in the order of `rows`, then by kind.

        Refused as Rewound, where something was undone since, so that a view reads all anew. What is no moment is a
        TypeError or a BadLine. The mark stays.
        """
        return self._since("changed", moment, need, without)

    def added_since(
        self, moment: Moment, need: Sequence[str] = (), without: Sequence[str] = ()
    ) -> List[Tuple[Entity, str]]:
        """The components that were added since a moment, and are there; else as `changed_since`."""
        return self._since("added", moment, need, without)

    @abstractmethod
    def _since(
        self, what: str, moment: Moment, need: Sequence[str], without: Sequence[str]
    ) -> List[Tuple[Entity, str]]:
        """The components that were `changed` or `added` since a moment."""

    def mark(self) -> None:
        """Notes this moment, from which `changed` and `added` look."""
        self.request("mark")

    def changed(self) -> List[Tuple[Entity, str]]:
        """The components that were changed since the mark, or the beginning, by their entity and their kind's name.

        Those that were added are among them. Refused as Rewound, where a frame was taken back since then: all has to be
        looked at again.
        """
        return self._cells_named("changed")

    def added(self) -> List[Tuple[Entity, str]]:
        """The components that were added since the mark, or the beginning. Refused as `changed` is."""
        return self._cells_named("added")

    def _cells_named(self, do: str, **keys: Any) -> List[Tuple[Entity, str]]:
        """The components that the answer to a request lists."""
        return [(Entity(cell["entity"]), cell["kind"]) for cell in self.request(do, **keys)["cells"]]

    # ---- following, by what each frame did

    def past_step(self, place: int = 0) -> Optional[KeptStep]:
        """What a frame did that can be undone: the newest one for place 0, the one before it for 1, and so on; None
        where there are fewer. A place that is no whole number from 0 is a TypeError or a BadLine.

        So a view follows a frame, or a redo, by `past_step().deltas`, and a redo of several frames by those of the
        places `count - 1` down to 0. An advance is a frame too. It costs what it gives: over the library a few calls,
        however many deltas there are, over the shell one request.
        """
        return self._kept_step("past", place_named(place))

    def future_step(self, place: int = 0) -> Optional[KeptStep]:
        """What a frame did that can be redone: the next one for place 0, the one behind it for 1, and so on; else as
        `past_step`.

        So a view follows an undo by `future_step().undone()`, and one of several frames by those of the places
        `count - 1` down to 0.
        """
        return self._kept_step("future", place_named(place))

    @abstractmethod
    def _kept_step(self, way: str, place: int) -> Optional[KeptStep]:
        """A frame of the `past` or the `future`."""

    def past(self, first: int = 0, count: int = 20) -> List[StepSummary]:
        """The frames that can be undone, each by its tick and the count of its deltas: the newest first, so many from
        that of place `first` on, or as many as there are. `status().undo` tells how many there are in all.

        A place or a count that is no whole number from 0 is a TypeError or a BadLine.
        """
        return self._summaries("past", place_named(first), count_named(count))

    def future(self, first: int = 0, count: int = 20) -> List[StepSummary]:
        """The frames that can be redone, the next one first; else as `past`. `status().redo` tells how many."""
        return self._summaries("future", place_named(first), count_named(count))

    @abstractmethod
    def _summaries(self, way: str, first: int, count: int) -> List[StepSummary]:
        """Frames of the `past` or the `future`, from a place on."""

    # ---- systems

    def add_phase(self) -> None:
        """Adds a phase, empty as yet, behind the others."""
        self.request("phase")

    def add_system(
        self, name: Union[str, System], *steps: Step, need: Sequence[str] = (), without: Sequence[str] = ()
    ) -> None:
        """Adds a system to the last phase, and makes one where there is none.

        Its steps are done to each entity that has all kinds of `need` and none of `without`, as
        `add_system("age", AddInt("Health", -1), need=["Health"])`; or it is a `System`, which has all that. What breaks
        a rule, `advance` refuses. A kind that isn't there is a BadLine, and what is no step a TypeError.
        """
        system = name if isinstance(name, System) else System(name, steps, need, without)
        if system is name and (steps or need or without):
            raise TypeError("a System has its own steps, need and without")
        asked = [step_asked(step, self._known, self._fitting) for step in system.steps]
        text_named("the name of a system", system.name)
        needed, barred = self._all_known(system.need), self._all_known(system.without)
        self.request("system", name=system.name, need=needed, without=barred, steps=asked)

    def clear_systems(self) -> None:
        """Drops all phases, with their systems."""
        self.request("clear")

    def advance(self) -> List[Entity]:
        """Lets the systems of all phases do their work, as one frame, and gives the entities that it spawned.

        Refused as BadRule or Conflict, where they can't stand together, and as Overflow, where a sum is no Int.
        """
        return [Entity(entity) for entity in self.request("advance")["entities"]]

    # ---- texts

    def save(self, world_alone: bool = False) -> str:
        """The scene, with all that can be undone and redone, or its world alone, as a text of one line.

        Refused as TooLong, where that would have more than 67,108,864 bytes.
        """
        return self.line("dump" if world_alone else "dumpall")[0]

    @abstractmethod
    def load(self, text: str) -> None:
        """Loads the text of a `save`, or of a world alone, in the setup. The kinds are then those of the text.

        Behind the setup it is a BadLine. A text that is none of a scene is refused as NotJson, UnknownKey, BadField,
        BadVersion, BadWorld or BadRecord (docs/SCENE_FILES.md, "Reading"), with the path or the place.
        """
