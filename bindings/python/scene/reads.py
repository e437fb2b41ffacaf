"""What a scene over the library reads: by calls, without a text on the way, and with the last answer as it was."""
from __future__ import annotations

import ctypes
from array import array
from ctypes import byref, c_int64, c_uint32, c_uint64
from functools import partial
from itertools import repeat
from typing import Any, Dict, Iterable, Iterator, List, Optional, Sequence, Tuple, Union, overload

from scene.calls import Calls
from scene.deltas import KeptStep, StepSummary
from scene.errors import BadLine, Closed, Lost, NoMemory, Refused, Shared, Untold
from scene.handle import Library
from scene.header import ABSENT, BACK, BAD, CLOSED, DONE, INT, LINK, LOST, NOBODY, ON, REFUSED, SHARED, TEXT, UNTOLD
from scene.header import VEC3, RawCell, RawDelta, RawEntity, RawInfo, RawMoment, RawName, RawTable, RawTicks, RawVec3
from scene.raw_deltas import DeltasOfStep
from scene.values import ENTITY, PAGE, SHAPES, Cell, Entity, Moment, Named, Row, Status, Value, entity_named
from scene.values import kind_named, moment_named, page_named, text_named

IN_FRAME = "a frame is open: only commands and queue come before its commit"
SHAPE_NAMES = tuple(SHAPES)
# The call that lists a column of a shape, and its items.
COLUMNS: Dict[Optional[str], Tuple[str, Any]] = {
    "Int": ("ints", c_int64),
    "Vec3": ("vec3s", RawVec3),
    "Link": ("links", RawEntity),
}
ADDED, CHANGED = range(2)
WAYS = {"past": BACK, "future": ON}
# The greatest number of 32 bits, and the greatest place of a list.
MOST = 2**32 - 1
LAST = 2**64 - 1
# So many children are read at once; of an entity with more, all are asked for again.
FEW = 16


def shown(entity: RawEntity) -> Entity:
    """The text of an entity."""
    return Entity(f"{entity.index}v{entity.generation}")


def numbers_of(given: Named) -> Tuple[int, int]:
    """The index and the generation of an entity that a caller gives."""
    parts = ENTITY.fullmatch(given) if isinstance(given, str) else None
    if parts is not None:
        index, generation = int(parts[1]), int(parts[2])
        if index <= MOST and generation <= MOST:
            # None is alive with generation 0, which would be a spawn.
            return (index, generation) if generation else (MOST, MOST)
    named = entity_named(given)
    return named.index, named.generation


def raw_entity(given: Named) -> RawEntity:
    """An entity as the library takes it."""
    return RawEntity(*numbers_of(given))


def number_in(cell: RawCell) -> Value:
    """The value of a cell that is no text."""
    if cell.shape == INT:
        number: int = cell.x
        return number
    if cell.shape == VEC3:
        return cell.x, cell.y, cell.z
    return Entity(f"{cell.x}v{cell.y}") if cell.shape == LINK else True


class Reads(Calls):
    """The calls of a scene over the library that only read. Those that a shell has no place for, as columns and
    moments, also go in an open frame, of which they tell nothing. All end the setup."""

    def __init__(self, scene: Library) -> None:
        self._scene = scene
        # The kinds by name, each with its number and its shape; and their names by number.
        self._kinds: Dict[str, Tuple[int, str]] = {}
        self._names: List[str] = []
        self._in_frame = False
        # Whether the setup is over.
        self._is_ready = False
        # What calls write into: a scene has one thread, and one call at a time.
        self._cell, self._ticks, self._info = RawCell(), RawTicks(), RawInfo()
        self._to_cell, self._to_ticks = byref(self._cell), byref(self._ticks)
        self._few = (RawEntity * FEW)()

    def _take_over(self, other: Reads) -> None:
        """Takes over what another one knows of the same scene of the library."""
        # pylint: disable=protected-access
        self._kinds, self._names = dict(other._kinds), list(other._names)
        self._in_frame, self._is_ready = other._in_frame, other._is_ready

    # ---- what calls come to

    def _came(self, code: int, what: str) -> None:
        """Raises what the code of the last call says, if anything."""
        if code in (DONE, REFUSED):
            return
        if code == BAD:
            raise BadLine(self._scene.reason() or what)
        if code == CLOSED:
            raise Closed("the scene is closed")
        if code == SHARED:
            raise Shared("the scene is shared: it is only read before `unshare`, and takes no lines or requests")
        if code == UNTOLD:
            raise Untold(what)
        if code == LOST:
            self._look()
            raise Lost(what)
        raise NoMemory(what)

    def _told(self, code: int, what: str) -> None:
        """Raises what the code of a call that reads says; where it is bad, in these words."""
        if code == BAD:
            # (no answer tells of it)
            raise BadLine(what)
        self._came(code, what)

    def _look(self) -> None:
        """Looks at what a line or a request may have changed: the kinds, the setup, and whether a frame is open."""
        if self._scene.call("status", byref(self._info)) == DONE:
            self._is_ready, self._in_frame = True, bool(self._info.in_frame)
            if self._info.kinds != len(self._names):
                self._read_kinds()
        else:
            self._in_frame = False
            self._read_kinds()

    def _read_kinds(self) -> None:
        """Reads the kinds anew."""
        shape = c_uint32(0)
        self._names, self._kinds = [], {}
        while True:
            number = len(self._names)
            code, name = self._scene.text("kind", number, byref(shape))
            if code != DONE:
                return
            self._names.append(name)
            self._kinds[name] = number, SHAPE_NAMES[shape.value]

    def _ready(self) -> None:
        """Ends the setup: a read does that, though no call that only reads does."""
        if not self._is_ready:
            if self._scene.call("status", byref(self._info)) == BAD:
                self._came(self._scene.call("get", NOBODY, 0, self._to_cell), "the end of the setup")
            self._is_ready = True

    def _asked(self) -> None:
        """What every read does first that both backends have: it is out of place in a frame."""
        if self._in_frame:
            self._scene.check_thread()
            # The library would answer, but no line does.
            raise BadLine(IN_FRAME)
        self._ready()

    def _listed(self, name: str, item: Any, *arguments: Any) -> Any:
        self._ready()
        code, items = self._scene.listed(name, item, *arguments)
        self._told(code, f"there is no such column for {name}")
        return items

    # ---- kinds

    def kinds(self) -> Dict[str, str]:
        self._asked()
        # (a scene that is closed, or another thread's, tells none)
        self._numbers_of_scene()
        return {name: self._kinds[name][1] for name in self._names}

    def _kind_names(self) -> Sequence[str]:
        return self._names

    def shape_of(self, kind: str) -> Optional[str]:
        self._scene.check_thread()
        found = self._kinds.get(kind_named(kind))
        return None if found is None else found[1]

    def _number(self, kind: str) -> int:
        """The number of a kind that has to be there."""
        if kind not in self._kinds:
            # (which says what is wrong)
            self._known_shape(kind)
        return self._kinds[kind][0]

    def _mask(self, kinds: Sequence[str]) -> int:
        """A kind set as the library takes it."""
        return sum({1 << self._number(kind) for kind in self._all_known(kinds)})

    # ---- one entity

    @overload
    def get(self, entity: Named) -> str: ...

    @overload
    def get(self, entity: Named, kind: str) -> Value: ...

    def get(self, entity: Named, kind: Optional[str] = None) -> Value:
        if kind is None:
            return self.line(f"get {entity_named(entity)}")[0]
        raw, number = raw_entity(entity), self._number(kind)
        self._asked()
        if self._told_cell("read", raw, number):
            return self._value("read_text", raw, number)
        raise Refused("refused 3 NotPresent" if self._lives(raw) else "refused 1 NoSuchEntity")

    def _told_cell(self, name: str, *arguments: Any) -> bool:
        """Whether there is a component, or a resource. Its cell and its ticks are read."""
        code = self._scene.call(name, *arguments, self._to_cell, self._to_ticks)
        if code:
            self._told(code, name)
        return code == DONE

    def _value(self, name: str, *arguments: Any) -> Value:
        """The value of the cell that was read; a text is read by the call of that name."""
        return self._text(name, *arguments) if self._cell.shape == TEXT else number_in(self._cell)

    def _text(self, name: str, *arguments: Any) -> str:
        code, text = self._scene.text(name, *arguments)
        self._told(code, name)
        return text

    def _cell_now(self, value: Value) -> Cell:
        """A component of this value, with the ticks that were read."""
        return Cell(value, self._ticks.added, self._ticks.changed)

    def _lives(self, entity: RawEntity) -> bool:
        yes = c_uint32(0)
        self._told(self._scene.call("is_alive", entity, byref(yes)), "is_alive")
        return bool(yes.value)

    def is_alive(self, entity: Named) -> bool:
        raw = raw_entity(entity)
        self._asked()
        return self._lives(raw)

    def cells(self, entity: Named) -> Dict[str, Cell]:
        raw, mask = raw_entity(entity), c_uint64(0)
        self._asked()
        code = self._scene.call("mask", raw, byref(mask))
        self._told(code, "mask")
        if code == REFUSED:
            raise Refused("refused 1 NoSuchEntity")
        found = {}
        for name in self.kinds_of(mask.value):
            number = self._kinds[name][0]
            self._told_cell("read", raw, number)
            found[name] = self._cell_now(self._value("read_text", raw, number))
        return found

    def row(self, entity: Named) -> Row:
        return Row(entity_named(entity), self.cells(entity), self.parent_of(entity), tuple(self.children_of(entity)))

    def parent_of(self, entity: Named) -> Optional[Entity]:
        raw, found = raw_entity(entity), RawEntity()
        self._asked()
        self._told(self._scene.call("parent", raw, byref(found)), "parent")
        is_none = (found.index, found.generation) == (NOBODY.index, NOBODY.generation)
        return None if is_none else shown(found)

    def children_of(self, entity: Named) -> List[Entity]:
        raw = raw_entity(entity)
        self._asked()
        return self._children(raw)

    def _children(self, entity: RawEntity) -> List[Entity]:
        """The children of an entity, which are few, of most."""
        code, total = self._scene.some("children", self._few, entity)
        self._told(code, "children")
        there = self._few if total <= FEW else self._listed("children", RawEntity, entity)
        return [shown(there[place]) for place in range(total)]

    # ---- all of them

    def roots(self) -> List[Entity]:
        self._asked()
        return [shown(root) for root in self._listed("roots", RawEntity)]

    def rows(self) -> List[Row]:
        self._asked()
        found: List[Tuple[Entity, Dict[str, Cell]]] = []
        children: Dict[Entity, Tuple[Entity, ...]] = {}
        for mask, _ in self.tables():
            for entity, cells in self._cells_of_rows(mask):
                named = shown(entity)
                found.append((named, cells))
                children[named] = tuple(self._children(entity))
        parents = {child: parent for parent, below in children.items() for child in below}
        return [Row(entity, cells, parents.get(entity), children[entity]) for entity, cells in found]

    def each_row(self, *need: str, without: Sequence[str] = (), page: int = PAGE) -> Iterator[Row]:
        page_named(page)
        self._asked()
        masks = [mask for mask, _ in self.tables(*need, without=without)]
        return self._rows_of_tables(masks, self.now())

    def _rows_of_tables(self, masks: Sequence[int], began: Moment) -> Iterator[Row]:
        """The rows of kind sets, table by table."""
        for mask in masks:
            self._check_moment(began, self.now())
            yield from [
                Row(shown(entity), cells, self.parent_of(shown(entity)), tuple(self._children(entity)))
                for entity, cells in self._cells_of_rows(mask)
            ]

    def _cells_of_rows(self, mask: int) -> Iterator[Tuple[RawEntity, Dict[str, Cell]]]:
        """The entities of a kind set, each with its components."""
        columns = {kind: self._column_of_cells(mask, kind) for kind in self.kinds_of(mask)}
        for place, entity in enumerate(self.entities(mask)):
            yield entity, {kind: column[place] for kind, column in columns.items()}

    def _column_of_cells(self, mask: int, kind: str) -> List[Cell]:
        """The components of a kind in the rows of a kind set."""
        shape = self._kinds[kind][1]
        values: Iterable[Value] = repeat(True)
        if shape == "Text":
            values = self.texts(mask, kind)
        elif shape != "Tag":
            values = self._numbers(self.column(mask, kind), shape)
        return list(map(Cell, values, self.added_ticks(mask, kind), self.changed_ticks(mask, kind)))

    @staticmethod
    def _numbers(column: Any, shape: str) -> Iterable[Value]:
        """The values of a column of numbers."""
        if shape == "Int":
            ints: List[Value] = column[:]
            return ints
        return map(shown, column) if shape == "Link" else [(each.x, each.y, each.z) for each in column]

    def resources(self) -> Dict[str, Cell]:
        self._asked()
        return {name: cell for name, _, cell in self.resource_cells()}

    def resource_cells(self) -> List[Tuple[str, str, Cell]]:
        """The resources, each with its name and its shape."""
        found: List[Tuple[str, str, Cell]] = []
        while True:
            code, name = self._scene.text("resources", len(found))
            if code == BAD:
                return found
            self._came(code, "resources")
            named = name.encode()
            self._told_cell("resource", named, len(named))
            value = self._value("resource_text", named, len(named))
            found.append((name, SHAPE_NAMES[self._cell.shape], self._cell_now(value)))

    def resource(self, name: str) -> Value:
        named = text_named("the name of a resource", name).encode("utf-8", "surrogatepass")
        self._asked()
        if not self._told_cell("resource", named, len(named)):
            raise Refused("refused 10 NoSuchResource")
        return self._value("resource_text", named, len(named))

    def _numbers_of_scene(self) -> RawInfo:
        """All that `scene_status` tells."""
        self._ready()
        self._told(self._scene.call("status", byref(self._info)), "status")
        return self._info

    def status(self) -> Status:
        self._asked()
        info = self._numbers_of_scene()
        return Status(*(getattr(info, name) for name in Status._fields))

    @property
    def depth(self) -> int:
        return int(self._numbers_of_scene().depth)

    @property
    def in_frame(self) -> bool:
        self._scene.check_thread()
        return self._in_frame

    # ---- the last answer, of which reads tell nothing

    def spawned_last(self) -> List[Entity]:
        """The entities that the last frame spawned, where no other call was made since."""
        made = RawEntity()
        found: List[Entity] = []
        while self._scene.call("spawned", len(found), byref(made)) == DONE:
            found.append(shown(made))
        return found

    def listed_last(self) -> List[Tuple[Entity, str]]:
        """The components that the last answer lists."""
        name = RawName()
        found: List[Tuple[Entity, str]] = []
        while self._scene.call("named", len(found), byref(name)) == DONE:
            found.append((shown(name.entity), self._names[name.kind]))
        return found

    # ---- by columns: each is a ctypes array, which is a buffer that `numpy.frombuffer` takes without a copy

    def tables(self, *need: str, without: Sequence[str] = ()) -> List[Tuple[int, int]]:
        found = self._listed("tables", RawTable, self._mask(need), self._mask(without))
        return [(table.mask, table.rows) for table in found]

    def entities(self, mask: int) -> Any:
        """The entities of a kind set: pairs of 32 bits without a sign, `index` and `generation`."""
        return self._listed("rows", RawEntity, mask)

    def column(self, mask: int, kind: str) -> Any:
        """The components of a kind in the rows of a kind set, in the order of `entities`: integers of 64 bits, three of
        them each, `x`, `y` and `z`, or for links entities.

        So `numpy.frombuffer(level.column(mask, "At"), "i8").reshape(-1, 3)` has the vectors, and
        `memoryview(level.column(mask, "At")).cast("B").cast("q")` their numbers. A TypeError, where the kind is a Tag,
        or a Text, of which `texts` has the column; a BadLine, where it isn't in the set.
        """
        number, shape = self._number(kind), self._kinds[kind][1]
        if shape not in COLUMNS:
            raise TypeError(f"the kind {kind} is no column of numbers")
        name, item = COLUMNS[shape]
        return self._listed(name, item, mask, number)

    def texts(self, mask: int, kind: str) -> List[str]:
        """The texts of a kind in the rows of a kind set, in the order of `entities`, without a call for each. A
        TypeError, where the kind is no Text; a BadLine, where it isn't in the set."""
        number, shape = self._number(kind), self._kinds[kind][1]
        if shape != "Text":
            raise TypeError(f"the kind {kind} is no column of texts")
        self._ready()
        code, found = self._scene.runs("texts", 1, mask, number)
        self._told(code, "there is no such column of texts")
        return [text.decode() for text in found]

    def added_ticks(self, mask: int, kind: str) -> Any:
        """The ticks at which the components of a column were added: integers of 64 bits without a sign."""
        return self._listed("ticks", c_uint64, mask, self._number(kind), ADDED)

    def changed_ticks(self, mask: int, kind: str) -> Any:
        """The ticks at which they were last written."""
        return self._listed("ticks", c_uint64, mask, self._number(kind), CHANGED)

    # ---- many entities in one call

    def packed(self, entities: Iterable[Named]) -> Any:
        """Entities as `gather` and `values` take them without another look: what `entities` gives."""
        numbers = array("I", [number for entity in entities for number in numbers_of(entity)])
        return (RawEntity * (len(numbers) // 2)).from_buffer(numbers)

    def gather(self, entities: Union[Iterable[Named], Any], kind: str) -> Any:
        """The components of a kind that entities have, in their order, in one call: a ctypes array of `scene_cell`.

        Each has `kind` and `shape` of 32 bits, then `x`, `y` and `z` of 64. The shape is the number of Tag, Int, Vec3,
        Text and Link, from 0, and 5 where there is no such component, as where the entity isn't alive. The text itself
        comes by `values`.
        """
        number, raw = self._number(kind), self._raw_array(entities)
        self._ready()
        cells = (RawCell * len(raw))()
        self._told(self._scene.call("gather", raw, len(raw), number, cells, len(raw)), "gather")
        return cells

    def values(self, entities: Union[Iterable[Named], Any], kind: str) -> List[Optional[Value]]:
        """The values of a kind that entities have, in their order; None where there is no such component."""
        raw = self._raw_array(entities)
        cells = self.gather(raw, kind)
        if not cells:
            return []
        number, shape = self._kinds[kind]
        view = memoryview(cells).cast("B")
        shapes, numbers = view.cast("I")[1::8], view.cast("q")
        if shape == "Text":
            texts = (partial(self._text, "read_text", entity, number) for entity in raw)
            return [None if each == ABSENT else read() for each, read in zip(shapes, texts)]
        columns: Dict[str, Iterable[Value]] = {
            "Tag": repeat(True),
            "Int": numbers[1::4],
            "Vec3": zip(numbers[1::4], numbers[2::4], numbers[3::4]),
            "Link": (Entity(f"{index}v{generation}") for index, generation in zip(numbers[1::4], numbers[2::4])),
        }
        return [None if each == ABSENT else value for each, value in zip(shapes, columns[shape])]

    def _raw_array(self, entities: Any) -> Any:
        is_packed = isinstance(entities, ctypes.Array) and entities._type_ is RawEntity
        return entities if is_packed else self.packed(entities)

    # ---- following, by a moment of each view's own

    def now(self) -> Moment:
        found = RawMoment()
        self._ready()
        self._told(self._scene.call("now", byref(found)), "now")
        return Moment(found.rewinds, found.tick)

    def _since(
        self, what: str, moment: Moment, need: Sequence[str], without: Sequence[str]
    ) -> List[Tuple[Entity, str]]:
        self._ready()
        name, raw = f"{what}_since", RawMoment(*moment_named(moment))
        code, names = self._scene.listed(name, RawName, raw, self._mask(need), self._mask(without))
        self._told(code, name)
        if code == REFUSED:
            raise Refused(f"refused 18 Rewound {self._numbers_of_scene().rewinds}")
        return [(shown(each.entity), self._names[each.kind]) for each in names]

    # ---- following, by what each frame did

    def _kept_step(self, way: str, place: int) -> Optional[KeptStep]:
        asked, tick = (WAYS[way], min(place, LAST)), c_uint64(0)
        self._ready()
        code, raw = self._scene.listed("step", RawDelta, *asked, byref(tick))
        self._told(code, "step")
        if code == REFUSED:
            return None

        def runs(name: str, size: int, *which: int) -> List[bytes]:
            # (each call goes through the deltas from the first one on, so all are asked for at once)
            came, found = self._scene.runs(name, size, *asked, *which, places=len(raw))
            self._told(came, name)
            return found

        return KeptStep(tick.value, DeltasOfStep(self._names, runs).all_in(raw))

    def _summaries(self, way: str, first: int, count: int) -> List[StepSummary]:
        self._asked()
        none, tick = (RawDelta * 0)(), c_uint64(0)
        found: List[StepSummary] = []
        for place in range(min(first, LAST), min(first + count, LAST)):
            code, total = self._scene.some("step", none, WAYS[way], place, byref(tick))
            self._told(code, "step")
            if code == REFUSED:
                break
            found.append(StepSummary(tick.value, total))
        return found
