"""Scenes over the C library of Scene, by ctypes: `LibraryScene` has the calls of `scene.Calls`.

    with LibraryScene(kinds={"Name": "Text", "At": "Vec3"}, library="FOLDER/libscene.so") as level:
        cat = level.spawn(Name="a cat", At=(1, 2, 3))
        before = level.now()
        level.insert(cat, At=(4, 5, 6))
        print(level.changed_since(before), level.past_step().deltas[0].before)
        for mask, count in level.tables("At"):
            print(count, sum(memoryview(level.column(mask, "At")).cast("B").cast("q")))

`./scene library FOLDER` makes the library. Without a path, it is the one that the variable SCENE_LIBRARY names, or else
libscene.so in the folder that SCENE_LIB_DIR names.

Columns, many entities read in one call, a check of systems, and sharing are its own, beside those calls. A column is a
ctypes array, which numpy takes without a copy; one of texts is a list.

Behind `share` nothing changes a scene, and several threads read it at once, each by a `reader` of its own; `unshare`
ends that.
"""
from __future__ import annotations

import json
from contextlib import suppress
from ctypes import byref, c_uint32
from pathlib import Path
from typing import Any, Dict, Iterable, List, Mapping, Optional, Tuple, Union

from scene.answers import ASK_TEXT, BAD_LINE, answer_to, bad_request
from scene.calls import request_sent
from scene.cells import packed_cells, raw_component
from scene.deltas import Delta, KeptStep
from scene.errors import BadLine, Lost, Refused, Shared, Untold, told_in_json
from scene.handle import Library, Played
from scene.header import BAD, CLOSED, DONE, LOST, NO_MEMORY, REFUSED, SHARED, UNTOLD, RawEntity, RawRefusal
from scene.header import load_library
from scene.reads import IN_FRAME, SHAPE_NAMES, Reads, raw_entity, shown
from scene.values import SHAPES, Entity, Given, Moment, Named, Spawned, Value, count_named, depth_named, fitting
from scene.values import kind_named, line_named, read_text, resource_value, shape_named, target_named, text_named

__all__ = ["BAD", "CLOSED", "DONE", "Delta", "KeptStep", "LOST", "Library", "LibraryScene", "Lost", "Moment"]
__all__ += ["NO_MEMORY", "Played", "REFUSED", "SHARED", "UNTOLD", "Untold", "load_library"]

HISTORY_FULL, REWOUND = 17, 18
# What a scene text has, by its version.
WORLD_ALONE, WITH_HISTORY = 1, 2
# As many as a count can tell; no scene has so many frames.
MOST = 2**64 - 1


def raw_target(given: Named) -> RawEntity:
    """What a command is about: an entity, or `+K` for the k-th spawn of the frame."""
    if isinstance(given, str) and not given.startswith("+"):
        return raw_entity(given)
    target = target_named(given)
    return RawEntity(int(target[1:]), 0) if target.startswith("+") else raw_entity(target)


def in_bytes(what: str, name: object) -> bytes:
    """A name that a caller gives, as the library takes it."""
    return fitting(what, read_text, "a text", text_named(what, name)).encode()


def name_in_bytes(name: object) -> bytes:
    """The name of a resource as the library takes it."""
    return in_bytes("the name of a resource", name)


class LibraryScene(Reads):
    """A scene in this process, of the library at a path. `with` frees it.

    A library that isn't there is an OSError, and one of another version than this package an `OtherVersion`. A scene
    belongs to the thread that opened it: from another one each call is an `OtherThread`, and nothing is called. What
    `share` has made read only, other threads read by a `reader` each.
    """

    def __init__(self, kinds: Optional[Mapping[str, str]] = None, library: Union[str, Path, None] = None) -> None:
        self._begin_with(Library(library))
        self._declare_all(kinds)

    def _begin_with(self, scene: Library) -> None:
        """Begins as a scene of the library."""
        super().__init__(scene)
        # What a spawn writes into.
        self._made = RawEntity()
        self._to_made = byref(self._made)

    def close(self) -> None:
        self._scene.close()

    # ---- several readers

    def share(self) -> None:
        """Makes the scene read only, so that several threads read it at once, each by a `reader` of its own.

        Each call that would change it is a `Shared` then, and so is each line and request, as `show`, `changed`,
        `added` and a `get` without a kind make one. It ends the setup, as a read does; an open frame stays open. A
        scene that is shared stays so.
        """
        self._ready()
        self._call("share")

    def reader(self) -> LibraryScene:
        """Another scene, which reads the same: it belongs to the thread that calls it first, and `with` or `close` ends
        it there. Whichever is closed first, the others go on. A BadLine, where the scene isn't shared.

        So a thread gets one and reads: `Thread(target=draw, args=(level.reader(),))`.
        """
        code, scene = self._scene.reader()
        if code == BAD:
            raise BadLine("the scene isn't shared: `share` comes before a reader")
        self._came(code, "reader")
        other = LibraryScene.__new__(LibraryScene)
        # pylint: disable=protected-access
        other._begin_with(scene)
        other._take_over(self)
        return other

    def unshare(self) -> None:
        """Makes the scene this one's alone, so that it can be changed again. A `Shared`, while others have it: they
        have to be closed before. So the one that is left has the scene, also where that is a reader."""
        code = self._scene.call("unshare")
        if code == REFUSED:
            raise Shared("others have the scene too: they have to be closed before it is one's alone")
        self._came(code, "unshare")

    @property
    def version(self) -> Tuple[int, int, int]:
        """The version of the library."""
        return self._scene.version

    # ---- lines and requests

    def play(self, line: bytes) -> Played:
        """Plays a line that is given as bytes without its line break, whatever it comes to."""
        played = self._played(line, "line")
        if played.code in (DONE, UNTOLD):
            self._noted(line.decode().lstrip(" ").partition(" ")[0])
        return played

    def _played(self, asked: bytes, call: str) -> Played:
        """Plays a line or a request, and looks at what it may have changed."""
        played = self._scene.play(asked, call)
        if played.code != CLOSED:
            self._look()
        return played

    def line(self, text: str) -> List[str]:
        code, answer = self.play(line_named(text).encode())
        lines = answer.decode().split("\n")[:-1]
        if code == REFUSED:
            raise Refused(lines[0])
        self._came(code, text)
        return lines

    def request(self, do: str, **keys: Any) -> Dict[str, Any]:
        code, answer = self._played(request_sent({"do": do, **keys}), "request")
        text = answer.decode()
        if code == REFUSED:
            raise Refused(text.rstrip("\n"))
        if code == BAD and text != BAD_LINE:
            raise bad_request(text)
        self._came(code, do)
        answer = answer_to(self, do, keys, text) if do in ASK_TEXT else self._answered(do, text)
        if refused := told_in_json(answer):
            raise refused
        self._noted(do)
        return answer

    def _answered(self, do: str, text: str) -> Dict[str, Any]:
        """The answer to a request that was done. Of a question it is the text."""
        told = text if text.startswith("{") else self._scene.answer_in_json()
        if not told:
            raise Untold(do)
        answer: Dict[str, Any] = json.loads(told)
        return answer

    # ---- what calls come to

    def _call(self, name: str, *arguments: Any) -> None:
        """Makes a call, and raises why it wasn't done."""
        code = self._scene.call(name, *arguments)
        if code == REFUSED:
            raise self._refusal()
        if code:
            self._came(code, name)

    def _refusal(self) -> Refused:
        """Why the last call was refused, as a line tells it."""
        raw, text = RawRefusal(), self._scene.answer().decode().rstrip("\n")
        if self._scene.call("refused", byref(raw)) != DONE or text:
            return Refused(text)
        told = self._fault_told(raw)
        if raw.fault == HISTORY_FULL:
            # Its field is the length of the history, which only the answer tells.
            told += f" {json.loads(self._scene.answer_in_json() or '{}').get('length', '')}"
        elif raw.fault == REWOUND:
            told += f" {self._numbers_of_scene().rewinds}"
        if raw.has_place:
            told += f" at {raw.phase}.{raw.queue}.{raw.command}"
        return Refused(told)

    def _fault_told(self, raw: RawRefusal) -> str:
        """A fault as a line tells it, without its fields."""
        return f"refused {raw.fault} {self._scene.fault_name(raw.fault)}"

    # ---- kinds

    def declare(self, name: str, shape: str) -> None:
        asked, number = SHAPE_NAMES.index(shape_named(kind_named(name), shape)), c_uint32(0)
        named = in_bytes("the name of a kind", name)
        self._call("declare", named, len(named), asked, byref(number))
        self._names.append(name)
        self._kinds[name] = number.value, shape

    def set_depth(self, depth: int) -> None:
        self._call("set_depth", depth_named(depth))

    # ---- commands

    def _components(self, cells: Mapping[str, Given]) -> List[Tuple[int, Value]]:
        """Components by the numbers of their kinds."""
        made = []
        for name, value in cells.items():
            number = self._number(name)
            made.append((number, fitting(name, *SHAPES[self._kinds[name][1]], value)))
        return made

    def spawn(self, /, **cells: Given) -> Union[Entity, Spawned, None]:
        packed, texts = packed_cells(self._components(cells))
        self._call("spawn_cells", packed, len(cells), texts, len(texts), self._to_made)
        if self._in_frame:
            self._noted("spawn")
            return self._spawned()
        return shown(self._made)

    def insert(self, entity: Named, /, **cells: Given) -> None:
        target = raw_target(entity)
        for kind, value in self._components(cells):
            component = raw_component(kind, value)
            if isinstance(component, bytes):
                self._call("insert_text", target, kind, component, len(component))
            else:
                self._call("insert", target, component)

    def insert_all(self, entities: Union[Iterable[Named], Any], /, **columns: Iterable[Given]) -> None:
        raw = self._raw_array(entities)
        writes = [
            (self._number(kind), self._fitting_column(kind, values, len(raw))) for kind, values in columns.items()
        ]
        if self._in_frame:
            self._scene.check_thread()
            raise BadLine(IN_FRAME)
        cells, texts = packed_cells((kind, value) for kind, values in writes for value in values)
        count = len(raw) * len(writes)
        self._call("insert_cells", bytes(raw) * len(writes), count, cells, count, texts, len(texts))

    def remove(self, entity: Named, kind: str) -> None:
        number = self._number(kind)
        self._call("remove", raw_target(entity), number)

    def despawn(self, entity: Named) -> None:
        self._call("despawn", raw_target(entity))

    def despawn_all(self, entity: Named) -> None:
        self._call("despawn_all", raw_target(entity))

    def set_parent(self, child: Named, parent: Optional[Named]) -> None:
        if parent is None:
            self._call("remove_parent", raw_target(child))
        else:
            self._call("set_parent", raw_target(child), raw_target(parent))

    def put(self, name: str, value: Given, shape: Optional[str] = None) -> None:
        _, read = resource_value(name, value, shape)
        named, component = name_in_bytes(name), raw_component(0, read)
        if isinstance(component, bytes):
            self._call("put_text", named, len(named), component, len(component))
        else:
            self._call("put", named, len(named), component)

    def drop(self, name: str) -> None:
        named = name_in_bytes(name)
        self._call("drop", named, len(named))

    # ---- systems

    def add_phase(self) -> None:
        self._call("phase")

    def clear_systems(self) -> None:
        self._call("clear_systems")

    def advance(self) -> List[Entity]:
        self._call("advance")
        return self.spawned_last()

    def check_systems(self) -> None:
        """Raises what `advance` would refuse of the systems that there are: Refused as BadRule, where one breaks a
        rule, or as Conflict, where two of a phase don't go together. Which ones, `advance` tells. It changes nothing,
        and also goes in the setup and in an open frame."""
        why = RawRefusal()
        code = self._scene.call("check_systems", byref(why))
        self._told(code, "check_systems")
        if code == REFUSED:
            raise Refused(self._fault_told(why))

    # ---- frames

    def _begin(self) -> None:
        self._call("begin")
        self._in_frame = True

    def _committed(self) -> List[Entity]:
        try:
            self._call("commit")
        except MemoryError:
            # But for this, the frame is over whatever the answer is.
            self._drop_frame()
            raise
        except Refused:
            self._in_frame = False
            raise
        self._in_frame = False
        return self.spawned_last()

    def drop_frame(self) -> bool:
        code = self._scene.call("drop_frame")
        # (that of a shared scene stays open)
        self._in_frame = self._in_frame and code == SHARED
        if code != BAD:
            self._came(code, "drop_frame")
            self._noted("dropframe")
        return code == DONE

    def _drop_frame(self) -> None:
        with suppress(ValueError, Shared):
            self.drop_frame()

    def _steps(self, do: str, count: int) -> None:
        asked = count_named(count)
        if asked == 1:
            # (one that is refused is a call of the history only so)
            self._call(do)
        else:
            self._call(f"{do}_by", min(asked, MOST))

    # ---- following and texts

    def mark(self) -> None:
        self._call("mark")

    def changed(self) -> List[Tuple[Entity, str]]:
        self._call("changed")
        return self.listed_last()

    def save(self, world_alone: bool = False) -> str:
        self._asked()
        code, text = self._scene.saved(WORLD_ALONE if world_alone else WITH_HISTORY)
        self._told(code, "save_into")
        if code == REFUSED:
            raise Refused("fault 56 TooLong")
        return text.rstrip("\n")

    def load(self, text: str) -> None:
        data = in_bytes("a scene text", text)
        self._call("load", data, len(data))
        self._look()
