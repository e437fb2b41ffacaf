"""The calls of scene.h by ctypes: its structures, what each call takes, and the library that has them."""
from __future__ import annotations

import ctypes
import os
from ctypes import POINTER, c_char_p, c_int64, c_size_t, c_uint32, c_uint64, c_void_p
from pathlib import Path
from typing import Any, Dict, List, Union

from scene.errors import OtherVersion
from scene.version import __version__

DONE, NO_MEMORY, CLOSED, REFUSED, BAD, UNTOLD, LOST, SHARED = range(8)
TAG, INT, VEC3, TEXT, LINK, ABSENT = range(6)
BACK, ON = range(2)
SPAWNED, DESPAWNED, SHIFTED, SET, LINKED, RESOURCE = range(6)


class RawEntity(ctypes.Structure):
    """`scene_entity`."""

    _fields_ = [("index", c_uint32), ("generation", c_uint32)]


class RawCell(ctypes.Structure):
    """`scene_cell`."""

    _fields_ = [("kind", c_uint32), ("shape", c_uint32), ("x", c_int64), ("y", c_int64), ("z", c_int64)]


class RawName(ctypes.Structure):
    """`scene_name`."""

    _fields_ = [("entity", RawEntity), ("kind", c_uint32)]


class RawRefusal(ctypes.Structure):
    """`scene_refusal`."""

    _fields_ = [(name, c_uint32) for name in ("fault", "has_place", "phase", "queue", "command")]


class RawTable(ctypes.Structure):
    """`scene_table`."""

    _fields_ = [("mask", c_uint64), ("rows", c_uint64)]


class RawVec3(ctypes.Structure):
    """`scene_vec3`."""

    _fields_ = [(name, c_int64) for name in ("x", "y", "z")]


class RawTicks(ctypes.Structure):
    """`scene_tick_pair`."""

    _fields_ = [("added", c_uint64), ("changed", c_uint64)]


class RawMoment(ctypes.Structure):
    """`scene_moment`."""

    _fields_ = [("rewinds", c_uint64), ("tick", c_uint64)]


class RawInfo(ctypes.Structure):
    """`scene_info`."""

    _fields_ = [(name, c_uint64) for name in ("tick", "rewinds", "undo", "redo")]
    _fields_ += [(name, c_uint32) for name in ("slots", "limit", "kinds", "depth", "in_frame")]


class RawDelta(ctypes.Structure):
    """`scene_delta`."""

    _fields_ = [("change", c_uint32), ("entity", RawEntity), ("place", c_uint32), ("before", RawCell)]
    _fields_ += [("after", RawCell), ("parent_before", RawEntity), ("place_before", c_uint32)]
    _fields_ += [("parent_after", RawEntity), ("place_after", c_uint32)]


# What is none, and so never alive: a command about it is refused.
NOBODY = RawEntity(2**32 - 1, 2**32 - 1)

HANDLE = POINTER(c_void_p)
COUNT = POINTER(c_size_t)


def listing(item: Any) -> List[Any]:
    """What a call takes that lists: from where, the room for items, its length, and how many there are."""
    return [c_size_t, c_void_p if item is None else POINTER(item), c_size_t, COUNT]


CELL = [POINTER(RawCell), POINTER(RawTicks)]
BYTES = [c_char_p, c_size_t]
# (entities and cells that are read go as the bytes that they are)
ITEMS = [c_void_p, c_size_t]
# (a text is listed byte by byte)
READS_TEXT = listing(None)
SINCE = [RawMoment, c_uint64, c_uint64, *listing(RawName)]
# (items of which several belong to each place, one behind the other: with where those of each place end)
RUNS = [c_size_t, POINTER(c_size_t), c_size_t, c_void_p, c_size_t, COUNT, COUNT]
STEP = [c_uint32, c_size_t]
# What the calls of scene.h take behind the scene, but for those declared below, and those for which `spawn_cells`,
# `save_into` and `kind` stand; try_scene.py compares the two.
TAKES: Dict[str, List[Any]] = {
    "line": BYTES,
    "request": BYTES,
    "bad_reason": [],
    "answer_json": [],
    "share": [],
    "reader": [HANDLE],
    "unshare": [],
    "declare": [*BYTES, c_uint32, POINTER(c_uint32)],
    "set_depth": [c_uint32],
    "load": BYTES,
    "begin": [],
    "commit": [],
    "drop_frame": [],
    "spawned": [c_size_t, POINTER(RawEntity)],
    "undo": [],
    "redo": [],
    "undo_by": [c_size_t],
    "redo_by": [c_size_t],
    "spawn_cells": [*ITEMS, *BYTES, POINTER(RawEntity)],
    "despawn": [RawEntity],
    "despawn_all": [RawEntity],
    "insert": [RawEntity, RawCell],
    "insert_text": [RawEntity, c_uint32, *BYTES],
    "insert_cells": [*ITEMS, *ITEMS, *BYTES],
    "remove": [RawEntity, c_uint32],
    "set_parent": [RawEntity, RawEntity],
    "remove_parent": [RawEntity],
    "put": [*BYTES, RawCell],
    "put_text": [*BYTES, *BYTES],
    "drop": BYTES,
    "phase": [],
    "clear_systems": [],
    "advance": [],
    "check_systems": [POINTER(RawRefusal)],
    "get": [RawEntity, c_uint32, POINTER(RawCell)],
    "mark": [],
    "changed": [],
    "named": [c_size_t, POINTER(RawName)],
    "refused": [POINTER(RawRefusal)],
    "status": [POINTER(RawInfo)],
    "is_alive": [RawEntity, POINTER(c_uint32)],
    "mask": [RawEntity, POINTER(c_uint64)],
    "parent": [RawEntity, POINTER(RawEntity)],
    "children": [RawEntity, *listing(RawEntity)],
    "roots": listing(RawEntity),
    "tables": [c_uint64, c_uint64, *listing(RawTable)],
    "rows": [c_uint64, *listing(RawEntity)],
    "ints": [c_uint64, c_uint32, *listing(c_int64)],
    "vec3s": [c_uint64, c_uint32, *listing(RawVec3)],
    "links": [c_uint64, c_uint32, *listing(RawEntity)],
    "texts": [c_uint64, c_uint32, *RUNS],
    "ticks": [c_uint64, c_uint32, c_uint32, *listing(c_uint64)],
    "kind": [c_uint32, POINTER(c_uint32), *READS_TEXT],
    "read": [RawEntity, c_uint32, *CELL],
    "read_text": [RawEntity, c_uint32, *READS_TEXT],
    "gather": [POINTER(RawEntity), c_size_t, c_uint32, POINTER(RawCell), c_size_t],
    "resources": [c_size_t, *READS_TEXT],
    "resource": [*BYTES, *CELL],
    "resource_text": [*BYTES, *READS_TEXT],
    "now": [POINTER(RawMoment)],
    "changed_since": SINCE,
    "added_since": SINCE,
    "step": [*STEP, POINTER(c_uint64), *listing(RawDelta)],
    "delta_rows": [*STEP, *RUNS],
    "delta_texts": [*STEP, c_uint32, c_uint32, *RUNS],
    "save_into": [c_uint32, *READS_TEXT],
}


def path_of_library(path: Union[str, Path, None]) -> Path:
    """The whole path of the library: of the one given, or of the one that the environment names."""
    named, folder = path or os.environ.get("SCENE_LIBRARY"), os.environ.get("SCENE_LIB_DIR")
    if not named and not folder:
        told = "neither library= nor SCENE_LIBRARY names libscene.so, which `./scene library FOLDER` puts into a folder"
        raise FileNotFoundError(told)
    # A name without a folder would be looked for elsewhere.
    return Path(named or Path(str(folder)) / "libscene.so").resolve()


def check_version(library: ctypes.CDLL) -> None:
    """Raises `OtherVersion` for a library whose calls may be others: before 1.0 the second number tells that too."""
    number = int(library.scene_version())
    found, own = (number // 10_000, number // 100 % 100), tuple(map(int, __version__.split(".")[:2]))
    if found[: 1 if own[0] else 2] != own[: 1 if own[0] else 2]:
        raise OtherVersion(f"the library is of version {found[0]}.{found[1]}, and this package of {__version__}")


def load_library(path: Union[str, Path, None] = None) -> ctypes.CDLL:
    """The library at a path, with its calls declared."""
    library = ctypes.CDLL(str(path_of_library(path)))
    library.scene_version.argtypes, library.scene_version.restype = [], c_uint32
    check_version(library)
    library.scene_open.argtypes, library.scene_open.restype = [HANDLE], c_uint32
    library.scene_close.argtypes, library.scene_close.restype = [HANDLE], None
    library.scene_answer.argtypes, library.scene_answer.restype = [HANDLE, c_void_p, c_size_t], c_size_t
    library.scene_fault_name.argtypes, library.scene_fault_name.restype = [c_uint32, c_void_p, c_size_t], c_size_t
    for name, takes in TAKES.items():
        call = getattr(library, f"scene_{name}")
        call.argtypes, call.restype = [HANDLE, *takes], c_uint32
    return library
