"""Scenes from Python: over the program's shell, or over its C library. Both have the same calls (`Calls`).

    with scene.open("level.db", kinds={"Name": "Text", "Health": "Int"}) as level:
        cat = level.spawn(Name="cat", Health=9)
        with level.frame():
            kitten = level.spawn(Name="kitten", Health=3)
            level.set_parent(kitten, cat)
        level.put("title", "Big House")
        level.undo(2)
        print(level.get(cat, "Health"), level.children_of(cat), level.status().redo)
        level.clear_systems()
        level.add_system("age", scene.AddInt("Health", -1), need=["Health"])
        before = level.now()
        level.advance()
        for entity, kind in level.changed_since(before):
            print(entity, kind, level.get(entity, kind))
        for delta in level.past_step().deltas:
            print(delta.entity, delta.kind, delta.before, delta.after)
        for row in level.each_row("Health", without=["Name"]):
            print(row.entity, row.values(), row.parent, row.children)

- `Scene` runs the program `scene shell`: each call is a request, and waits for its answer (docs/SHELL.md). With a store
  each change is kept in a file before the call returns, and the next scene on the file goes on there.
- `scene.library.LibraryScene` calls libscene.so in this process, without a text on the way; it keeps nothing by itself.

`scene.open` gives either; `scene.send` gives lines to the editor that has a store open. docs/MODEL.md says what the
calls do, docs/SCRIPTS.md what lines do, docs/BINDINGS.md how the package is installed.

- Writing: a `spawn` gives an entity, and in a frame a `Spawned`, which stands for the one that is to come. `insert_all`
  writes to many entities in one frame. An error in the `with` of a `frame` drops it.
- Reading: `get`, `row`, `each_row` and `rows`, `tables`, `parent_of`, `children_of`, `roots`, `resource`, `status`.
- Following: `now` gives a `Moment`, since which `changed_since` and `added_since` tell what was written. `past_step`
  and `future_step` tell what a frame, a redo or an undo did, delta by delta (`Delta`, `KeptStep`).
- Systems: `add_system` takes steps and a filter, or a `System` that has them.

Values are True for a Tag, int, three ints, str, and an entity for a Link; numbers may be given as a line writes them. A
text has any characters. `request` says what has no call of its own, as `despawnifalive`.

What goes wrong is a `SceneError`, but for the TypeError of a value whose type its kind doesn't take:

- `Refused`: a rule of docs/MODEL.md refuses the call. The scene is as it was, and the frame of a commit is gone.
- `BadLine`, a ValueError: what was asked names no kind, has a value out of range, or is out of place, as a read in an
  open frame. The scene is as it was. Of a bad request `path` tells the part.
- `KindsDiffer`, a BadLine: a store has a kind in another shape than `open` was asked for, or can't have it.
- `Closed`, a ValueError: the call comes behind `close`.
- `Ended`: the program has ended; `StoreError`, an Ended: since its store can't be read or written, or is in use. No
  call goes then any more, and the store has all that was answered.
- `NoMemory`, a MemoryError, with `Lost` and `Untold`: memory was wanting in the library.
- `OtherThread`, `OtherVersion`, `Shared`: another thread calls, the library is of another version, or the scene is
  shared; nothing was done.

What else the program says on standard error goes to the log `scene`.
"""
from __future__ import annotations

import os
from pathlib import Path
from typing import Mapping, Optional, Sequence, Union

from scene.calls import Calls
from scene.deltas import Delta, KeptStep, StepSummary
from scene.errors import BadLine, Closed, Ended, KindsDiffer, Lost, NoMemory, OtherThread, OtherVersion, Refused
from scene.errors import SceneError, Shared, StoreError, Untold
from scene.sending import send
from scene.shell import Scene
from scene.systems import AddInt, AddVec, CountInto, DespawnAtZero, SpawnChild, Step, System
from scene.values import Cell, Entity, Given, Moment, Row, Spawned, Status, Value
from scene.version import __version__

__license__ = "MIT"
__all__ = [
    "AddInt",
    "AddVec",
    "BadLine",
    "Calls",
    "Cell",
    "Closed",
    "CountInto",
    "Delta",
    "DespawnAtZero",
    "Ended",
    "Entity",
    "Given",
    "KeptStep",
    "KindsDiffer",
    "Lost",
    "Moment",
    "NoMemory",
    "OtherThread",
    "OtherVersion",
    "Refused",
    "Row",
    "Scene",
    "SceneError",
    "Shared",
    "SpawnChild",
    "Spawned",
    "Status",
    "Step",
    "StepSummary",
    "StoreError",
    "System",
    "Untold",
    "Value",
    "__version__",
    "open",
    "send",
]


def open(  # pylint: disable=redefined-builtin
    store: Union[str, Path, None] = None,
    kinds: Optional[Mapping[str, str]] = None,
    program: Union[str, Path, None] = None,
    options: Sequence[str] = (),
    library: Union[str, Path, None] = None,
) -> Calls:
    """Opens a scene, which `with` or `close` ends.

    - `store`: the path of a file that has each change before its call returns, and goes on where it ended
    - `kinds`: shapes by the names of kinds, as `{"Health": "Int"}`; those that aren't there are declared, also in a
      store that has frames
    - `program`: the program whose shell it is over; without it the one that SCENE_PROGRAM names, or `scene` on the path
    - `options`: more words for the shell, as `["--depth", "100"]`
    - `library`: the path of libscene.so, for a scene over that, which keeps nothing by itself: so with a store or
      options it is a ValueError

    Where none of the last three is given, nor a store, but SCENE_LIBRARY names a library, it is over that. What isn't
    there is an OSError; `Scene` and `LibraryScene` say what else is raised.
    """
    if library is None and store is None and program is None and not options:
        library = os.environ.get("SCENE_LIBRARY") or None
    if library is None:
        return Scene(store, kinds, program, options)
    if store is not None or options:
        raise ValueError("a store and options are the shell's: a library keeps nothing by itself")
    # (a Python without ctypes has the shell)
    from scene.library import LibraryScene  # pylint: disable=import-outside-toplevel

    return LibraryScene(kinds, library)
