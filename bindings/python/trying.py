"""What the tests of the Python scenes share: how an error is asked for, and what is tried on the way."""
from __future__ import annotations

import tempfile
from contextlib import contextmanager
from pathlib import Path
from typing import TYPE_CHECKING, Any, Callable, Iterator, List, Optional, Tuple, Type, TypeVar

from scene import BadLine, Calls, Entity, Refused, Spawned

if TYPE_CHECKING:
    from scene.library import LibraryScene

TOP = Path(__file__).resolve().parents[2]
KINDS = {"Name": "Text", "Health": "Int", "At": "Vec3", "Hidden": "Tag", "Target": "Link"}
# Texts that something on the way could spoil.
UNUSUAL = ("", '"', "\\", "a=b", "@1/1", "\r", "a\r", "\t\x01\x1f\x7f", "\x85\u2028", "\u65e5\U0001f415", "\0", "+0")
UNUSUAL += (Entity("7v9"),)

# Makes a scene with KINDS, or with others.
Begin = Callable[..., Calls]
Raised = TypeVar("Raised", bound=BaseException)


def error_of(kind: Type[Raised], call: Callable[..., Any], /, *words: Any, **cells: Any) -> Raised:
    """The error of a call, which has to be of this kind."""
    try:
        call(*words, **cells)
    except kind as error:
        return error
    raise AssertionError("the call was accepted")


def refusal(call: Callable[..., Any], /, *words: Any, **cells: Any) -> Refused:
    """The refusal of a call, which has to be refused."""
    return error_of(Refused, call, *words, **cells)


def is_bad(call: Callable[..., Any], /, *words: Any, **cells: Any) -> bool:
    """Whether a call makes no good line."""
    try:
        call(*words, **cells)
    except BadLine:
        return True
    return False


def is_set_up(world: Calls) -> bool:
    """Whether the setup is over, or a scene is loaded: then a line `kind` is bad. Else it declares a kind."""
    words = ("the setup has ended", "a scene is loaded")
    try:
        world.request("kind", name="LateKind", shape="Tag")
    except BadLine as bad:
        assert str(bad).startswith(words), bad
        return True
    return False


def told(refused: Refused) -> Tuple[int, str, List[str], Optional[Tuple[int, ...]]]:
    """All that a refusal tells."""
    return refused.number, refused.name, refused.fields, refused.place


def over_library(world: Calls) -> "LibraryScene":
    """The scene, which has to be over the library."""
    # (a Python without ctypes has the shell)
    from scene.library import LibraryScene  # pylint: disable=import-outside-toplevel

    assert isinstance(world, LibraryScene)
    return world


def spawned(world: Calls, **cells: Any) -> Entity:
    """An entity that is spawned outside a frame."""
    entity = world.spawn(**cells)
    assert isinstance(entity, Entity)
    return entity


def to_come(world: Calls, **cells: Any) -> Spawned:
    """An entity that an open frame is to spawn."""
    entity = world.spawn(**cells)
    assert isinstance(entity, Spawned)
    return entity


@contextmanager
def wrapped(program: str, before: str) -> Iterator[Tuple[str, Path]]:
    """A program that does something before it becomes another one, and a folder for stores."""
    with tempfile.TemporaryDirectory() as room:
        path = Path(room) / "wrapped"
        path.write_text(f'#!/bin/sh\ncd {room}\n{before}\nexec {program} "$@"\n')
        path.chmod(0o700)
        yield str(path), Path(room)
