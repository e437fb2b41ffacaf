"""What a system does to each row of its filter, step by step (docs/MODEL.md, "The rule of systems")."""
from __future__ import annotations

import reprlib
from dataclasses import dataclass
from typing import Any, Callable, Dict, Mapping, NamedTuple, Sequence, Union

from scene.values import Given, Value, fitting, read_whole, text_named


class AddVec(NamedTuple):
    """Adds the Vec3 of the kind `by` to that of the kind `to`."""

    to: str
    by: str


class AddInt(NamedTuple):
    """Adds the number `by` to the Int of the kind `to`."""

    to: str
    by: int


class DespawnAtZero(NamedTuple):
    """Despawns the row's entity where the Int of the kind is 0."""

    kind: str


class SpawnChild(NamedTuple):
    """Spawns a child of the row's entity, with components by their kinds' names, as `SpawnChild({"Health": 9})`."""

    cells: Mapping[str, Given] = {}


class CountInto(NamedTuple):
    """Puts the count of the rows into the resource of a name."""

    name: str


Step = Union[AddVec, AddInt, DespawnAtZero, SpawnChild, CountInto]


@dataclass(frozen=True)
class System:
    """A system by itself, which can be added to any scene, as `System("age", [AddInt("Health", -1)], ["Health"])`."""

    name: str
    steps: Sequence[Step]
    """What is done to each entity of its filter, in this order."""
    need: Sequence[str] = ()
    """The kinds of which an entity has to have all."""
    without: Sequence[str] = ()
    """The kinds of which it may have none."""


def step_asked(
    step: Step, known: Callable[[str], str], fits: Callable[[Mapping[str, Given]], Mapping[str, Value]]
) -> Dict[str, Any]:
    """A step as a request has it. `known` gives the name of a kind that is there, and `fits` the values of cells."""
    if isinstance(step, AddVec):
        return {"step": "addvec", "to": known(step.to), "by": known(step.by)}
    if isinstance(step, AddInt):
        by = fitting("what is added", read_whole, "a whole number of 64 bits", step.by)
        return {"step": "addint", "to": known(step.to), "by": by}
    if isinstance(step, DespawnAtZero):
        return {"step": "zero", "kind": known(step.kind)}
    if isinstance(step, SpawnChild):
        return {"step": "child", "cells": fits(step.cells)}
    if isinstance(step, CountInto):
        return {"step": "count", "name": text_named("the name of a resource", step.name)}
    told = "a step of a system is an AddVec, AddInt, DespawnAtZero, SpawnChild or CountInto"
    raise TypeError(f"{told}, and {reprlib.repr(step)} isn't")
