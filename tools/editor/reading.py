"""What the editor reads of the shell beyond steps: all, when a store is opened, and the words of frames farther off."""
import json
from itertools import chain
from typing import Iterable, Optional

from model import Model
from played_scene import Trouble
from questions import KINDS, STATUS, answer_word, batches, deltas_in, deltas_of, pages_of
from shell import Shell
from texts import exact_text
from timeline import Side, Timeline

# How many records of a side are read when a store is opened: those farther off are asked for as they are needed.
MOST_READ = 2000


def scene_text(shell: Shell, line: str) -> Optional[str]:
    """The scene text that `dump` or `dumpall` prints, or None where there is none."""
    answer = shell.ask([line])[0]
    return answer.partition('"text":')[2][:-1] if answer_word(answer) == "scene" else None


def read_all(shell: Shell, model: Model) -> None:
    """Has a model know all that it needs of the scene: the kinds, the world's text, and the frames, the nearest with
    their records."""
    kinds, status = map(json.loads, shell.ask([KINDS, STATUS]))
    text = scene_text(shell, "dump")
    if text is None:
        raise Trouble("the world's text is too long for the editor")
    timeline = model.timeline
    sides = {"past": timeline.past, "future": timeline.future}
    for name, side in sides.items():
        side.forget(side.held)
        side.fit(status[name])
        read_steps(shell, name, side)
    for name, side in sides.items():
        read_records(shell, name, side, timeline)
    model.opened(kinds["kinds"], exact_text(text))


def read_steps(shell: Shell, name: str, side: Side) -> None:
    """Reads how large each frame of a side is."""
    pages = (json.loads(shell.ask([page])[0]) for page in pages_of(len(side.frames), name))
    for frame, step in zip(reversed(side.frames), chain.from_iterable(page["steps"] for page in pages)):
        frame.tick, frame.count = step["tick"], step["deltas"]


def read_records(shell: Shell, name: str, side: Side, timeline: Timeline) -> None:
    """Holds the nearest records of a side, so many as have room, but the nearest one always."""
    nearest = side.frames[: -MOST_READ - 1 : -1]
    for places in batches([frame.count for frame in nearest]):
        for answer in shell.ask([deltas_of(name, place) for place in places]):
            deltas = deltas_in(answer)
            if side.held > 0 and len(deltas) > timeline.room:
                return
            side.hold(deltas)


def read_words(shell: Shell, model: Model, places: Iterable[int]) -> None:
    """Has the frames at some places of the timeline their words."""
    timeline = model.timeline
    unsaid = [place for place in places if timeline.frame_at(place).words is None]
    far = [place for place in unsaid if timeline.frame_at(place).deltas is None]
    for batch in batches([timeline.frame_at(place).count for place in far]):
        asked = [far[number] for number in batch]
        lines = [deltas_of("past", -place) if place <= 0 else deltas_of("future", place - 1) for place in asked]
        for place, answer in zip(asked, shell.ask(lines)):
            timeline.frame_at(place).said(model.kinds, deltas_in(answer))
