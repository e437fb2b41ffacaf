"""Questions that the editor asks the shell (docs/SHELL.md, "Questions"), and what their answers say. Parts that may be
large stay JSON text as they came: the editor passes them on."""
import json
from typing import Iterator, List, NamedTuple, Optional, Sequence, Tuple

from texts import compact, exact_text

# How each answer begins.
BEGINNING = '{"answer":"'
PAGE = 4096
# How many deltas are asked for at once, but for those of a single step.
MOST_DELTAS = 4096


def request(word: str, **keys: object) -> str:
    return compact({"do": word, **keys})


def deltas_of(side: str, step: int) -> str:
    return request("deltas", of=side, step=step)


KINDS, STATUS = request("kinds"), request("status")
# (a step back has its deltas the other way about, and a record is held in the order in which it was made)
FORTH, BACK = request("step", way="forth"), deltas_of("future", 0)
NEWEST, NEXT = (request(side, **{"from": 0, "count": 1}) for side in ("past", "future"))


class Moved(NamedTuple):
    """What one frame, undo or redo did: the tick before the frame, and how many deltas it has; how many frames the past
    has then, or behind an undo the future; and the frame's deltas, where they were asked for."""

    tick: int
    count: int
    length: int
    deltas: Optional[str]


def behind(word: str, is_held: bool) -> Tuple[str, ...]:
    """The questions that tell what a line did that may change the world. What is held needn't be told again."""
    step, nearest = (BACK, NEXT) if word == "undo" else (FORTH, NEWEST)
    return (nearest,) if is_held else (step, nearest)


def moved_of(answers: Sequence[str]) -> Optional[Moved]:
    """What the answers to these say, or None where there was no step."""
    nearest = json.loads(answers[-1])
    if not nearest.get("steps"):
        return None
    step = nearest["steps"][0]
    deltas = deltas_in(answers[0]) if len(answers) > 1 else None
    return Moved(step["tick"], step["deltas"], nearest["length"], deltas)


def answer_word(answer: str) -> str:
    return answer[len(BEGINNING) : answer.index('"', len(BEGINNING))]


def pages_of(length: int, side: str) -> List[str]:
    """The questions for all steps of the past or of the future, the nearest first."""
    return [request(side, **{"from": first, "count": PAGE}) for first in range(0, length, PAGE)]


def deltas_in(answer: str) -> str:
    """The deltas in the answer that tells a step, or a record."""
    text = answer.partition('"deltas":')[2]
    return exact_text(text[:-1] if answer_word(answer) == "step" else text.rpartition(',"tick":')[0])


def get_of(entity: str) -> str:
    return request("get", entity=entity)


def batches(counts: List[int]) -> Iterator[range]:
    """The places of steps with so many deltas each, parted into those that are asked for at once."""
    first = size = 0
    for place, count in enumerate(counts):
        if place > first and size + count >= MOST_DELTAS:
            yield range(first, place)
            first, size = place, 0
        # (a record without deltas is an answer too)
        size += count + 1
    if first < len(counts):
        yield range(first, len(counts))
