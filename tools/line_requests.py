"""What lines ask for, as requests (docs/SHELL.md, "Requests"): a line of a script is read as the one it stands for."""
import json
from typing import Any, Dict, Iterable, List, Union

from request_forms import DROP_FRAME, request_of

COMMANDS = frozenset(
    "spawn insert despawn remove parent unparent despawnall despawnifalive put drop".split()
)  # fmt: skip
ENDS = ("commit", DROP_FRAME)
# These say nothing more, or are bad lines.
BARE = ("begin", *ENDS)
Kinds = Union[Dict[str, str], Iterable[List[str]]]


def read(line: str, kinds: Kinds) -> Dict[str, Any]:
    """The request of a line that the program took. Of a spawn that names a kind twice, which is refused, its word."""
    if line.startswith("{"):
        return json.loads(line)
    return request_of(line, kinds) or {"do": word_of(line)}


def word_of(line: str) -> str:
    """The word of what a line asks for, whether it is good or not; "" where it is empty or no request, for a `begin`,
    `commit` or `dropframe` with something more, and for a `dropframe` that is no request: these are bad lines."""
    if line.startswith("{"):
        try:
            request = json.loads(line)
        except (ValueError, RecursionError):
            return ""
        word, count = request.get("do"), len(request)
    else:
        words = [word for word in line.split(" ") if word]
        word, count = words[0] if words and words[0] != DROP_FRAME else "", len(words)
    has_more = word in BARE and count > 1
    return word if isinstance(word, str) and not has_more else ""


def is_open_behind(word: str, is_open: bool) -> bool:
    """Whether a frame is open behind a line of this word."""
    return (is_open or word == "begin") and word not in ENDS
