"""What the words of lines mean to the editor."""
import json

from line_requests import COMMANDS
from request_forms import DECLARE

# Those that don't end the setup.
SETUP = frozenset(("kind", "slots", "load", "calls", "depth", DECLARE))
FRAMES = COMMANDS | {"commit", "advance"}
TURNS = ("undo", "redo")


def system_name(line: str) -> str:
    """The name in a line that adds a system."""
    return json.loads(line)["name"] if line.startswith("{") else [word for word in line.split(" ") if word][1]
