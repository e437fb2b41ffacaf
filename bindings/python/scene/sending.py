"""Lines for a store that an editor has open (docs/EDITOR.md, "From a script"): `send`."""
from __future__ import annotations

import json
import subprocess
from pathlib import Path
from typing import Any, Dict, Iterable, List, Mapping, Union

from scene.calls import request_sent
from scene.errors import ended
from scene.program import LOG, REASON, program_named
from scene.values import line_named


def line_sent(line: Union[str, Mapping[str, Any]]) -> bytes:
    """A line or a request with its line break. The shell drops a carriage return at the end, but for a space behind."""
    sent = request_sent(line) if isinstance(line, Mapping) else line_named(line).encode()
    return sent + (b" \n" if sent.endswith(b"\r") else b"\n")


def send(
    store: Union[str, Path],
    lines: Iterable[Union[str, Mapping[str, Any]]],
    program: Union[str, Path, None] = None,
) -> List[Dict[str, Any]]:
    """Gives lines, and requests, to the editor that has a store open; where nobody has, plays them into the store. From
    `begin` to `commit` no other's work comes between.

    Each is answered as `scene shell --json` does (docs/SHELL.md, "JSON"): also that one is bad or refused is an answer.
    `program` is the script `./scene`, whose command `send` this is; without it the one that SCENE_PROGRAM names, or
    `scene` on the path. One that isn't there is an OSError, a store that a shell has open, or that can't be opened, a
    `StoreError`, and an editor that has ended meanwhile an `Ended`: then some of the lines may be done.
    """
    words = [program_named(program), "send", str(store)]
    run = subprocess.run(words, input=b"".join(map(line_sent, lines)), capture_output=True, check=False)
    told = [line for line in run.stderr.decode(errors="replace").splitlines() if not REASON.fullmatch(line)]
    if run.returncode not in (0, 1):
        why = "; ".join(line.removeprefix("scene: ") for line in told)
        raise ended(why or f"the program has ended with status {run.returncode}", run.returncode)
    for line in told:
        LOG.warning("%s", line)
    return [json.loads(answer) for answer in run.stdout.splitlines()]
