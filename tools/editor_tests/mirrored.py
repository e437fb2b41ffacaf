"""The page's own mirror of a scene, by the scripts that a browser has, in node where the machine has one."""
import json
import shutil
import subprocess
import tempfile
from functools import lru_cache
from pathlib import Path

TOOLS = Path(__file__).resolve().parent.parent
NODE = shutil.which("node")
SORTS = {"spawned": "new", "linked": "moved", "shifted": "changed", "cellset": "changed"}
SCRIPT = """
import { createInterface } from "readline";
import { Mirror } from "./mirror.js";
import { marksOf } from "./records.js";
import { sceneOf } from "./state.js";

const mirror = new Mirror();

function recordsOf(text) {
  return text === null ? [] : [...text.undo, ...text.redo];
}

function seen() {
  const { state, kinds, records, position, frames, older, later } = mirror;
  const plain = records.map(({ tick, deltas }) => ({ deltas, tick }));
  const named = mirror.framesOf("0v1");
  const { sort = null } = marksOf(mirror.recordAt(position)).entities.get("0v1") ?? {};
  return { world: sceneOf(state, kinds, 1), records: plain, position, frames, older, later, named, sort };
}

for await (const line of createInterface({ input: process.stdin })) {
  const { whole, event, record } = JSON.parse(line);
  if (whole !== undefined) mirror.take(whole, recordsOf(whole.text).map((each) => JSON.stringify(each)));
  else if (event !== undefined) mirror.apply(event, record ? JSON.stringify(record) : undefined);
  else console.log(JSON.stringify(seen()));
}
"""


@lru_cache(maxsize=1)
def folder():
    """The scripts in one folder, as the server has them."""
    found = tempfile.TemporaryDirectory(prefix="scene-editor-")
    for path in (*(TOOLS / "picture").glob("*.js"), *(TOOLS / "editor" / "page").glob("*.js")):
        shutil.copy(path, found.name)
    Path(found.name, "package.json").write_text('{"type":"module"}')
    Path(found.name, "follow.js").write_text(SCRIPT)
    return found


def sort_of(records):
    """The sort of the change that the last of some records made of an entity, or None."""
    deltas = records[-1]["deltas"] if records else []
    sorts = {SORTS.get(delta["op"]) for delta in deltas if delta.get("entity") == "0v1"}
    return next((sort for sort in ("new", "moved", "changed") if sort in sorts), None)


class Mirrored:
    """A mirror, which is told what a tab is told."""

    def __init__(self):
        words, pipe = [NODE, str(Path(folder().name, "follow.js"))], subprocess.PIPE
        self.process = subprocess.Popen(words, stdin=pipe, stdout=pipe)

    def tell(self, **told):
        self.process.stdin.write(f"{json.dumps(told)}\n".encode())
        self.process.stdin.flush()

    def hold(self, world, client):
        """Holds what it sees to the world of a client that is told the same."""
        self.tell()
        seen, scene = json.loads(self.process.stdout.readline()), world.scene()
        parts = [part for part in seen["world"] if part not in ("limit", "scene")]
        wrong = [part for part in parts if seen["world"][part] != scene[part]]
        assert not wrong, f"the page differs in {wrong}"
        assert seen["records"] == [*scene["undo"], *scene["redo"]] and seen["position"] == len(scene["undo"])
        for part in ("frames", "older", "later"):
            assert seen[part] == getattr(client, part), f"the page differs in {part}"
        named = [any(delta.get("entity") == "0v1" for delta in record["deltas"]) for record in seen["records"]]
        assert seen["sort"] == sort_of(scene["undo"]), seen["sort"]
        assert seen["named"] == [at for at, is_named in enumerate(named, 1) if is_named], seen["named"]

    def close(self):
        self.process.stdin.close()
        self.process.wait()
        self.process.stdout.close()
