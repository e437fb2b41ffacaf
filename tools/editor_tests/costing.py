"""What the editor costs: calls by HTTP, from their sending to their events: an edit, an undo, a redo, an advance; a join;
a store that is opened again; and memory."""
import statistics
import tempfile
import time
from pathlib import Path

from asking import Asker
from editor_process import EditorProcess

SIZES = (100, 10_000, 100_000)
CALLS, ADVANCES = 200, 10
TOLD = tuple(f'{{"sort":"{sort}"' for sort in ("frame", "undo", "redo", "whole"))
SYSTEM = "system age need=Health addint:Health:1"


def script_of(entities):
    """A scene of so many entities, each below one of a hundred."""
    lines = ["kind Name Text", "kind Health Int", "kind At Vec3", "begin"]
    lines += [f"spawn Name=thing_{at} Health={at} At={at},0,{-at}" for at in range(entities)]
    lines += [f"parent {at}v1 {at % 100}v1" for at in range(100, entities)]
    return "\n".join([*lines, "commit", ""])


def memory_of(process):
    """The resident memory of a process and the most it has had, in MB."""
    status = dict(line.split(":", 1) for line in Path(f"/proc/{process}/status").read_text().split("\n") if ":" in line)
    return [int(status[name].split()[0]) / 1000 for name in ("VmRSS", "VmHWM")]


def milliseconds(seconds):
    ordered = sorted(seconds)
    found = statistics.median(ordered), ordered[len(ordered) * 9 // 10], ordered[-1]
    middle, tenths, worst = (1000 * each for each in found)
    return f"{middle:.1f} ms (nine of ten below {tenths:.1f}, worst {worst:.1f})"


def calls_of(asker, stream, lines):
    """How long each line took to its answer, and to its event."""
    answered, told = [], []
    for line in lines:
        since = time.perf_counter()
        asker.call(line)
        answered.append(time.perf_counter() - since)
        # (to read a large one as JSON would be the page's cost)
        while not stream.next_text()[1].startswith(TOLD):
            pass
        told.append(time.perf_counter() - since)
    return answered, told


def asks_of(asker, lines):
    """How long each line took to its answer."""
    for line in lines:
        since = time.perf_counter()
        asker.call(line)
        yield time.perf_counter() - since


def costs_of_calls(asker, stream, entities):
    """What is spent for edits, turns and advances, in words. Each advance writes a cell of all entities."""
    edits = [f"insert {at * 7 % entities}v1 Health={at}" for at in range(CALLS)]
    answered, told = calls_of(asker, stream, edits)
    yield f"a call of one insert {milliseconds(answered)}; its event {milliseconds(told)}"
    for word, what in (("undo", "an undo"), ("redo", "a redo")):
        yield f"{what} to its event {milliseconds(calls_of(asker, stream, [word] * CALLS)[1])}"
    gets = [f"get {at * 7 % entities}v1" for at in range(CALLS)]
    yield f"a call that only asks {milliseconds(asks_of(asker, gets))}"
    asker.call(SYSTEM)
    for word, what in (("advance", "an advance"), ("undo", "its undo"), ("redo", "its redo")):
        yield f"{what} to its event {milliseconds(calls_of(asker, stream, [word] * ADVANCES)[1])}"


def joined(editor):
    """A tab that joined, how long that took, and how long the answer was."""
    asker = Asker(editor.address)
    since = time.perf_counter()
    status, _, content = asker.ask("POST", "join", {})
    assert status == 200
    return asker, f"a join {1000 * (time.perf_counter() - since):.0f} ms and {len(content) / 1e6:.1f} MB"


def cost_of(program, room, entities):
    script, store = room / f"{entities}.scene", room / f"{entities}.db"
    script.write_text(script_of(entities))
    since = time.perf_counter()
    with EditorProcess(program, store, script) as editor:
        yield f"{entities:,} entities: begun with a script in {time.perf_counter() - since:.1f} s"
        asker, told = joined(editor)
        yield f"  {told}"
        asker.join()
        for told in costs_of_calls(asker, asker.events(asker.scene["sequence"]), entities):
            yield f"  {told}"
        resident, most = memory_of(editor.process.pid)
        yield f"  the server has {resident:.0f} MB, {most:.0f} at most"
    since = time.perf_counter()
    with EditorProcess(program, store) as editor:
        opened = time.perf_counter() - since
        yield f"  opened again in {opened:.1f} s, {joined(editor)[1]}, {memory_of(editor.process.pid)[0]:.0f} MB"


def costs(program):
    """Lines that tell what is spent, by the number of entities."""
    with tempfile.TemporaryDirectory(prefix="scene-editor-") as room:
        for entities in SIZES:
            yield from cost_of(program, Path(room), entities)
