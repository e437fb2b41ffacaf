"""A store that is opened again has its frames with their sessions and words; behind a compaction, with those of the
deltas."""
import json
import subprocess

from asking import TEXTS, Asker
from editor_process import EditorProcess, saved

SCRIPT = """kind Name Text
kind Health Int
kind Hidden Tag
spawn Name=cat Health=9
"""


def named(entity, text):
    return json.dumps({"do": "insert", "entity": entity, "kind": "Name", "value": text})


FRAMES = (
    (0, ["spawn Name=\"cat\" Health=9 as 0v1"], ()),
    (1, ["spawn Name=\"->\" as 1v1", "1v1 goes below 0v1"], ("begin", "spawn Name=->", "parent +0 0v1", "commit")),
    (2, ["Health of 0v1 is 7"], ("insert 0v1 Health=7",)),
    (2, ["0v1 is Hidden"], ("insert 0v1 Hidden",)),
    (1, [f'Name of 0v1 is {json.dumps(" ".join(TEXTS[:4]), ensure_ascii=False)}'], (named("0v1", " ".join(TEXTS[:4])),)),
    (2, ['resource sign is Text="a -> done 0v1"'], ('{"do":"put","name":"sign","shape":"Text","value":"a -> done 0v1"}',)),
    (1, ["advance: hurt"], ("system hurt need=Health addint:Health:-1", "advance")),
    (2, ["an empty frame"], ("begin", "commit")),
    (1, ["resource light is Vec3=1,-2,3"], ("put light Vec3=1,-2,3",)),
    (1, [*(f"spawn as {index}v1" for index in range(2, 22)), "and 480 more"], ("begin", *["spawn"] * 500, "commit")),
    (1, ["0v1 loses Hidden"], ("remove 0v1 Hidden",)),
    (2, ["despawn 0v1 and all below"], ("despawnall 0v1",)),
    (1, ["2v1 leaves its parent"], ("begin", "parent 2v1 3v1", "unparent 2v1", "commit")),
)  # fmt: skip
# What their deltas say alone.
OF_DELTAS = {6: ["Health of 0v1 is 6"]}
UNDONE = 2


def played(editor):
    """Plays the frames by two tabs, takes some back, and gives what a tab then knows."""
    tabs = {1: Asker(editor.address), 2: Asker(editor.address)}
    for number, tab in tabs.items():
        assert tab.join()["session"] == number
    for session, _, lines in FRAMES[1:]:
        assert tabs[session].told(*lines)[-1] == "done", lines
    assert tabs[1].told(*["undo"] * (UNDONE + 1), "redo") == ["undone"] * (UNDONE + 1) + ["redone"]
    assert tabs[2].told("insert 7v7 Health=1", "get 0v1", "drop light")[:2] == ["refused", "row"]
    assert tabs[2].told("undo") == ["undone"]


def known(editor, leave=("sequence", "sessions")):
    """All that a tab learns at its join, but for what is of this server alone."""
    return {part: value for part, value in Asker(editor.address).join()["scene"].items() if part not in leave}


def wanted_frames():
    kept = [*FRAMES[: len(FRAMES) - UNDONE], (2, ["resource light goes"], ())]
    return [{"session": session, "words": words} for session, words, _ in kept]


def of_deltas(frames):
    return [{"session": None, "words": OF_DELTAS.get(at, frame["words"])} for at, frame in enumerate(frames)]


def compacted(program, store, room):
    """The store, compacted; by the lines that compaction leaves, where the program knows none of it."""
    said = subprocess.run([program, "compact", store], capture_output=True, check=False)
    if said.stdout.startswith(b"lines "):
        return store
    script, other = room / "compacted.scene", room / "compacted.db"
    text = json.dumps(saved(program, store), separators=(",", ":"))
    script.write_text(f"load {text}\nsystem hurt need=Health addint:Health:-1\nas 2\n")
    with EditorProcess(program, other, script):
        return other


def try_reopening(program, room):
    script, store = room / "again.scene", room / "again.db"
    script.write_text(SCRIPT)
    with EditorProcess(program, store, script) as editor:
        played(editor)
        first = known(editor)
    assert first["frames"] == wanted_frames() and first["position"] == len(first["frames"]) - 1, first["frames"]
    with EditorProcess(program, store) as editor:
        again = known(editor)
    assert again == first, [part for part in first if again[part] != first[part]]
    with EditorProcess(program, compacted(program, store, room)) as editor:
        behind = known(editor)
        assert behind == {**first, "frames": of_deltas(first["frames"])}, behind["frames"]
        tab = Asker(editor.address)
        tab.join()
        assert tab.told("redo", "undo", "undo", "advance") == ["redone", "undone", "undone", "done"]
        assert known(editor)["frames"][-1] == {"session": tab.session, "words": ["advance: hurt"]}
    return f"{len(first['frames'])} frames were known again, and behind a compaction by their deltas"
