"""How a store is made of a script or of a scene text: all of it, or none."""
import json
import signal
import subprocess
import sys

from asking import Asker
from editor_process import EDIT, SECONDS, EditorProcess, edit, program_of, saved, try_each, wait_until

SCRIPT = "kind Name Text\nkind Health Int\nspawn Name=cat Health=9\nbegin\nspawn Name=kitten\nparent +0 0v1\n"
REQUESTS = '{"do":"kind","name":"Name","shape":"Text"}\n{"do":"spawn","cells":{"Name":"Big House"}}\nbegin\n{"do":"commit"}\n'
BAD_SCRIPT = "kind Name Text\nspawn Name=cat\n\njump\nspawn Name=dog\n"
MANY_BAD = 25
BAD_TEXTS = (
    (b'{"scene":1}', "fault 5"), (b"{", "fault 50 NotJson"), (b'{"a":"b\nc"}', "no JSON"), (b'{"\xff"}', "line 1"),
)  # fmt: skip
LOADED = (
    '{"children":[],"free":[0],"generations":[3],"kinds":[["Name","Text"]],"limit":9,"resources":[],"scene":1,'
    '"tables":[],"tick":5}'
)


def names_in(room):
    return sorted(path.name for path in room.iterdir())


def try_script(program, room):
    """A script, also of requests, is played into a new store, and into no other; an open frame is left out."""
    script, store = room / "from.scene", room / "from.db"
    script.write_text(SCRIPT)
    with EditorProcess(program, store, script) as editor:
        scene = Asker(editor.address).join()["scene"]
        assert len(scene["frames"]) == 1 and not scene["setup"], scene
        assert editor.errors() == "", editor.errors()
        before = store.read_bytes()
        status, told = edit(program, store, "--from", script)
        assert status == 2 and "isn't new" in told and store.read_bytes() == before, (status, told)
    assert saved(program, store)["tick"] == 1
    script.write_text(REQUESTS)
    with EditorProcess(program, room / "requests.db", script) as editor:
        frames = Asker(editor.address).join()["scene"]["frames"]
        assert [each["words"] for each in frames] == [['spawn Name="Big House" as 0v1'], ["an empty frame"]], frames


def try_bad_lines(program, room):
    """Of a script with a bad line nothing is kept, and the line is named; of many the first ten are."""
    folder, script = room / "bad", room / "bad.scene"
    folder.mkdir()
    script.write_text(BAD_SCRIPT)
    status, told = edit(program, folder / "bad.db", "--from", script)
    named = f"scene: line 4: no command is named jump ({script})\n"
    assert status == 2 and told.startswith(named) and "nothing of it is kept" in told, (status, told)
    script.write_text("jump\n" * MANY_BAD)
    status, told = edit(program, folder / "bad.db", "--from", script)
    lines = told.split("\n")
    assert status == 2 and lines[9].startswith("scene: line 10: ") and f"{MANY_BAD - 10} more" in lines[10], told
    assert names_in(folder) == [], names_in(folder)


def try_scene_texts(program, room):
    """A scene text in place of a script is loaded, of either version and in any layout, and a bad one isn't."""
    script, text, store = room / "whole.scene", room / "level.json", room / "whole.db"
    script.write_text(SCRIPT)
    with EditorProcess(program, store, script):
        pass
    for number, scene in enumerate((saved(program, store), saved(program, store, "dump"))):
        text.write_text(f"\n {json.dumps(scene, indent=number or None)}\n")
        loaded = room / f"loaded_{number}.db"
        with EditorProcess(program, loaded, text) as editor:
            asker = Asker(editor.address)
            told = asker.join()["scene"]
            assert not told["setup"] and told["text"]["tables"] == scene["tables"], told
            assert len(told["frames"]) == (1 if scene["scene"] == 2 else 0), told["frames"]
            assert asker.told("spawn Name=dog") == ["done"]
        assert saved(program, loaded)["tick"] == scene["tick"] + 1
    for bad, why in BAD_TEXTS:
        text.write_bytes(bad)
        status, told = edit(program, room / "no.db", "--from", text)
        assert status == 2 and why in told and "level.json" in told, (bad, status, told)
    assert not (room / "no.db").exists()


def try_loaded_in_setup(program, room):
    """A scene is seen once it is loaded, by a script that has nothing more or by a line."""
    script = room / "load.scene"
    script.write_text(f"load {LOADED}\n")
    with EditorProcess(program, room / "load.db", script) as editor:
        scene = Asker(editor.address).join()["scene"]
        assert not scene["setup"] and scene["text"]["generations"] == [3], scene
    with EditorProcess(program, room / "line.db") as editor:
        asker = Asker(editor.address)
        stream = asker.events(asker.join()["scene"]["sequence"])
        assert asker.told("kind A Int", f"load {LOADED}", "kind B Int") == ["ok", "ok", "bad"]
        whole = stream.until("whole")[-1]["scene"]
        assert not whole["setup"] and whole["text"]["generations"] == [3], whole
        stream.close()


def try_half_made(program, room):
    """Where the program fails in the midst of a script, and at an interrupt, no store is left, nor anything else."""
    folder, script = room / "half", room / "half.scene"
    folder.mkdir()
    script.write_text(SCRIPT)
    failing = program_of(room, "failing", f'"{program}" "$@"\necho "scene: fault 65 DiskFull" >&2\nexit 3')
    status, told = edit(failing, folder / "half.db", "--from", script)
    full = "scene: fault 65 DiskFull\nscene: edit: the disk is full, so half.db can't be written\n"
    assert (status, told) == (3, full)
    assert names_in(folder) == [], names_in(folder)
    slow = program_of(room, "slow", f'"{program}" "$@"\nexec sleep {SECONDS}')
    words = [sys.executable, "-B", str(EDIT), "--program", str(slow), str(folder / "half.db"), "--from", str(script)]
    for number in (signal.SIGINT, signal.SIGTERM):
        with subprocess.Popen(words, stderr=subprocess.PIPE) as process:
            wait_until(lambda: any(folder.glob("**/store")), "the script is played")
            process.send_signal(number)
            told = process.stderr.read().decode()
            assert process.wait(SECONDS) == 0 and told == "scene: edit: it was interrupted before it served\n", told
        assert names_in(folder) == [], names_in(folder)


def try_old_log(program, room):
    """What SQLite kept beside a store that is no more is none of a new one's."""
    script, store = room / "log.scene", room / "log.db"
    script.write_text(SCRIPT)
    log = store.with_name("log.db-wal")
    with subprocess.Popen([program, "shell", "--store", store], stdin=subprocess.PIPE, stdout=subprocess.PIPE) as shell:
        shell.stdin.write(b"kind Old Int\nspawn Old=1\n")
        shell.stdin.flush()
        assert [shell.stdout.readline() for _ in range(2)] == [b"ok\n", b"done 0v1\n"]
        shell.kill()
    store.unlink()
    assert log.exists()
    with EditorProcess(program, store, script) as editor:
        assert Asker(editor.address).join()["scene"]["kinds"] == [["Name", "Text"], ["Health", "Int"]]


def try_making(program, room):
    """All of these."""
    parts = try_script, try_bad_lines, try_scene_texts, try_loaded_in_setup, try_half_made, try_old_log
    try_each(parts, program, room)
    return "stores were made of scripts and scene texts, and of those that are no good or cut short nothing was left"
