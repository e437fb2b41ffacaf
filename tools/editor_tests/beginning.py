"""How the editor begins and ends: with a new store and an old one, and where it can't."""
import os
import re
import signal
import subprocess

from asking import Asker
from editor_process import SECONDS, EditorProcess, edit, has_ended, program_of, saved, try_each, wait_until

# Lines of a tab of which one ends the setup, and their answers.
FIRST_CHANGES = (
    (["spawn Name=a"], ["done"]),
    (["jump", "kind Health Int", "spawn Nome=a", "spawn Name=a Health=1"], ["bad", "ok", "bad", "done"]),
    (["show", "spawn Name=a"], ["world", "done"]),
    (["", "# a", "begin", "spawn Name=a", "commit", "kind B Int"], "nothing nothing ok queued done bad".split()),
)  # fmt: skip
NOTE = "scene: the store has 300,000 lines, which took 9 s to play"


def try_bad_words(program, room):
    store = room / "level.db"
    ports = [(store, "--port", port) for port in ("70000", "x", "-1")]
    for words in ((), (store, "--fast"), (store, store), (store, "--from"), *ports):
        status, told = edit(program, *words)
        assert status == 2 and told.startswith("scene: bad command line\n"), (words, status, told)
    status, told = edit(program, store, "--from", room / "none.scene")
    assert status == 2 and "none.scene can't be read" in told, told
    status, told = edit(room / "no_program", store)
    assert status == 2 and "no_program can't be run" in told, told
    assert not store.exists()


def try_setup(program, room):
    """A new store is in its setup until a line ends it."""
    store = room / "new.db"
    with EditorProcess(program, store) as editor:
        asker = Asker(editor.address)
        scene = asker.join()["scene"]
        assert scene["setup"] and scene["text"] is None and scene["kinds"] == [] and scene["frames"] == []
        stream = asker.events(scene["sequence"])
        assert asker.told("kind Name Text", "jump", "", "kind Name Int") == ["ok", "bad", "nothing", "refused"]
        whole = stream.until("whole")[-1]
        assert whole["words"] == "the setup changed" and whole["scene"]["kinds"] == [["Name", "Text"]], whole
        assert asker.told("spawn Nome=a", "depth 2") == ["bad", "ok"], "a bad line ended the setup"
        assert asker.told("begin", "spawn Name=a", "commit") == ["ok", "queued", "done"]
        stream.until("whole")
        whole = stream.until("whole")[-1]
        assert whole["words"] == "the setup has ended" and not whole["scene"]["setup"], whole
        frames = whole["scene"]["frames"]
        assert frames == [{"session": asker.session, "words": ['spawn Name="a" as 0v1']}], frames
        told = asker.told("kind B Int", "spawn", "spawn", "undo", "undo", "undo")
        assert told == "bad done done undone undone refused".split(), told
        frames = [event for event in stream.until("undo") if event["sort"] == "frame"]
        assert [frame["dropped"] for frame in frames] == [0, 1] and frames[0]["session"] == asker.session
        asker.close()
    with EditorProcess(program, store) as editor:
        scene = Asker(editor.address).join()["scene"]
        assert (len(scene["frames"]), scene["position"]) == (2, 0), scene["frames"]
        assert [frame["session"] for frame in scene["frames"]] == [1, 1]


def try_first_change(program, room):
    """Who ends the setup by a change is who made it, wherever the line stands and whatever came before it."""
    for number, (lines, told) in enumerate(FIRST_CHANGES):
        store = room / f"first_{number}.db"
        with EditorProcess(program, store) as editor:
            other, asker = Asker(editor.address), Asker(editor.address)
            other.join()
            asker.join()
            other.told("kind Name Text")
            assert asker.told(*lines) == told, (lines, told)
            frames = asker.join()["scene"]["frames"]
            assert [frame["session"] for frame in frames] == [2], (lines, frames)
        made = [line for line in log_of(program, store) if "-> done" in line]
        assert len(made) == 1 and " as 2: " in made[0], (lines, made)


def log_of(program, store):
    return subprocess.run([program, "log", store], capture_output=True, check=True).stdout.decode().split("\n")


def tells_in_use(store, told):
    """Whether it is told at the end that a shell has the store open, and which."""
    used = f'scene: fault 60 StoreInUse "{store}": another program has it open: process '
    in_words = f"scene: edit: {store.name} is in use by another shell\n"
    return re.search(re.escape(used) + r'[0-9]+, ".* shell .*"\n' + re.escape(in_words) + "$", told)


def try_in_use(program, room):
    store = room / "used.db"
    with EditorProcess(program, store):
        status, told = edit(program, store)
        assert status == 3 and tells_in_use(store, told), (status, told)


def try_notes(program, room):
    """What the shell notes as it opens is passed on, and is no reason of its end; a fault behind it is."""
    noting = program_of(room, "noting", f"echo '{NOTE}' >&2\nexec \"{program}\" \"$@\"")
    store = room / "notes.db"
    with EditorProcess(noting, store) as editor:
        asker = Asker(editor.address)
        asker.join()
        assert asker.told("spawn") == ["done"]
        stream = asker.events(asker.join()["scene"]["sequence"])
        wait_until(lambda: NOTE in editor.errors(), "the note is passed on")
        editor.kill_shell()
        gone = stream.until("shell")[-1]
        assert gone["words"] == "the shell was killed by signal 9", gone
        stream.until("whole")
        stream.close()
        status, told = edit(noting, store)
        assert status == 3 and tells_in_use(store, told), (status, told)


def fault_of_log(program, store):
    """The fault that the program itself tells."""
    told = subprocess.run([program, "log", store], capture_output=True, check=False).stderr.decode()
    return told.split("\n")[0] if told.startswith("scene: fault ") else None


def try_no_store(program, room):
    text, far = room / "text.db", room / "none" / "level.db"
    text.write_text("no database " * 1000)
    status, told = edit(program, text)
    fault = fault_of_log(program, text)
    assert status == 3 and "text.db" in told and (fault is None or told.startswith(f"{fault}\n")), (status, told)
    assert text.read_text() == "no database " * 1000
    status, told = edit(program, far)
    assert status == 3 and "level.db" in told and not far.exists(), (status, told)


def try_ends(program, room):
    """An interrupt ends the server and its shell, also with a stream of events open; and a kill of the server both."""
    for number in (signal.SIGINT, signal.SIGTERM, signal.SIGKILL):
        with EditorProcess(program, room / "ends.db") as editor:
            asker = Asker(editor.address)
            asker.join()
            stream = asker.events()
            assert asker.told("spawn") == ["done"]
            shell = editor.shells()[0]
            editor.process.send_signal(number)
            status = editor.process.wait(SECONDS)
            assert status == (-number if number == signal.SIGKILL else 0), (number, status, editor.errors())
            stream.close()
            wait_until(lambda: has_ended(shell), f"the shell has ended behind signal {number}")
            # That it was killed is no fault here.
            editor.process.returncode = 0
    assert saved(program, room / "ends.db")["tick"] == 3


def try_hangs(program, room):
    """A shell that hangs doesn't keep the editor from its end, nor a tab from its events."""
    with EditorProcess(program, room / "hangs.db") as editor:
        asker = Asker(editor.address)
        asker.join()
        stream = asker.events(asker.scene["sequence"])
        shell = editor.shells()[0]
        os.kill(shell, signal.SIGSTOP)
        asker.connection.request("POST", f"{asker.path}call", '{"session":1,"lines":["spawn"]}')
        editor.process.send_signal(signal.SIGTERM)
        assert editor.process.wait(SECONDS) == 0, editor.errors()
        wait_until(lambda: has_ended(shell), "the shell that hung has ended")
        stream.close()


def try_beginnings(program, room):
    """All of these."""
    parts = try_bad_words, try_setup, try_first_change, try_in_use, try_notes, try_no_store, try_ends, try_hangs
    try_each(parts, program, room)
    return "new and old stores, and stores that can't be used, were begun and ended"
