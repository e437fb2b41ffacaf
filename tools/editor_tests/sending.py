"""Scripts that send lines to an open store: they are answered as a shell answers them, tabs see what they do, and no
frame of theirs is parted; and what comes where no editor has the store."""
import json
import os
import random
import re
import signal
import stat
import subprocess
import sys
import threading
import time
from pathlib import Path

from asking import Asker
from editor_process import SECONDS, TOP, EditorProcess, has_ended, saved, try_each, wait_until
from recording import LINES, hold, open_hub, paged_client, scene_texts

TOOLS = Path(__file__).resolve().parent.parent
sys.path[:0] = [str(TOOLS / "editor"), str(TOOLS)]

from address_file import path_beside, told_beside  # noqa: E402
from random_declarations import DeclaringWriter  # noqa: E402
from random_scripts import ScriptWriter  # noqa: E402
from sender import Sender, lines_in  # noqa: E402

SEND = TOP / "tools" / "send" / "send.py"
SEED, SCRIPTS = 54, 16
KINDS = "kind Name Text\nkind Health Int\n"
SCRIPT = f"{KINDS}spawn Name=cat Health=9\n"
MOOD = '{"do":"declare","name":"Mood","shape":"Int"}'
MANY, FRAMES, LONG = 5_000, 25, 300_000
NO_ADDRESSES = b"", b"[]", b'{"address":5,"token":[]}', b'{"address":"http://127.0.0.1:1"}'
OPENING = re.compile(rb"scene: opening played .*\n")
# Scripts of which each byte counts: a shell's answers to them are known by the shell alone.
BYTES = (
    b"", b"\n", b"spawn", b"spawn\r", b"spawn\r\n\r\r\nspawn\r\r\n# a\r\n", b"spawn \xff\nkind A Text\nspawn A=\xff\nspawn A=\xc3\xa9\n",
    b"commit\nbegin\nbegin\nspawn\n\xff\nqueue\n\ncommit \ncommit\ncommit\n", b'begin\r\n{"do":"commit"}\r\n{"do":"commit"}\r\n',
    b'kind A Int\nbegin\nkind B Int\nspawn A=1\n{"do":"dropframe"}\nspawn A=2\nhistory\nbegin\nspawn',
    b"as 3\nspawn\nas 9\nmark\nspawn\nchanged\nadded\nundo\nredo\nhistory\n", b"spawn\nundo\nundo\nredo\nredo\ninsert 0v9 A=1\n",
    b"kind A Text\n" + b"spawn A=" + b"a" * LONG + b"\n", b"kind A Int\nbegin\n" + b"spawn A=1\n" * MANY + b"insert +9999 A=1\ncommit\n",
    b'{"do":"kind","name":"A","shape":"Text"}\n{"do":"spawn","cells":{"A":"\\u0000 9007199254740993"}}\nget 0v1\nshow\n',
    b"kind A Int\nput a Int=9007199254740993\nshow\nspawn A=9223372036854775807\ninsert 0v1 A=9223372036854775808\nget 0v1\n",
)  # fmt: skip


def run(words, content):
    """The status, the answers, and what was told; but for how long a store took to open on a busy machine."""
    ended = subprocess.run(words, input=content, capture_output=True, timeout=SECONDS, check=False)
    return ended.returncode, ended.stdout, OPENING.sub(b"", ended.stderr)


def errors(editor):
    """The same of what an editor told."""
    return OPENING.sub(b"", editor.errors().encode())


def played(program, content, *words):
    """A shell's run on its input."""
    return run([program, "shell", "--json", *words], content)


def command(program, store):
    return [sys.executable, "-B", str(SEND), "--program", str(program), str(store)]


def sent(program, store, content):
    """The run of a script that sends lines."""
    return run(command(program, store), content)


def log_of(program, store):
    return subprocess.run([program, "log", store], capture_output=True, check=True).stdout.decode().split("\n")


class Script:
    """A script that sends lines and waits for each answer. `with` ends its input."""

    def __init__(self, program, store):
        pipe = subprocess.PIPE
        self.process = subprocess.Popen(command(program, store), stdin=pipe, stdout=pipe, stderr=pipe)

    def __enter__(self):
        return self

    def __exit__(self, *_):
        if not self.process.stdin.closed:
            self.end()

    def told(self, *lines):
        """The words of the answers."""
        return [json.loads(self.answer(line))["answer"] for line in lines]

    def answer(self, line):
        self.process.stdin.write(f"{line}\n".encode())
        self.process.stdin.flush()
        return self.process.stdout.readline()

    def end(self):
        """The status, and what was told."""
        _, told = self.process.communicate(timeout=SECONDS)
        return self.process.returncode, told.decode()


# Answers


def pieces(chance, content):
    """The bytes of a script, cut behind lines by chance."""
    lines = [line + b"\n" for line in content.split(b"\n")[:-1]]
    while lines:
        count = chance.choice((1, 1, 2, 5, 20))
        yield b"".join(lines[:count])
        del lines[:count]


def hold_to_shell(program, room, number, texts):
    """One random script, sent in pieces: its answers are the shell's, a tab sees what is done, and the store is equal."""
    chance = random.Random(number)
    writer = chance.choice((ScriptWriter, DeclaringWriter))
    # (of a frame that is open at its end a shell doesn't keep the kinds that were declared in it)
    content = b"".join(line + b"\n" for line in [*writer(chance, texts).script(chance.choice(LINES)), b"commit"])
    store, other = room / f"{number}.db", room / f"{number}_shell.db"
    with open_hub(program, store) as hub, paged_client(hub) as client:
        sender, answers = Sender(hub), []
        for piece in pieces(chance, content):
            answers += sender.send(os.path.realpath(store), lines_in(piece))
            client.catch_up()
        sender.end()
        hold(hub, [client])
    wanted = played(program, content, "--store", str(other))[1].decode().split("\n")[:-1]
    wrong = next((at for at, pair in enumerate(zip(answers, wanted)) if pair[0] != pair[1]), None)
    assert wrong is None, f"script {number}, line {wrong + 1}: {answers[wrong]} in place of {wanted[wrong]}"
    assert len(answers) == len(wanted), (number, len(answers), len(wanted))
    assert saved(program, store) == saved(program, other), f"script {number}: the stores differ"
    return len(answers)


def try_random(program, room):
    texts = scene_texts()
    count = sum(hold_to_shell(program, room, number, texts) for number in range(SEED, SEED + SCRIPTS))
    assert count > 10 * SCRIPTS, count


def try_bytes(program, room):
    """Whole runs, by bytes: in an open store, and where nobody has one open."""
    with EditorProcess(program, room / "first.db") as editor:
        tab = Asker(editor.address)
        for number, content in enumerate(BYTES):
            store, alone = room / f"open_{number}.db", room / f"alone_{number}.db"
            assert tab.post("file", {"what": "new", "name": store.name}) == {}
            wanted = played(program, content)
            for each in (store, alone):
                found = sent(program, each, content)
                assert found == wanted, (each.name, found, wanted)
        assert errors(editor) == b"", errors(editor)
    for number in range(len(BYTES)):
        assert saved(program, room / f"open_{number}.db") == saved(program, room / f"alone_{number}.db"), number


# Tabs


def try_seen(program, room):
    """Tabs see what a script does, whose it is, and may undo it."""
    store, script = room / "seen.db", room / "seen.scene"
    script.write_text(SCRIPT)
    with EditorProcess(program, store, script) as editor:
        tab = Asker(editor.address)
        stream = tab.events(tab.join(tab="tab")["scene"]["sequence"])
        with Script(program, store) as sender:
            lines = "spawn Name=dog", MOOD, "phase", "as 7", "insert 1v1 Mood=3", "undo"
            assert sender.told(*lines) == ["done", "ok", "ok", "ok", "done", "undone"]
            assert sender.end() == (0, "")
        events = [event for event in stream.until("undo") if event["sort"] != "sessions"]
        seen = [(event["sort"], event["session"], event.get("words")) for event in events]
        assert seen == [
            ("frame", 0, ['spawn Name="dog" as 1v1']), ("kinds", 0, None), ("phases", 0, None),
            ("frame", 7, ["Mood of 1v1 is 3"]), ("undo", 7, None),
        ], seen  # fmt: skip
        assert tab.told("undo", "get 1v1") == ["undone", "refused"]
        assert tab.join(tab="tab")["scene"]["sessions"] == [tab.session], "a script takes no tab's place"
        stream.close()
    assert [" as 0: spawn" in line for line in log_of(program, store) if "Name=dog" in line] == [True]


def try_load(program, room):
    """A scene that a script loads is seen at its end, and until then further lines of the setup may come."""
    text = json.dumps(saved_of(program, room), separators=(",", ":"))
    store = room / "load.db"
    with EditorProcess(program, store) as editor:
        tab = Asker(editor.address)
        stream = tab.events(tab.join()["scene"]["sequence"])
        with Script(program, store) as script:
            assert script.told(f"load {text}", "depth 5", "kind A Int") == ["ok", "ok", "bad"]
        while stream.until("whole")[-1]["scene"]["setup"]:
            pass
        assert tab.text()["tables"] and tab.call('{"do":"status"}')[0]["depth"] == 5
        stream.close()


def saved_of(program, room):
    """The scene of the small script."""
    store = room / "of.db"
    played(program, SCRIPT.encode(), "--store", str(store))
    return saved(program, store, "dump")


# Frames


def try_apart(program, room):
    """A tab works while a script is in the midst of a frame, and neither comes into the other's."""
    store = room / "apart.db"
    with EditorProcess(program, store) as editor:
        tab = Asker(editor.address)
        tab.join()
        with Script(program, store) as script:
            assert script.told("kind Health Int", "begin", "spawn Health=1") == ["ok", "ok", "queued"]
            assert tab.told("kind B Int", "spawn Health=2", "get 0v1") == ["bad", "done", "row"]
            assert script.told("spawn Mood=3", "spawn Health=3") == ["bad", "queued"]
            assert tab.told(MOOD) == ["ok"]
            assert script.told("spawn Mood=4", "get 0v1", '{"do":"status"}') == ["queued", "bad", "bad"]
            assert tab.told("begin", "spawn", "spawn", "commit", "undo") == ["ok", "queued", "queued", "done", "undone"]
            assert json.loads(script.answer("commit"))["entities"] == ["1v1", "2v1", "3v1"]
            assert script.told("begin", "spawn", '{"do":"dropframe"}', "commit", "get 3v1") == "ok queued ok bad row".split()
            assert script.told("begin", "despawn 0v1", "despawn 0v9") == ["ok", "queued", "queued"]
            refused = json.loads(script.answer("commit"))
            assert refused["place"] == {"phase": 0, "queue": 0, "command": 1} and "request" not in refused, refused
        frames = [frame["words"] for frame in tab.join()["scene"]["frames"]]
        assert frames[1] == ["spawn Health=1 as 1v1", "spawn Health=3 as 2v1", "spawn Mood=4 as 3v1"], frames
        assert len(frames) == 2 and errors(editor) == b"", (frames, errors(editor))


def try_killed(program, room):
    """Of a script that ends, or is killed, in the midst of a frame nothing of that is done."""
    store = room / "killed.db"
    with EditorProcess(program, store) as editor:
        for number in (signal.SIGKILL, signal.SIGINT, None):
            with Script(program, store) as script:
                assert script.told("spawn", "begin", "spawn", "despawnall 0v1") == ["done", "ok", "queued", "queued"]
                assert len(editor.shells()) == 2
                if number is not None:
                    script.process.send_signal(number)
            assert script.process.returncode == (0 if number is None else -number)
            wait_until(lambda: len(editor.shells()) == 1, "the frame is dropped")
        tab = Asker(editor.address)
        tab.join()
        assert tab.told("spawn") == ["done"] and tab.text()["generations"] == [1] * 4
    assert not [line for line in log_of(program, store) if "dropped" in line]


class Together(threading.Thread):
    """A script, or a tab, that makes frames of three, each of whose entities has the frame's name."""

    def __init__(self, name, told):
        super().__init__(daemon=True)
        self.name, self.told, self.made, self.fault = name, told, [], None

    def run(self):
        chance = random.Random(self.name)
        try:
            for number in range(FRAMES):
                lines = ["begin", *[f"spawn Name={self.name}{number}"] * 3, "commit"]
                self.made.append(lines[1])
                answers = self.told(chance, lines)
                assert answers == ["ok", *["queued"] * 3, "done"], answers
        except Exception as fault:  # pylint: disable=broad-except
            # the thread that waits tells it
            self.fault = fault


def by_script(script):
    """Sends lines one by one, with a pause by chance."""

    def told(chance, lines):
        answers = []
        for line in lines:
            answers += script.told(line)
            time.sleep(chance.choice((0, 0, 0.01)))
        return answers

    return told


def try_together(program, room):
    """Two scripts and a tab at once make frames: each is whole, and in its order."""
    store, script = room / "together.db", room / "together.scene"
    script.write_text(SCRIPT)
    with EditorProcess(program, store, script) as editor, Script(program, store) as one, Script(program, store) as other:
        tab = Asker(editor.address)
        tab.join()
        makers = [Together("a", by_script(one)), Together("b", by_script(other))]
        makers.append(Together("t", lambda _, lines: tab.told(*lines)))
        for maker in makers:
            maker.start()
        for maker in makers:
            maker.join()
            assert maker.fault is None, f"{maker.name}: {maker.fault}"
        assert errors(editor) == b"", errors(editor)
    records = saved(program, store)["undo"][1:]
    names = [[cell[1] for delta in record["deltas"] for cell in delta["cells"]] for record in records]
    assert all(len(each) == 3 and len(set(each)) == 1 for each in names), names
    for maker in makers:
        own = [f"spawn Name={each[0]}" for each in names if each[0][0] == maker.name]
        assert own == maker.made, (maker.name, own)


# The file


def try_file(program, room):
    """The file is the user's alone, is there while the editor has the store, and goes with it to another store."""
    store, script = room / "file.db", room / "file.scene"
    script.write_text(SCRIPT)
    beside, link = path_beside(store), room / "link.db"
    link.symlink_to(store.name)
    with EditorProcess(program, store, script) as editor:
        found = beside.lstat()
        assert stat.S_IMODE(found.st_mode) == 0o600 and stat.S_ISREG(found.st_mode), found
        address, token = told_beside(store)
        assert f"{address}/{token}/" == editor.address and told_beside(link) == (address, token)
        assert sent(program, link, b"history\n")[1] == b'{"answer":"history","calls":1}\n'
        tab = Asker(editor.address)
        tab.join()
        taken = tab.post("file", {"what": "save", "name": f"file.db{beside.name.removeprefix(store.name)}"})
        assert "refused" in taken, taken
        assert tab.post("file", {"what": "save", "name": "copy.db"}) == {}
        assert not beside.exists() and told_beside(room / "copy.db") == (address, token)
        assert sent(program, room / "copy.db", b"spawn\n")[0] == 0 and tab.text()["tick"] == 2
        with Script(program, room / "copy.db") as script:
            assert script.told("spawn") == ["done"]
            assert tab.post("file", {"what": "open", "name": "file.db"}) == {}
            assert script.answer("spawn") == b""
            status, told = script.end()
            assert (status, told) == (3, "scene: send: the editor has another store open\n"), (status, told)
        assert tab.post("file", {"what": "compact", "name": ""}) == {} and told_beside(store) == (address, token)
        assert sent(program, room / "copy.db", b"spawn\n")[0] == 0 and tab.text()["tick"] == 1
    assert not beside.exists() and not path_beside(room / "copy.db").exists()
    assert saved(program, room / "copy.db")["tick"] == 4


def try_stale(program, room):
    """A file that a killed editor has left, or that is another's to read, leads nowhere; the next editor replaces it."""
    store, other = room / "stale.db", room / "other.db"
    beside = path_beside(store)
    with EditorProcess(program, store) as editor:
        shell = editor.shells()[0]
        left = beside.read_bytes()
        editor.process.kill()
        editor.process.wait()
        editor.process.returncode = 0
        wait_until(lambda: has_ended(shell), "the shell has ended")
    assert beside.read_bytes() == left
    assert sent(program, store, b"spawn\n") == (0, b'{"answer":"done","entities":["0v1"]}\n', b"")
    with EditorProcess(program, store), EditorProcess(program, other):
        assert beside.read_bytes() != left
        own, others = beside.read_bytes(), path_beside(other).read_bytes()
        for text, mode in ((others, 0o600), (own, 0o644), *((text, 0o600) for text in (own[:-1], *NO_ADDRESSES))):
            beside.write_bytes(text)
            beside.chmod(mode)
            status, said, told = sent(program, store, b"spawn\n")
            assert (status, said) == (3, b"") and tells_in_use(store, told), (text, told)
        beside.write_bytes(own)
        found = sent(program, store, b"spawn\n")
        assert found == (0, b'{"answer":"done","entities":["1v1"]}\n', b""), found
        # (the editor leaves what isn't its own)
        beside.write_bytes(b"[]")
    assert beside.read_bytes() == b"[]"
    assert saved(program, store)["tick"] == 2 and saved(program, other)["tick"] == 0


def tells_in_use(store, told):
    """Whether it is told that a shell has the store open, and which."""
    used = f'scene: fault 60 StoreInUse "{store}": another program has it open: process '
    return re.fullmatch(re.escape(used.encode()) + rb'[0-9]+, ".* shell .*"\n', told)


def try_shell(program, room):
    """Where a plain shell has the store open, it is said as by another shell."""
    store = room / "shell.db"
    with subprocess.Popen([program, "shell", "--store", store], stdin=subprocess.PIPE, stdout=subprocess.PIPE) as shell:
        shell.stdin.write(b"spawn\n")
        shell.stdin.flush()
        assert shell.stdout.readline() == b"done 0v1\n"
        found = sent(program, store, b"spawn\n")
        assert found == played(program, b"spawn\n", "--store", store) and found[:2] == (3, b""), found
        assert tells_in_use(store, found[2]), found
        shell.stdin.close()
    reason = b"no command is named jump"
    bad = 1, b'{"answer":"bad","reason":"%s"}\n' % reason, b"scene: line 1: %s\n" % reason
    assert sent(program, store, b"jump\n") == bad
    status, said, told = sent(program, room / "none" / "level.db", b"")
    assert (status, said) == (3, b"") and told.startswith(b"scene: fault "), (status, said, told)


def try_ends(program, room):
    """A script whose editor ends is told so; one whose editor's shell is killed, too, or goes on."""
    store = room / "ends.db"
    with EditorProcess(program, store) as editor:
        with Script(program, store) as script:
            assert script.told("spawn") == ["done"]
            editor.kill_shell()
            answer = script.answer("spawn")
            is_lost = answer == b""
            assert is_lost or json.loads(answer)["answer"] == "done", answer
            status, told = script.end()
            assert (status, "isn't known" in told) == ((3, True) if is_lost else (0, False)), (status, told)
        script = Script(program, store)
        assert script.told("spawn", "begin", "spawn") == ["done", "ok", "queued"]
    assert script.answer("commit") == b""
    status, told = script.end()
    assert status == 3 and told.startswith("scene: send: the editor has ended"), (status, told)
    assert not path_beside(store).exists() and saved(program, store)["tick"] in (2, 3)


def try_gone(program, room):
    """Where an editor's shell stays gone, nobody has the store open."""
    store = room / "gone.db"
    with EditorProcess(program, store) as editor:
        tab = Asker(editor.address)
        stream = tab.events(tab.join()["scene"]["sequence"])
        assert sent(program, store, b"spawn\n")[0] == 0
        for _ in range(2):
            editor.kill_shell()
            stream.until("shell")
            assert stream.until("shell")[-1]["state"] == "here"
        editor.kill_shell()
        assert [stream.until("shell")[-1]["state"] for _ in range(2)] == ["gone", "gone"]
        assert tab.call("spawn") is None and path_beside(store).exists()
        found = sent(program, store, b"spawn\n")
        assert found == (0, b'{"answer":"done","entities":["1v1"]}\n', b""), found
        stream.close()
    assert not path_beside(store).exists() and saved(program, store)["tick"] == 2


def try_sending(program, room):
    """All of these."""
    parts = (
        try_bytes, try_random, try_seen, try_load, try_apart, try_killed, try_together, try_file, try_stale, try_shell,
        try_ends, try_gone,
    )  # fmt: skip
    try_each(parts, program, room)
    return f"{len(BYTES) + SCRIPTS} scripts that were sent had the shell's answers, and no frame of theirs was parted"
