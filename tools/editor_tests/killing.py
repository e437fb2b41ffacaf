"""The shell is killed in the midst of calls: the tabs are told, it is begun again, and every change that was answered
is there."""
import random
import threading
import time

from asking import Asker
from editor_process import EditorProcess, saved

SCRIPT = "kind Name Text\nkind Health Int\nspawn Name=root\n"
KILLS, TABS, SECONDS_BETWEEN = 4, 3, 6
SEED = 36


class Tab(threading.Thread):
    """A tab that spawns without a pause, frames of three and lists of two, and notes what was answered."""

    def __init__(self, address, stop):
        super().__init__(daemon=True)
        self.asker, self.stop = Asker(address), stop
        self.asker.join()
        self.answered, self.unknown, self.fault, self.calls = [], [], None, 0

    def names(self):
        self.calls += 1
        return [f"t{self.asker.session}c{self.calls}n{number}" for number in range(3)]

    def run(self):
        try:
            while not self.stop.is_set():
                names = self.names()
                lines = [f"spawn Name={name}" for name in names]
                if self.calls % 2:
                    lines = ["begin", *lines, "commit"]
                answers = self.asker.call(*lines)
                if answers is None:
                    self.unknown.append(names)
                    time.sleep(0.01)
                else:
                    assert answers[-1]["answer"] == "done", answers
                    self.answered.append(names)
        except Exception as fault:  # pylint: disable=broad-except
            # the thread that waits tells it
            self.fault = fault


def names_in(scene):
    name = [kind for kind, _ in scene["kinds"]].index("Name")
    tables = [table for table in scene["tables"] if name in table["kinds"]]
    return {row["cells"][table["kinds"].index(name)][0] for table in tables for row in table["rows"]}


def listen(stream, seconds):
    """Hears events for so long. They come all the time, and the server keeps only so many that nobody has heard."""
    end = time.monotonic() + seconds
    while time.monotonic() < end:
        stream.next()


def kill_often(editor, stream):
    """Kills the shell at moments by chance, and waits each time until it is here again."""
    chance = random.Random(SEED)
    for _ in range(KILLS):
        listen(stream, chance.uniform(0.2, 1.0))
        editor.kill_shell()
        states = [event for event in stream.until("whole") if event["sort"] == "shell"]
        assert [state["state"] for state in states] == ["gone", "here"], states
        assert "was killed by signal 9" in states[0]["words"], states
        # more than twice within ten seconds it isn't begun again
        listen(stream, SECONDS_BETWEEN)


def try_kills(program, room):
    script, store = room / "kill.scene", room / "kill.db"
    script.write_text(SCRIPT)
    with EditorProcess(program, store, script) as editor:
        watcher = Asker(editor.address)
        watcher.join()
        stream, stop = watcher.events(), threading.Event()
        tabs = [Tab(editor.address, stop) for _ in range(TABS)]
        for tab in tabs:
            tab.start()
        kill_often(editor, stream)
        stop.set()
        for tab in tabs:
            tab.join()
            assert tab.fault is None, tab.fault
        told = watcher.text()
        editor.kill_shell()
        stream.until("whole")
        assert watcher.text() == told
    scene = saved(program, store)
    assert scene == told
    there = names_in(scene)
    answered = [name for tab in tabs for names in tab.answered for name in names]
    missing = [name for name in answered if name not in there]
    assert not missing, f"{len(missing)} of {len(answered)} answered changes are missing, as {missing[0]}"
    unknown = [names for tab in tabs for names in tab.unknown]
    changes = f"all of {len(answered)} answered changes are there ({len(unknown)} calls were lost)"
    return f"the shell was killed {KILLS + 1} times, and {changes}"


def try_stays_gone(program, room):
    """A shell that ends again and again stays gone, and tabs are told so; what it has kept is there."""
    store = room / "gone.db"
    with EditorProcess(program, store) as editor:
        asker = Asker(editor.address)
        scene = asker.join()["scene"]
        stream = asker.events(scene["sequence"])
        assert asker.told("spawn") == ["done"]
        stream.until("whole")
        for _ in range(2):
            editor.kill_shell()
            stream.until("whole")
        editor.kill_shell()
        told = [stream.until("shell")[-1] for _ in range(2)]
        assert [event["state"] for event in told] == ["gone", "gone"] and "isn't begun again" in told[1]["words"], told
        assert asker.call("spawn") is None
        assert asker.join()["scene"]["shell"] == "gone"
        assert "was killed by signal 9" in editor.errors()
    assert saved(program, store)["tick"] == 1


def try_killing(program, room):
    try_stays_gone(program, room)
    return try_kills(program, room)
