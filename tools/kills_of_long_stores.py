"""Kills of shells on stores of very many lines, which keep checkpoints (docs/SHELL.md, "Checkpoints")."""
import subprocess
import threading
import time
from pathlib import Path

from store_runs import answers_to, empty, is_whole

# From so many lines on a shell keeps a checkpoint.
MANY = 262_144
FRONT = b"kind A Int\nspawn A=1\nsystem age need=A addint:A:1\nadvance\nundo\n"
BACK = b"mark\nspawn A=2\nundo\nredo\n"
# The lines of a round, behind those.
MORE = [b"spawn A=%d" % number for number in range(20)]
MORE += [b"advance", b"undo", b"redo", b"system back need=A addint:A:-1", b"mark", b"advance"]
ASKED = b"history\nchanged\ndumpall\nadvance\nundo\nundo\nredo\nmark\nhistory\n"
MARK = b"# checkpoint of lines "


def script_of(lines):
    """Lines as a script."""
    return b"".join(line + b"\n" for line in lines)


def files_of(store):
    """What a store and its log hold."""
    return {path.name: path.read_bytes() for path in Path(store).parent.glob(Path(store).name + "*")}


def marks(files):
    """How many checkpoints the files of a store have, some perhaps twice."""
    return sum(held.count(MARK) for held in files.values())


class Way:
    """How a shell is killed: on which store, which lines are sent, and how long behind their answers."""

    def __init__(self, script, files, most_lines, is_ended, seconds):
        self.script, self.files, self.most_lines, self.is_ended, self.seconds = script, files, most_lines, is_ended, seconds
        self.wanted = {}


class LongStores:
    """Stores of very many lines, and shells that are killed as they open one, play lines on it or come to their input's end."""

    def __init__(self, program, room):
        self.program, self.room = program, room
        self.found = self.made = 0
        long, nearly = (FRONT + b"as 1\nas 3\n" * (count // 2) + BACK for count in (MANY, MANY - 60))
        without = self.killed_behind(long)
        answers_to(program, ["shell", "--store", self.laid(without)], b"")
        ended = files_of(self.store())
        assert not marks(without) and marks(ended), "the ends of shells keep checkpoints"
        self.ways = [
            Way(long, without, 0, False, 0.9),
            Way(long, ended, len(MORE), False, 0.01),
            Way(nearly, self.killed_behind(nearly), len(MORE) * 3, True, 0.1),
        ]

    def store(self):
        """The path of the store of a round."""
        return f"{self.room}/kill.db"

    def laid(self, files):
        """Puts the files of a store where it is."""
        empty(self.room)
        for name, held in files.items():
            (Path(self.room) / name).write_bytes(held)
        return self.store()

    def killed_behind(self, script):
        """The files that a shell leaves which is killed behind the answers to a script."""
        empty(self.room)
        shell = subprocess.Popen([self.program, "shell", "--store", self.store()], stdin=subprocess.PIPE, stdout=subprocess.PIPE)
        feed = threading.Thread(target=lambda: (shell.stdin.write(script + b"history\n"), shell.stdin.flush()))
        feed.start()
        while not shell.stdout.readline().startswith(b"history"):
            pass
        shell.kill()
        feed.join()
        shell.wait()
        return files_of(self.store())

    def wanted(self, way, sent):
        """What all lines are asked behind so many more, played from the first one on."""
        if sent not in way.wanted:
            script = way.script + script_of((MORE * 3)[:sent])
            before = answers_to(self.program, ["run"], script)
            way.wanted[sent] = answers_to(self.program, ["run"], script + ASKED)[len(before) :]
        return way.wanted[sent]

    def mistake(self, chance):
        """What is wrong with a round, if anything."""
        way = chance.choice(self.ways)
        store = self.laid(way.files)
        sent = way.most_lines if way.is_ended else chance.randint(0, way.most_lines)
        shell = subprocess.Popen([self.program, "shell", "--store", store], stdin=subprocess.PIPE, stdout=subprocess.PIPE, stderr=subprocess.DEVNULL)
        shell.stdin.write(script_of((MORE * 3)[:sent]))
        shell.stdin.flush()
        for _ in range(sent):
            shell.stdout.readline()
        if way.is_ended:
            shell.stdin.close()
            shell.stdin = None
        time.sleep(chance.uniform(0.0, way.seconds))
        shell.kill()
        shell.stdout.close()
        shell.wait()
        left = marks(files_of(store))
        self.found += left > 0
        self.made += left > 0 and not marks(way.files)
        if not is_whole(store):
            return "SQLite finds the store damaged"
        if answers_to(self.program, ["shell", "--store", store], ASKED) != self.wanted(way, sent):
            return f"the store isn't at the {sent} lines that were answered"
        return None
