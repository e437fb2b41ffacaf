"""Runs of the program on stores, and what the files of stores hold, for the tools that try stores (docs/SHELL.md, "A store")."""
import os
import resource
import shutil
import signal
import sqlite3
import struct
import subprocess
import tempfile
from pathlib import Path

OPENING = b"scene: opening played "
NOBODY = 65534


def run(program, words, script=b"", limit=None, as_nobody=False, folder=None, given=None):
    """What the program writes, its standard error and its exit status: with a limit on the size of a file, without a root's rights,
    in a folder, with more in its environment."""

    def limited():
        if limit is not None:
            signal.signal(signal.SIGXFSZ, signal.SIG_IGN)
            resource.setrlimit(resource.RLIMIT_FSIZE, (limit, limit))
        if as_nobody and os.geteuid() == 0:
            os.setgid(NOBODY)
            os.setuid(NOBODY)

    done = subprocess.run(
        [program, *map(str, words)],
        input=script,
        stdout=subprocess.PIPE,
        stderr=subprocess.PIPE,
        check=False,
        cwd=folder,
        env={**os.environ, **given} if given else None,
        preexec_fn=limited if limit is not None or as_nobody else None,
    )
    return done.stdout, done.stderr, done.returncode


def without_opening(told):
    """Standard error but for the line that tells of a long opening, as any is where a machine is busy."""
    return b"".join(line for line in told.splitlines(True) if not line.startswith(OPENING))


def shell(program, store, script, **more):
    """What `run` gives of a shell with a store, but for the line of a long opening."""
    said, told, status = run(program, ["shell", "--store", store], script, **more)
    return said, without_opening(told), status


def begun(program, store, *lines):
    """A shell on a store, which has answered these lines."""
    shell = subprocess.Popen([program, "shell", "--store", store], stdin=subprocess.PIPE, stdout=subprocess.PIPE)
    for line in lines:
        shell.stdin.write(line + b"\n")
        shell.stdin.flush()
        assert shell.stdout.readline(), line
    return shell


def ended(shell):
    """Ends a shell, which has to end well."""
    shell.stdin.close()
    assert shell.wait() == 0
    shell.stdout.close()


def closed(lines):
    """The lines without those of a frame that is open at their end."""
    opened = None
    for number, line in enumerate(lines):
        words = line.removesuffix(b"\r").split()
        if words == [b"begin"] and opened is None:
            opened = number
        elif words == [b"commit"]:
            opened = None
    return lines if opened is None else lines[:opened]


def held(room):
    """What each file of a folder holds."""
    return {path.name: path.read_bytes() for path in room.iterdir() if path.is_file()}


def foreign(store, *statements):
    """A database of somebody else."""
    with sqlite3.connect(store) as database:
        for statement in statements:
            database.execute(*statement)
    database.close()
    return store


def of_rows(store, rows):
    """A store with these rows, the head among them, as SQLite itself writes it."""
    table = "create table batch (number integer primary key, lines blob not null) strict"
    return foreign(store, (table,), *[("insert into batch (lines) values (?)", (row,)) for row in rows])


def by_version(store, number, *lines):
    """A store of a version, with these rows, as SQLite itself writes it."""
    return of_rows(store, [b"# scene store %d\n" % number, *lines])


def rows(store):
    """The rows of a store without a log."""
    with sqlite3.connect(f"file:{store}?immutable=1", uri=True) as database:
        found = [row[0] for row in database.execute("select lines from batch order by number")]
    database.close()
    return found


def summed(page):
    """A page of SQLite's cksumvfs: in its last eight bytes two sums of its other words, each added to the next."""
    first = second = 0
    words = struct.unpack(f"<{(len(page) - 8) // 4}I", page[:-8])
    for one, other in zip(words[0::2], words[1::2]):
        first = (first + one + second) & 0xFFFFFFFF
        second = (second + other + first) & 0xFFFFFFFF
    return page[:-8] + struct.pack("<II", first, second)


def empty(room):
    """Takes each file out of a folder."""
    for path in Path(room).iterdir():
        path.unlink()


def answers_to(program, words, script):
    """What the program writes for a script."""
    run = subprocess.run([program, *words], input=script, stdout=subprocess.PIPE, stderr=subprocess.DEVNULL, check=False)
    return run.stdout


def is_whole(store):
    """Whether SQLite finds a copy of the store whole."""
    with tempfile.TemporaryDirectory() as room:
        for file in Path(store).parent.glob(Path(store).name + "*"):
            shutil.copy(file, room)
        with sqlite3.connect(Path(room) / Path(store).name) as database:
            return database.execute("pragma integrity_check").fetchall() == [("ok",)]
