"""The editor's server as a process of its own, and what a store holds after it has ended."""
import json
import os
import select
import signal
import subprocess
import sys
import tempfile
import time
from pathlib import Path

TOP = Path(__file__).resolve().parent.parent.parent
EDIT = TOP / "tools" / "editor" / "edit.py"
LEVELS = TOP / "examples" / "levels"
SECONDS = 60


class EditorProcess:
    """`scene edit` over a store. `with` ends it, and holds it to a good end."""

    def __init__(self, program, store, script=None):
        words = [sys.executable, "-B", "-X", "faulthandler", str(EDIT), str(store), "--program", str(program)]
        words += ["--from", str(script)] if script else []
        self.told = tempfile.TemporaryFile()
        self.process = subprocess.Popen(words, stdout=subprocess.PIPE, stderr=self.told)
        is_ready = select.select([self.process.stdout], [], [], SECONDS)[0]
        self.address = self.process.stdout.readline().decode().strip() if is_ready else ""
        if not self.address.startswith("http://127.0.0.1:"):
            self.process.terminate()
            raise AssertionError(f"the editor began with {self.address!r}: {self.errors()}")

    def __enter__(self):
        return self

    def __exit__(self, kind, error, trace):
        self.process.send_signal(signal.SIGTERM)
        status = self.ended()
        self.process.stdout.close()
        if error is None:
            assert status == 0, f"the editor ended with status {status}: {self.errors()}"
        elif self.errors():
            print(f"the editor told: {self.errors()}", file=sys.stderr)
        self.told.close()

    def ended(self):
        """The status of an end that has been asked for. Seconds are counted one by one: those in which the machine
        itself stood still are one. Where it doesn't end, SIGABRT has it tell what each of its threads is at."""
        for _ in range(SECONDS):
            try:
                return self.process.wait(timeout=1)
            except subprocess.TimeoutExpired:
                pass
        self.process.send_signal(signal.SIGABRT)
        return self.process.wait()

    def errors(self):
        """What it told on standard error; by a seek it would write elsewhere, since both have one place in the file."""
        told = self.told.fileno()
        return os.pread(told, os.fstat(told).st_size, 0).decode(errors="replace")

    def shells(self):
        """The processes of the shell that the server has begun."""
        found = []
        for stat in Path("/proc").glob("[0-9]*/stat"):
            try:
                parent = int(stat.read_text().rpartition(")")[2].split()[1])
                words = (stat.parent / "cmdline").read_bytes().split(b"\0")
            except (OSError, ValueError, IndexError):
                continue
            if parent == self.process.pid and b"shell" in words:
                found.append(int(stat.parent.name))
        return found

    def kill_shell(self):
        shells = self.shells()
        assert len(shells) == 1, f"the server has {len(shells)} shells"
        os.kill(shells[0], signal.SIGKILL)


def edit(program, *words):
    """A run of the editor that ends by itself: its status and what it told."""
    command = [sys.executable, "-B", str(EDIT), "--program", str(program), *map(str, words)]
    try:
        ended = subprocess.run(command, capture_output=True, timeout=SECONDS, check=False)
    except subprocess.TimeoutExpired:
        raise AssertionError(f"the editor serves, where it has to refuse {words}") from None
    assert not ended.stdout, ended.stdout
    return ended.returncode, ended.stderr.decode()


def program_of(room, name, text):
    """A program in place of the true one, as lines of the system's shell."""
    program = room / name
    program.write_text(f"#!/bin/sh\n{text}\n")
    program.chmod(0o755)
    return program


def wait_until(asked, what, seconds=SECONDS):
    end = time.monotonic() + seconds
    while not asked():
        assert time.monotonic() < end, f"not in {seconds} s: {what}"
        time.sleep(0.01)


def has_ended(process):
    """Whether a process is no more. One that nobody has taken notice of stays, as a zombie: where the first process of
    a container does nothing, each whose parent has ended."""
    try:
        return Path(f"/proc/{process}/stat").read_text().rpartition(")")[2].split()[0] in "ZX"
    except (FileNotFoundError, ProcessLookupError):
        return True


def saved(program, store, line="dumpall"):
    """The scene that a store holds, as `dumpall` or `dump` prints it."""
    words = [str(program), "shell", "--json", "--store", str(store)]
    ended = subprocess.run(words, input=f"{line}\n".encode(), capture_output=True, check=True)
    return json.loads(ended.stdout)["text"]


def try_each(parts, program, room):
    """Does all parts, of which a fault says in which it was."""
    for part in parts:
        try:
            part(program, room)
        except AssertionError as error:
            raise AssertionError(f"{part.__name__}: {error}") from None
