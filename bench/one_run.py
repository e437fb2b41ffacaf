"""One run of a program: what it takes of a processor, and of memory. For the benches of this folder."""
import os
import shutil
import signal
import subprocess
import tempfile
import threading
from typing import NamedTuple

# tells the memory of a program alone, where it is there; a child of Python is never told below Python's own size
TIME = shutil.which("time")


class Used(NamedTuple):
    """What a run took: seconds of a processor, of the user and of the system, and the peak of its memory in MiB."""

    seconds: float
    memory: float
    status: int
    output: bytes


def run_once(words, given=b"", more=None, seconds=3600, folder=None):
    """Runs a program to its end, or gives None where it takes longer than so many seconds. `given` is its standard input, as bytes
    or as an open file, `more` further variables of its environment, and `folder` where it is run. What it writes to standard error is dropped."""
    with tempfile.TemporaryDirectory() as place, tempfile.TemporaryFile() as output, tempfile.TemporaryFile() as file:
        if isinstance(given, bytes):
            file.write(given)
            file.seek(0)
        told = os.path.join(place, "memory")
        before = [TIME, "-q", "-f", "%M", "-o", told] if TIME else []
        how = {"stdin": file if isinstance(given, bytes) else given, "stdout": output, "stderr": subprocess.DEVNULL, "cwd": folder}
        child = subprocess.Popen(
            [*before, *map(str, words)], env={**os.environ, **(more or {})}, start_new_session=True, **how
        )
        late = []
        end = threading.Timer(seconds, lambda: (late.append(True), os.killpg(child.pid, signal.SIGKILL)))
        end.start()
        _, status, used = os.wait4(child.pid, 0)
        end.cancel()
        child.returncode = status
        if late:
            return None
        output.seek(0)
        with open(told) if TIME else open(os.devnull) as file:
            memory = float(file.read().split()[-1]) if TIME else used.ru_maxrss
        return Used(used.ru_utime + used.ru_stime, memory / 1024, os.waitstatus_to_exitcode(status), output.read())
