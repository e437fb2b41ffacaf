"""Connections that never show the token: they are so many at most, each is cut off soon, and none keeps a tab out."""
import select
import socket
import sys
import time
from contextlib import ExitStack
from pathlib import Path

TOOLS = Path(__file__).resolve().parent.parent
sys.path[:0] = [str(TOOLS / "editor"), str(TOOLS)]

from asking import SECONDS, Asker  # noqa: E402
from editor_process import EditorProcess, wait_until  # noqa: E402
from strangers import MOST_STRANGERS, SECONDS_STRANGE  # noqa: E402

IDLE, SLOW = 4 * MOST_STRANGERS, 8
MOST_THREADS = MOST_STRANGERS + 30
# (the last second may begin late where many processes run)
SECONDS_MORE = 10


def threads_of(process):
    status = Path(f"/proc/{process}/status").read_text()
    return int(status.partition("Threads:")[2].split()[0])


def is_cut_off(connection):
    """Whether the server has ended a connection."""
    if not select.select([connection], [], [], 0)[0]:
        return False
    try:
        return connection.recv(65536) == b""
    except ConnectionError:
        return True


def still_open(connections):
    return [connection for connection in connections if not is_cut_off(connection)]


def opened(asker, count, stack):
    where, port = asker.host.split(":")
    # Where the server is late to take them, the system tries again after seconds.
    return [stack.enter_context(socket.create_connection((where, int(port)), timeout=SECONDS)) for _ in range(count)]


def dribble(connections, seconds):
    """Sends a byte of a request's head each second, and answers how many connections are open at the end."""
    end = time.monotonic() + seconds
    while connections and time.monotonic() < end:
        for connection in connections:
            try:
                connection.send(b"G")
            except OSError:
                # it was cut off just now
                pass
        time.sleep(1)
        connections = still_open(connections)
    return len(connections)


def try_many(editor, asker, stack):
    begun = time.monotonic()
    idle = opened(asker, IDLE, stack)
    wait_until(lambda: len(still_open(idle)) <= MOST_STRANGERS, f"of {IDLE} connections {MOST_STRANGERS} are open")
    kept = still_open(idle)
    assert kept == idle[len(idle) - len(kept):], "the first ones weren't those cut off"
    # By then none was cut off for its age.
    is_early = time.monotonic() < begun + SECONDS_STRANGE
    assert len(kept) == MOST_STRANGERS or not is_early, f"of {IDLE} connections only {len(kept)} are open"
    # A thread ends some time after its connection.
    threads = lambda: threads_of(editor.process.pid)  # noqa: E731
    wait_until(lambda: threads() <= MOST_THREADS, f"the server has {MOST_THREADS} threads at most")
    another = Asker(editor.address)
    assert another.join()["session"] == 2 and another.told("spawn Name=dog") == ["done"]
    return idle


def try_idling(program, room):
    """All of these at once; a tab whose connection and stream are as quiet stays."""
    script = room / "idle.scene"
    script.write_text("kind Name Text\n")
    with EditorProcess(program, room / "idle.db", script) as editor, ExitStack() as stack:
        asker = Asker(editor.address)
        stream = asker.events(asker.join()["scene"]["sequence"])
        quiet = asker.connection.sock
        idle = try_many(editor, asker, stack)
        slow = opened(asker, SLOW, stack)
        assert dribble(slow, SECONDS_STRANGE + SECONDS_MORE) == 0, "a slow request is waited for without an end"
        assert still_open(idle) == [], "a connection that says nothing is kept"
        assert asker.told("spawn Name=cat") == ["done"] and asker.connection.sock is quiet, "a tab was cut off"
        stream.until("frame")
        stream.close()
        assert editor.errors() == "", editor.errors()
    return f"of {IDLE} connections without the token {MOST_STRANGERS} were kept, each for {SECONDS_STRANGE} s at most"
