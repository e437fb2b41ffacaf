#!/usr/bin/env -S python3 -B
"""`scene edit`: serves the editor of a store to a browser on this machine."""
import secrets
import signal
import socket
import sys
import threading
from pathlib import Path

sys.path.insert(0, str(Path(__file__).resolve().parent.parent))

from address_file import AddressFile  # noqa: E402
from hub import Hub  # noqa: E402
from new_store import make_store  # noqa: E402
from played_scene import PROGRAM, TOP, CommandLine, Trouble  # noqa: E402
from server import Server  # noqa: E402
from stored import StoreFault  # noqa: E402

TOKEN_BYTES = 24  # which are 32 characters
BUILT = TOP / "crates" / "scene" / "out" / "scene"
UNBUILT = "the proved program isn't built, and the editor needs it; './scene build' builds it"


def ends_told():
    """A socket that has a byte once an interrupt, or a wish to end, has come to any thread. (A handler that sets an
    event could wait for ever: it runs in the thread that waits for it, which may have the event's lock.)"""
    told, tells = socket.socketpair()
    tells.setblocking(False)
    for number in (signal.SIGINT, signal.SIGTERM):
        signal.signal(number, lambda *_: None)
    signal.set_wakeup_fd(tells.detach(), warn_on_full_buffer=False)
    return told


def serve(words):
    """Serves until an interrupt."""
    told = ends_told()
    token = secrets.token_urlsafe(TOKEN_BYTES)
    try:
        server = Server(token, words.port)
    except OSError as error:
        raise Trouble(f"port {words.port} can't be had: {error.strerror}") from None
    with server:
        server.hub = hub = Hub(words.program, words.store, AddressFile(server.address, token))
        thread = threading.Thread(target=server.serve_forever, kwargs={"poll_interval": 0.1}, daemon=True)
        thread.start()
        print(f"{server.address}/{token}/", flush=True)
        told.recv(1)
        hub.close()
        server.shutdown()
        thread.join()


def edit(words):
    """The exit status: 2 where nothing could be begun, 3 where the store is at fault."""
    # Until it serves, an end from outside is an exception, behind which nothing is half made.
    signal.signal(signal.SIGTERM, signal.default_int_handler)
    try:
        if words.program == PROGRAM and not BUILT.exists():
            raise Trouble(UNBUILT)
        if words.script is not None:
            make_store(words.program, words.store, words.script)
        serve(words)
    except StoreFault as fault:
        line, _, said = str(fault).rpartition("\n")
        print(*filter(None, (line, f"scene: edit: {said}")), sep="\n", file=sys.stderr)
        return 3
    except Trouble as trouble:
        print(f"scene: edit: {trouble}", file=sys.stderr)
        return 2
    except KeyboardInterrupt:
        print("scene: edit: it was interrupted before it served", file=sys.stderr)
    return 0


def port_of(text):
    if not text.isdigit() or int(text) > 65535:
        raise ValueError(text)
    return int(text)


def main():
    takes = "the name of a store's file, and no other word but --from SCRIPT, --port N, --unproved and --help"
    line = CommandLine("edit", takes, "editor")
    line.add_argument("store", type=Path)
    line.add_argument("--from", dest="script")
    line.add_argument("--port", type=port_of, default=0)
    return edit(line.parsed(sys.argv[1:]))


if __name__ == "__main__":
    sys.exit(main())
