"""What a page does with the store as a file: another one, a copy, a shorter one. All stand in the folder of the store,
and none takes another file's place."""
import os
import re
import subprocess

from address_file import ENDING
from played_scene import Trouble
from shell import Gone
from stored import store_fault

GOOD = re.compile(r"\w[\w. -]{0,99}")
BEGINNING = b"SQLite format 3\0"
SIDE = ("-journal", "-wal", "-shm", ENDING)


def is_store(path):
    """Whether a file may be a store: what is none of a scene the shell refuses."""
    try:
        with path.open("rb") as file:
            return path.is_file() and file.read(len(BEGINNING)) == BEGINNING
    except OSError:
        return False


class Files:
    """What is asked of a hub's store. A refusal is in words."""

    def __init__(self, hub):
        self.hub = hub

    def do(self, what, name):
        calls = {
            "list": self.stores, "new": self.new, "open": self.open, "save": self.save, "backup": self.backup,
            "compact": self.compact,
        }  # fmt: skip
        if what not in calls:
            return {"refused": "there is nothing of this name"}
        with self.hub.lock:
            try:
                return calls[what](name) or {}
            except Trouble as trouble:
                return {"refused": str(trouble).rpartition("\n")[2]}
            except Gone:
                return {"refused": "the shell has ended"}

    def path(self, name):
        """The file of a name in the store's folder."""
        if not GOOD.fullmatch(name) or name.endswith((" ", ".", *SIDE)):
            raise Trouble("a file's name has letters, digits, spaces, and . _ - alone")
        return self.hub.store.parent / name

    def new_path(self, name):
        path = self.path(name)
        if os.path.lexists(path):
            raise Trouble(f"{name} is there already")
        return path

    def run(self, *words):
        try:
            ended = subprocess.run([self.hub.program, *map(str, words)], capture_output=True, check=False)
        except OSError as error:
            raise Trouble(f"{self.hub.program} can't be run: {error.strerror}") from None
        if ended.returncode != 0:
            raise store_fault(self.hub.store, ended.stderr)

    def stores(self, _):
        found = sorted(self.hub.store.parent.iterdir(), key=lambda path: path.name)
        return {"stores": [path.name for path in found if is_store(path)]}

    def new(self, name):
        self.hub.go_to(self.new_path(name), f"{name} is open, a new scene")

    def open(self, name):
        path = self.path(name)
        if not is_store(path):
            raise Trouble(f"{name} is no store")
        self.hub.go_to(path, f"{name} is open")

    def save(self, name):
        path = self.new_path(name)
        self.run("backup", self.hub.store, path)
        self.hub.go_to(path, f"saved as {name}, which is open now")

    def backup(self, name):
        self.run("backup", self.hub.store, self.new_path(name))

    def compact(self, _):
        """No other program may have the store meanwhile, so the shell ends for it."""
        self.hub.let_go()
        try:
            self.run("compact", self.hub.store)
        finally:
            self.hub.go_to(self.hub.store, "the store is compacted")
