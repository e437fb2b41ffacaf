"""The file beside a store that tells where the editor that has it open serves, so that `scene send` finds it: its
address and its token, for the user alone who runs it."""
import json
import os
import stat
import sys
from contextlib import suppress
from pathlib import Path

ENDING = "-editor"


def path_beside(store):
    return Path(f"{os.path.realpath(store)}{ENDING}")


class AddressFile:
    """An editor's own file, beside the store that it has open."""

    def __init__(self, address, token):
        self.text, self.path = json.dumps({"address": address, "token": token}).encode(), None

    def put(self, store):
        """Puts it beside a store that was opened. No other has that open, so a file that stands there is of an editor
        that is gone."""
        path = path_beside(store)
        if self.path == path and self.is_own():
            return
        self.remove()
        try:
            path.unlink(missing_ok=True)
            with os.fdopen(os.open(path, os.O_WRONLY | os.O_CREAT | os.O_EXCL, 0o600), "wb") as file:
                file.write(self.text)
            self.path = path
        except OSError as error:
            words = f"{path.name} can't be made, so scripts can't send lines: {error.strerror}"
            print(f"scene: edit: {words}", file=sys.stderr, flush=True)

    def remove(self):
        """Removes it, where it isn't another editor's by now."""
        if self.path is not None and self.is_own():
            with suppress(OSError):
                self.path.unlink()
        self.path = None

    def is_own(self):
        try:
            return self.path.read_bytes() == self.text
        except OSError:
            return False


def is_ours_alone(file):
    """Whether an open file is one that only the user reads and writes, so that no other can have it lead elsewhere."""
    found = os.fstat(file)
    return stat.S_ISREG(found.st_mode) and found.st_uid == os.geteuid() and not found.st_mode & 0o077


def told_beside(store):
    """The address and the token that stand beside a store, or None where nothing that can be trusted does."""
    try:
        with os.fdopen(os.open(path_beside(store), os.O_RDONLY | os.O_NOFOLLOW | os.O_NONBLOCK), "rb") as file:
            told = json.loads(file.read()) if is_ours_alone(file.fileno()) else {}
        return str(told["address"]), str(told["token"])
    except (OSError, ValueError, LookupError, TypeError):
        return None
