"""The two files of a store by the calls that tools/try_faults.c wrote down, and what a crash leaves of them.

What a file held at its last synchronization is on the disk. Of each call since then a crash leaves all or nothing, or of a write
some of its sectors or some of its bytes, whatever it leaves of the others. A byte that the file had on the disk is then the old or
the new one; one behind its end is the new one or zero.
"""
import struct
from typing import NamedTuple

HEAD = struct.Struct("<BBB5xQQ")
STORE, LOG, ANSWERS = "d", "l", "a"
WRITTEN, CUT, SYNCED, REMOVED = "w", "c", "s", "r"
SECTOR = 512
ALL_OR_NO_BITS = bytes(128 * [0] + 128 * [255])


class Call(NamedTuple):
    """A call on a file of a store, or a write to standard output."""

    kind: str
    file: str
    is_done: bool
    at: int
    length: int
    bytes: bytes

    def is_counted(self):
        """Whether the call has a number, by which it can be let fail."""
        return self.file != ANSWERS and self.kind != REMOVED


def calls_in(record):
    """The calls of a record, in order."""
    calls, here = [], 0
    while here < len(record):
        kind, file, is_done, at, length = HEAD.unpack_from(record, here)
        here += HEAD.size
        moved = length if chr(kind) == WRITTEN and is_done else 0
        calls.append(Call(chr(kind), chr(file), bool(is_done), at, length, record[here : here + moved]))
        here += moved
    return calls


class RecordedFile:
    """A file, and the calls that a crash may undo. No content stands for no file."""

    def __init__(self, content=None):
        self.on_disk, self.since = content, []
        self.content = None if content is None else bytearray(content)

    def take(self, call):
        """Takes over a call that was done."""
        if call.kind == SYNCED:
            self.on_disk, self.since = self.held(), []
        else:
            self.since.append(call)
            self.content = behind(self.content, call)

    def held(self):
        """What the file holds now."""
        return None if self.content is None else bytes(self.content)

    def left(self, chance=None):
        """What a crash leaves, by a chance; without one nothing that came since the last synchronization."""
        content = None if self.on_disk is None else bytearray(self.on_disk)
        if chance is not None:
            share, by_bytes = chance.choice((0.1, 0.5, 0.9)), chance.random() < 0.5
            for call in self.since:
                if chance.random() < share:
                    content = partly_behind(content, call, by_bytes, chance)
        return None if content is None else bytes(content)


def behind(content, call):
    """What a file holds behind a call."""
    if call.kind == REMOVED:
        return None
    content = bytearray() if content is None else content
    if call.kind == CUT:
        del content[call.length :]
        content.extend(bytes(call.length - len(content)))
        return content
    return write(content, call.at, call.bytes)


def write(content, at, new):
    """Writes bytes into a content, with zeros before them where it ends before."""
    content.extend(bytes(max(0, at - len(content))))
    content[at : at + len(new)] = new
    return content


def mixed(old, new, chance):
    """Bytes of which each is the new one, or the old one, which is zero where there was none."""
    mask = int.from_bytes(chance.randbytes(len(new)).translate(ALL_OR_NO_BITS), "little")
    old, new, length = int.from_bytes(old, "little"), int.from_bytes(new, "little"), len(new)
    return (old & ~mask | new & mask).to_bytes(length, "little")


def partly_behind(content, call, by_bytes, chance):
    """What a file holds behind a call, or behind some sectors or bytes of it where it is a write."""
    if call.kind != WRITTEN or chance.random() < 0.3:
        return behind(content, call)
    content = bytearray() if content is None else content
    at, end = call.at, call.at + call.length
    while at < end:
        until = min(end, at - at % SECTOR + SECTOR)
        new = call.bytes[at - call.at : until - call.at]
        if by_bytes:
            new = mixed(content[at:until], new, chance)
        if by_bytes or chance.random() < 0.5:
            write(content, at, new)
        at = until
    return content
