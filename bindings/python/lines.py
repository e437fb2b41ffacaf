#!/usr/bin/env -S python3 -B
"""Plays the script on standard input line by line by the C library, and prints what `scene run` prints of it.

    bindings/python/lines.py [LIBRARY] < SCRIPT

Without a path, the library is the one that SCENE_LIBRARY names, or else libscene.so in the folder of SCENE_LIB_DIR. The
status is 0, and 1 where a line was bad; 3 where memory was wanting. Why a line is bad, standard error tells.
"""
import sys

from scene.library import BAD, DONE, REFUSED, Library


def without_break(line: bytes) -> bytes:
    """A line without its line feed and one carriage return before that. A last line that lacks a line feed is whole."""
    if not line.endswith(b"\n"):
        return line
    return line[:-2] if line.endswith(b"\r\n") else line[:-1]


def main() -> int:
    scene = Library(sys.argv[1] if len(sys.argv) > 1 else None)
    status = 0
    for number, line in enumerate(sys.stdin.buffer, 1):
        code, answer = scene.play(without_break(line))
        if code not in (DONE, REFUSED, BAD):
            print(f"lines: code {code}, for want of memory", file=sys.stderr)
            return 3
        sys.stdout.buffer.write(answer)
        if code == BAD:
            status = 1
            print(f"lines: line {number}: {scene.reason()}", file=sys.stderr)
    sys.stdout.buffer.flush()
    return status


if __name__ == "__main__":
    sys.exit(main())
