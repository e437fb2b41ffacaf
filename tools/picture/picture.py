#!/usr/bin/env -S python3 -B
"""`scene picture`: makes a page or a drawing of a scene, of what the program itself prints of it."""
import sys
from pathlib import Path

sys.path.insert(0, str(Path(__file__).resolve().parent.parent))

from forest import drawing  # noqa: E402
from page import page  # noqa: E402
from played_scene import CommandLine, scene_of_file, scene_of_input, told  # noqa: E402


def draw(words):
    """Writes the picture. The status is that of the run, 1 where a line of the script was bad."""
    if words.file is None:
        played = scene_of_input(words.program, sys.stdin.buffer.read())
    else:
        played = scene_of_file(words.program, words.file, words.unproved)
    picture = drawing(played.scene) if words.svg else page(played.scene)
    sys.stdout.buffer.write(picture.encode())
    sys.stdout.buffer.flush()
    return 1 if played.has_bad_lines else 0


def main():
    line = CommandLine("picture", "the name of a file, a store, a script or a scene text, or the last two from standard input, "
                       "and no other word but --svg, --unproved and --help")
    line.add_argument("file", nargs="?")
    line.add_argument("--svg", action="store_true")
    words = line.parsed(sys.argv[1:])
    return told("picture", lambda: draw(words))


if __name__ == "__main__":
    sys.exit(main())
