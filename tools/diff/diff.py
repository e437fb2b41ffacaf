#!/usr/bin/env -S python3 -B
"""`scene diff`: prints lines of a script that lead from one scene to another, and as comments what they can't say.

The lines are worked out here and then played by the program, so that the program says whether they lead there.
"""
import json
import sys
from pathlib import Path

sys.path.insert(0, str(Path(__file__).resolve().parent.parent))

from left import left_over, summary  # noqa: E402
from lines import lines_of  # noqa: E402
from played_scene import CommandLine, answers, load_line, scene_of_file, scene_of_line, told  # noqa: E402
from sketch import best_sketch  # noqa: E402

WORLD = ("kinds", "limit", "tick", "generations", "free", "tables", "children", "resources")


def same_world(old, new):
    return all(old[part] == new[part] for part in WORLD)


def reached(program, old, lines):
    """The world after the lines, as the program plays them on the first scene; and each that it doesn't take."""
    script = "".join(f"{line}\n" for line in lines).encode()
    text = json.dumps(old, separators=(",", ":"), ensure_ascii=False).encode()
    said, _ = answers(program, load_line(text) + script + b"dump\n")
    refused = [
        f"{line} is answered by {answer.decode(errors='replace')}"
        for line, answer in zip(lines, said[1:]) if answer.startswith((b"refused", b"bad"))
    ]  # fmt: skip
    return scene_of_line(said[-1]), refused


def rewound(program, old, new):
    """So many `undo` or `redo` lines as lead from the first scene to the second, or None."""
    for word, frames in (("undo", old["undo"][::-1]), ("redo", old["redo"])):
        ticks = [frame["tick"] + (word == "redo") for frame in frames]
        if new["tick"] in ticks:
            lines = [word] * (ticks.index(new["tick"]) + 1)
            if same_world(reached(program, old, lines)[0], new):
                return lines
    return None


def differences(program, old, new):
    """What there is to print of two scenes, line by line."""
    if same_world(old, new):
        frames = [f"{len(scene['undo'])} of the past and {len(scene['redo'])} of the future" for scene in (old, new)]
        yield f"# the worlds are equal, the frames differ: {frames[0]} in the first scene, {frames[1]} in the second"
        return
    sketch = best_sketch(old, new)
    lines = list(lines_of(sketch))
    world, refused = reached(program, old, lines)
    yield f"# {summary(old, new, sketch.moved)}"
    back = None if same_world(world, new) else rewound(program, old, new)
    yield from back or lines
    if back or same_world(world, new):
        yield "# these lines lead to the world of the second scene"
        return
    yield "# what these lines don't lead to:"
    yield from (f"# {words}" for words in (*refused, *left_over(world, new)))


def compare(words):
    """Prints how the scenes differ, and answers the exit status, as diff does."""
    old, new = (scene_of_file(words.program, name, words.unproved).scene for name in (words.old, words.new))
    if old == new:
        return 0
    for line in differences(words.program, old, new):
        sys.stdout.buffer.write(f"{line}\n".encode())
    sys.stdout.buffer.flush()
    return 1


def main():
    line = CommandLine("diff", "the names of two files, each a store, a script or a scene text, and no other word but --unproved and --help")
    line.add_argument("old")
    line.add_argument("new")
    words = line.parsed(sys.argv[1:])
    return told("diff", lambda: compare(words))


if __name__ == "__main__":
    sys.exit(main())
