#!/usr/bin/env -S python3 -B
"""Uses the editor in a real browser, as people would: a new level, a village by two at once, and by keyboard alone, and
a meadow at play.

    tools/editor_tests/browser.py [--program PATH] [--pictures] [--latency] [--only NAME]

Needs Chromium, found by the variable BROWSER or by PATH; without one it says so, with status 3. What the pages show is
held to what the store has at the end.
"""
import argparse
import signal
import sys
import tempfile
import time
from contextlib import contextmanager
from pathlib import Path

sys.path.insert(0, str(Path(__file__).resolve().parent))

from entity_walk import try_entity  # noqa: E402
from files_walk import try_files  # noqa: E402
from forest_walk import try_forest  # noqa: E402
from keyboard_walk import try_keyboard  # noqa: E402
from kinds_walk import try_kinds  # noqa: E402
from latency import latency, playing  # noqa: E402
from level_walk import try_level  # noqa: E402
from looks_walk import try_looks  # noqa: E402
from meadow_walk import try_meadow  # noqa: E402
from person import Person  # noqa: E402
from picture_walk import try_picture  # noqa: E402
from pictures import take_pictures  # noqa: E402
from play_walk import try_play_and_undo  # noqa: E402
from remote import Remote, browser_named  # noqa: E402
from scale import scale  # noqa: E402
from setup_walk import try_setup  # noqa: E402
from village_walk import try_village  # noqa: E402

PROGRAM = Path(__file__).resolve().parent.parent.parent / "crates" / "scene" / "out" / "scene"
WALKS = {
    "setup": try_setup, "village": try_village, "keyboard": try_keyboard, "meadow": try_meadow, "forest": try_forest,
    "entity": try_entity, "play": try_play_and_undo, "picture": try_picture, "files": try_files, "looks": try_looks,
    "kinds": try_kinds, "level": try_level,
}  # fmt: skip
MANY, EDITS = 10_000, 200
MOST, FEW_EDITS = 100_000, 40
PLAYED = (1000, 10_000)


@contextmanager
def browsing(browser):
    """A browser, and a folder for the stores."""
    remote = Remote(browser)
    try:
        with tempfile.TemporaryDirectory(prefix="scene-editor-") as room:
            yield remote, Path(room)
    finally:
        remote.close()


def try_in_browser(program, names=tuple(WALKS), album=None):
    """Does all that people do, and keeps pictures of it in a folder. Words that say what was tried, None without a
    browser; a fault is an AssertionError."""
    Person.album = album
    browser = browser_named()
    if browser is None:
        return None
    begun, seconds = time.monotonic(), []
    with browsing(browser) as (remote, room):
        for name in names:
            since = time.monotonic()
            told = WALKS[name](remote, program, room)
            seconds.append(f"{name} {time.monotonic() - since:.1f} s{f', {told}' if told else ''}")
    return f"used in {Path(browser).name} by keys and mouse for {time.monotonic() - begun:.0f} s ({', '.join(seconds)})"


def main():
    parser = argparse.ArgumentParser(description=__doc__, formatter_class=argparse.RawDescriptionHelpFormatter)
    parser.add_argument("--program", default=str(PROGRAM))
    parser.add_argument("--pictures", action="store_true", help="takes the pictures of docs/ too")
    parser.add_argument("--latency", action="store_true", help="tells how fast large levels are")
    parser.add_argument("--only", choices=WALKS, action="append")
    parser.add_argument("--album", type=Path, metavar="FOLDER", help="keeps pictures of what is done")
    words = parser.parse_args()
    # Who ends this ends the browser and the servers too.
    signal.signal(signal.SIGTERM, lambda *_: sys.exit(1))
    browser = browser_named()
    if browser is None:
        print("editor: there is no browser here")
        return 3
    if words.pictures or words.latency:
        with browsing(browser) as (remote, room):
            if words.pictures:
                take_pictures(remote, words.program, room)
            for count, edited in ((MANY, EDITS), (MOST, FEW_EDITS)) if words.latency else ():
                print(f"editor: {scale(remote, words.program, room, count)}", flush=True)
                print(f"editor: {latency(remote, words.program, room, count, edited)}", flush=True)
            for count in PLAYED if words.latency else ():
                print(f"editor: {playing(remote, words.program, room, count)}", flush=True)
        return 0
    print(f"editor: ok; {try_in_browser(words.program, words.only or tuple(WALKS), words.album)}")
    return 0


if __name__ == "__main__":
    sys.exit(main())
