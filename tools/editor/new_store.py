"""A new store of a script or of a scene text: all of it, or none."""
import os
import subprocess
import sys
import tempfile
from pathlib import Path

from line_requests import word_of
from played_scene import Trouble, is_scene_text, load_line
from stored import StoreFault, store_fault

MOST_TOLD = 10
# What SQLite may have beside a file, in which it would look for lines of the new store.
BESIDE = ("-journal", "-wal", "-shm")


def require_new(store):
    """A fault where anything has the store's name."""
    if os.path.lexists(store):
        raise Trouble(f"{store} isn't new, so nothing is played into it")


def is_script(given):
    """Whether bytes are meant as a script, which may begin with a request."""
    return not is_scene_text(given) or word_of(given.partition(b"\n")[0].decode(errors="replace")) != ""


def lines_of(given, name):
    """The lines of a script, or the one that loads a scene text."""
    if is_script(given):
        return given
    try:
        return load_line(given)
    except Trouble as trouble:
        raise Trouble(f"{name}: {trouble}") from None


def tell_bad_lines(told, name):
    """Says on standard error which lines are bad, and answers how many."""
    bad = [line for line in told.decode(errors="replace").split("\n") if line.startswith("scene: line ")]
    more = len(bad) - MOST_TOLD
    for line in bad[:MOST_TOLD]:
        print(f"{line} ({name})", file=sys.stderr)
    if more > 0:
        print(f"scene: {more} more bad line{'s' * (more > 1)} ({name})", file=sys.stderr)
    return len(bad)


def play(program, given, name, store, made):
    """Plays what was given into a file that isn't there yet. A fault is told of the store whose name that gets."""
    words = [program, "shell", "--store", str(made)]
    try:
        played = subprocess.run(words, input=lines_of(given, name), capture_output=True, check=False)
    except OSError as error:
        raise Trouble(f"{program} can't be run: {error.strerror}") from None
    bad = tell_bad_lines(played.stderr, name)
    if played.returncode not in (0, 1):
        raise store_fault(store, played.stderr)
    if bad or played.returncode == 1:
        raise Trouble(f"{name} has {'a bad line' if bad == 1 else 'bad lines'}, so nothing of it is kept")
    answer = played.stdout.split(b"\n", 1)[0]
    if not is_script(given) and answer != b"ok":
        raise Trouble(f"the scene text {name} is refused, so nothing is kept: {answer.decode(errors='replace')}")


def put_in_place(made, store):
    """Gives a store that is whole and closed its name."""
    require_new(store)
    for end in BESIDE:
        Path(f"{store}{end}").unlink(missing_ok=True)
    try:
        # Unlike a new name a link never takes the place of a file.
        os.link(made, store)
    except FileExistsError:
        require_new(store)
    except OSError:
        # There are file systems without links.
        os.rename(made, store)
    keep_names(store.parent)


def keep_names(path):
    """Has the names in a folder survive a crash, where its file system can."""
    folder = os.open(path, os.O_RDONLY)
    try:
        os.fsync(folder)
    except OSError:
        pass
    finally:
        os.close(folder)


def make_store(program, store, name):
    """Makes a store of the script, or of the scene text, in a file of a name. Where a line is bad, where the program
    fails, and at an interrupt there is no store."""
    require_new(store)
    try:
        given = Path(name).read_bytes()
    except OSError as error:
        raise Trouble(f"{name} can't be read: {error.strerror}") from None
    try:
        with tempfile.TemporaryDirectory(prefix=".scene-", dir=store.parent) as folder:
            made = Path(folder) / "store"
            play(program, given, name, store, made)
            put_in_place(made, store)
    except OSError as error:
        raise StoreFault(f"{store.name} can't be made: {error.strerror}") from None
