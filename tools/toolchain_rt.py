"""The toolchain's `rt`, from within, for tools/build and tools/wrong_bodies.

    toolchain_rt.py VERB WORDS..          what `rt VERB WORDS..` does, with each crate's sum made once
    toolchain_rt.py statements WORDS..    what `rt lib WORDS..` does, but that the library has its statements alone
    toolchain_rt.py passing VERB WORDS..  what `rt VERB WORDS..` makes of a program or an archive, with no work kept

`rt` knows a library by a sum of its crate's sources and of the sums of those below it, and makes each anew for every
way that leads down to it: below the program there are some hundred thousand, minutes of one processor while the others
wait. Where these work no source changes meanwhile, so a sum holds once it is made. The merge gate is plain `rt`.

A library of statements is what `rt ci` makes: what is proved above it reads none of its proofs. It is proved by copies
of one process, which share what that has read, and keeps nothing. Where a crate has kept work, of an `rt check`, `rt
lib` is quicker, and is what is done. So it is with a program or an archive that keeps nothing.
"""
import os
import shutil
import subprocess
import sys
from functools import cache
from importlib.machinery import SourceFileLoader
from importlib.util import module_from_spec, spec_from_loader
from pathlib import Path

NAME = "toolchain_rt_itself"


def loaded():
    """The module that `rt` is. What it has inside is no promise: this fails where that is otherwise."""
    page = subprocess.run(["rt", "doc"], capture_output=True, text=True, check=True, stdin=subprocess.DEVNULL).stdout
    place = Path(page.strip()).parent / "bin"
    sys.path.insert(0, str(place))
    loader = SourceFileLoader(NAME, str(place / "rt"))
    module = module_from_spec(spec_from_loader(NAME, loader))
    loader.exec_module(module)
    module.rtlib.Crate.stamp = cache(module.rtlib.Crate.stamp)
    return module


def make_statements(rtlib):
    """Has `rt lib` make a library of statements where nothing is kept of its crate."""
    makes_whole = rtlib.Crate.build_rlib

    def build_rlib(crate, flags, anew):
        if anew or crate.is_built() or crate.has_kept():
            return makes_whole(crate, flags, anew)
        total, room = crate.stamp(), Path(crate.rlib).parent
        shutil.rmtree(room, ignore_errors=True)
        room.mkdir(parents=True)
        words = crate.words(flags, keeps=False)
        status = crate.call(rtlib.RATTLE, "build", *words, "--statements", "-o", crate.rlib)
        if status == 0:
            (room / "stamp").write_text(total)
        return status

    rtlib.Crate.build_rlib = build_rlib


def keep_nothing(rtlib):
    """Has a program or an archive be proved with no work kept, where none is kept of its crate."""
    compiles, kept = rtlib.Crate.compile, rtlib.KEPT

    def compile_crate(crate, *words):
        rtlib.KEPT = kept if crate.has_kept() else []
        try:
            return compiles(crate, *words)
        finally:
            rtlib.KEPT = kept

    rtlib.Crate.compile = compile_crate


def main():
    verb, *words = sys.argv[1:]
    change = {"statements": make_statements, "passing": keep_nothing}.get(verb)
    plain = ["lib", *words] if verb == "statements" else words if verb == "passing" else [verb, *words]
    try:
        module = loaded()
        if change:
            change(module.rtlib)
    except (Exception, SystemExit):
        os.execvp("rt", ["rt", *plain])
    sys.exit(module.main(plain))


if __name__ == "__main__":
    main()
