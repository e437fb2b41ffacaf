"""What try_scene.py tries of lines that are sent to a store: an editor has it open, a shell, or nobody."""
from __future__ import annotations

import shlex
import subprocess
import sys
import tempfile
from contextlib import contextmanager
from pathlib import Path
from typing import Iterator

import scene
from scene import BadLine, Ended, StoreError
from trying import KINDS, TOP, UNUSUAL, error_of, spawned

TOOLS = TOP / "tools"


def script_over(program: str, room: str) -> str:
    """A script in place of ./scene, whose command `send` is over a program."""
    path = Path(room, "scene")
    words = [sys.executable, "-B", str(TOOLS / "send" / "send.py"), "--program", program]
    path.write_text(f'#!/bin/sh\nshift\nexec {shlex.join(words)} "$@"\n')
    path.chmod(0o755)
    return str(path)


@contextmanager
def edited(program: str, store: str) -> Iterator[None]:
    """An editor that has a store open."""
    words = [sys.executable, "-B", str(TOOLS / "editor" / "edit.py"), "--program", program, store]
    with subprocess.Popen(words, stdout=subprocess.PIPE, stderr=subprocess.DEVNULL) as editor:
        assert editor.stdout and editor.stdout.readline().startswith(b"http://")
        try:
            yield
        finally:
            editor.terminate()


def sent_lines(program: str) -> None:
    """Lines and requests come to the store, whoever has it open, but for a shell; and are answered alike."""
    with tempfile.TemporaryDirectory() as room:
        path, script = f"{room}/level.db", script_over(program, room)
        with scene.open(path, KINDS, program) as world:
            spawned(world, Name="cat")
            error = error_of(StoreError, scene.send, path, ["spawn"], script)
            assert (error.number, error.name, error.status) == (60, "StoreInUse", 3), error
        name = " ".join(UNUSUAL)
        spawn = {"do": "spawn", "cells": {"Name": name}}
        given = ["begin", spawn, "parent +0 0v1", "commit", "jump\r", "get 7v7", ""]
        with edited(program, path):
            answers = scene.send(path, iter(given), script)
        assert [answer["answer"] for answer in answers] == ["ok", "queued", "queued", "done", "bad", "refused", "nothing"]
        assert answers[3]["entities"] == ["1v1"] and answers[4]["reason"] == 'no command is named "jump\\r"', answers
        assert scene.send(Path(path), ["undo", *given], script)[1:] == answers and scene.send(path, [], script) == []
        with scene.open(path, program=program) as world:
            assert world.get("1v1", "Name") == name and world.parent_of("1v1") == "0v1"
        error_of(BadLine, scene.send, path, ["a\nb"], script)
        error_of(TypeError, scene.send, path, [5], script)
        assert error_of(StoreError, scene.send, room, ["spawn"], script).number == 64
        # (the program itself has no such command)
        assert error_of(Ended, scene.send, path, ["spawn"], program).status == 2


PROGRAMS = (sent_lines,)
