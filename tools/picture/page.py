"""Fills the page: one file with its style, its script and the scene, which fetches nothing."""
import base64
import hashlib
import json
import re
from html import escape
from pathlib import Path

HERE = Path(__file__).resolve().parent
SCRIPTS = (
    "roots.js", "cells.js", "state.js", "records.js", "words.js", "lines.js", "parts.js", "fills.js", "in_sight.js",
    "page.js",
)  # fmt: skip
# What makes the scripts modules, for the editor (tools/editor). In one file they share their names without.
MODULE_WORDS = re.compile(r"^import [^;]*;\n|^export ", re.MULTILINE)
MOST_EXACT = 2**53 - 1
TRIED = 10_000


def page(scene):
    """The page of a scene of version 2."""
    style = (HERE / "page.css").read_text()
    script = "\n".join(MODULE_WORDS.sub("", (HERE / name).read_text()) for name in SCRIPTS)
    parts = {"style": style, "script": script, "scene": data(scene)}
    parts.update(policy=policy(style, script), counts=escape(counts(scene)))
    return re.sub(r"<!--(\w+)-->", lambda mark: parts[mark[1]], (HERE / "page.html").read_text())


def policy(style, script):
    """What a browser may do for the page: run this script and take this style, and fetch nothing."""
    hashes = [base64.b64encode(hashlib.sha256(text.encode()).digest()).decode() for text in (style, script)]
    allowed = "style-src 'sha256-{}'; script-src 'sha256-{}'".format(*hashes)
    return f"default-src 'none'; {allowed}; base-uri 'none'; form-action 'none'"


def data(scene):
    """The scene as the page's script reads it. No text in it ends the element that it stands in."""
    for record in (*scene["undo"], *scene["redo"]):
        record["after"] = record["tick"] + 1
    return json.dumps(exact(scene), separators=(",", ":")).replace("<", "\\u003c")


def exact(value):
    """The value with its whole numbers as texts where JavaScript's, which are doubles, would round them."""
    if isinstance(value, dict):
        return {key: exact(part) for key, part in value.items()}
    if isinstance(value, list):
        return [exact(part) for part in value]
    if isinstance(value, int) and abs(value) > MOST_EXACT:
        return str(value)
    return value


def counts(scene):
    live = sum(len(table["rows"]) for table in scene["tables"])
    numbers = [counted(live, "entity", "entities"), counted(len(scene["tables"]), "table")]
    numbers += [counted(len(scene["resources"]), "resource"), f"{counted(len(scene['undo']), 'frame')} of the past"]
    said = f"{', '.join(numbers)}, {len(scene['redo']):,} of the future."
    if live > TRIED:
        said += f" This page was tried with {TRIED:,} entities; with more it is slower in proportion."
    return said


def counted(number, one, many=None):
    return f"{number:,} {one if number == 1 else many or one + 's'}"
