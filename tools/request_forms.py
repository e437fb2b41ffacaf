"""Requests (docs/SHELL.md, "Requests", "Questions", "Kinds at any time"), as the reference reads them: the request that stands for a line of a
script, and why a text is a bad request, with the path of the first part that has no form."""
import json
import math
import re

SHAPES = ("Tag", "Int", "Vec3", "Text", "Link")
PLAIN = "begin queue commit undo redo show mark changed added phase clear advance dump dumpall history".split()
KEYS = {word: () for word in PLAIN}
KEYS |= dict.fromkeys(("slots", "calls", "depth"), ("limit",))
KEYS |= dict.fromkeys(("despawn", "despawnall", "despawnifalive", "get"), ("entity",))
KEYS |= {
    "kind": ("name", "shape"), "load": ("text",), "spawn": ("cells",), "insert": ("entity", "kind", "value"),
    "remove": ("entity", "kind"), "parent": ("child", "parent"), "unparent": ("child",), "put": ("name", "shape", "value"),
    "drop": ("name",), "system": ("name", "need", "steps", "without"), "as": ("session",),
}  # fmt: skip
# Those that stand for no line of a script: questions, the end of a frame that is dropped, and a kind at any time.
QUESTIONS = {"status": (), "kinds": (), "resources": (), "tables": ("need", "without"), "rows": ("count", "from", "need", "without")}
QUESTIONS |= dict.fromkeys(("children", "parentof"), ("entity",))
QUESTIONS |= dict.fromkeys(("past", "future"), ("count", "from")) | {"deltas": ("of", "step"), "step": ("way",)}
QUESTIONS |= dict.fromkeys(("changedsince", "addedsince"), ("need", "rewinds", "tick", "without"))
DROP_FRAME, DECLARE = "dropframe", "declare"
ALL_KEYS = KEYS | QUESTIONS | {DROP_FRAME: (), DECLARE: KEYS["kind"]}
# Keys that may be missing: for how many frames an undo or a redo is, which without it stands for the line.
MAY_MISS = dict.fromkeys(("undo", "redo"), ("count",))
CHOICES = {"shape": SHAPES, "of": ("past", "future"), "way": ("forth", "back")}
RANGES = {"limit": (1, 1048576), "session": (0, 7)}
RANGES |= dict.fromkeys(("from", "count", "step"), (0, 2**32 - 1)) | dict.fromkeys(("rewinds", "tick"), (0, 2**64 - 1))
STEP_KEYS = {"addvec": ("by", "to"), "addint": ("by", "to"), "zero": ("kind",), "child": ("cells",), "count": ("name",)}
NATURAL = re.compile(r"0|[1-9][0-9]{0,9}")
MOST_LEVELS = 127


class Bad(Exception):
    """Why a request is bad: the word of `BadRequest`, and the path where it has one."""

    def __init__(self, word, path=None):
        super().__init__(word, path)
        self.word, self.path = word, path


# ---- JSON as the program takes it


def whole(text):
    """A whole number, where the program reads one: it has no sign and 64 bits, or a sign and 64 bits."""
    number = int(text)
    if text != "-0" and -(2**63) <= number < 2**64:
        return number
    return real(text)


def real(text):
    number = float(text)
    if math.isinf(number):
        raise ValueError
    return number


def no_constant(_):
    raise ValueError


def levels_of(value):
    """How deep lists and objects nest."""
    inner = value.values() if isinstance(value, dict) else value if isinstance(value, list) else ()
    return 0 if not isinstance(value, (dict, list)) else 1 + max(map(levels_of, inner), default=0)


def value_in(text):
    """The value of a text, or a `Bad` where it isn't JSON. A text has no half of a pair of surrogates."""
    try:
        value = json.loads(text.decode(), parse_int=whole, parse_float=real, parse_constant=no_constant)
        json.dumps(value, ensure_ascii=False).encode()
    except (ValueError, OverflowError, RecursionError):
        raise Bad("NotJson") from None
    if levels_of(value) > MOST_LEVELS:
        raise Bad("NotJson")
    return value


# ---- the walk


def under(path, key):
    return f"{path}.{key}" if path else key


def object_of(value, keys, path):
    """Sees that an object has no other keys than these."""
    if not isinstance(value, dict):
        raise Bad("BadField", path)
    unknown = sorted(set(value) - set(keys), key=str.encode)
    if unknown:
        raise Bad("UnknownKey", under(path, unknown[0]))


def is_whole(value, least, most):
    return isinstance(value, int) and not isinstance(value, bool) and least <= value <= most


def is_natural(text):
    return bool(NATURAL.fullmatch(text)) and int(text) < 2**32


def is_entity(value):
    parts = value.split("v") if isinstance(value, str) else ()
    return len(parts) == 2 and all(map(is_natural, parts))


def is_target(value):
    return is_entity(value) or isinstance(value, str) and value[:1] == "+" and is_natural(value[1:])


class Reader:
    """Reads requests where these kinds are declared, each a name and a shape, by number."""

    def __init__(self, kinds):
        self.kinds = dict(kinds)

    def read(self, text):
        """The request of a text, or a `Bad`."""
        request = value_in(text)
        word = self.key(request, "do", "", lambda value, _: value in ALL_KEYS if isinstance(value, str) else False)
        may_miss = MAY_MISS.get(word, ())
        object_of(request, ("do", *ALL_KEYS[word], *may_miss), "")
        for key in (*ALL_KEYS[word], *may_miss):
            if key in request:
                self.field(word, key, request)
            elif key not in may_miss:
                raise Bad("BadField", key)
        return request

    @staticmethod
    def key(value, key, path, is_good):
        """The value of a key of an object, which has to be good."""
        if not isinstance(value, dict):
            raise Bad("BadField", path)
        at = under(path, key)
        if key not in value or not is_good(value[key], at):
            raise Bad("BadField", at)
        return value[key]

    def field(self, word, key, request):
        value = request[key]
        if key == "cells":
            self.cells(value, key)
        elif key in ("need", "without"):
            self.names(value, key)
        elif key == "steps":
            self.steps(value)
        elif key == "value":
            self.value(self.kinds[request["kind"]] if word == "insert" else request["shape"], value, key)
        elif not self.is_plain(word, key, value):
            raise Bad("BadField", key)

    def is_plain(self, word, key, value):
        """Whether a value without parts has its form."""
        if key in ("entity", "child", "parent"):
            return is_entity(value) if word == "get" or word in QUESTIONS else is_target(value)
        if key == "kind":
            return self.is_kind(value)
        if key in CHOICES:
            return value in CHOICES[key]
        return is_whole(value, *RANGES[key]) if key in RANGES else isinstance(value, str)

    def is_kind(self, value):
        return isinstance(value, str) and value in self.kinds

    def value(self, shape, value, path):
        """Sees that a value is one of a shape."""
        if shape == "Vec3" and isinstance(value, list) and len(value) == 3:
            for at, part in enumerate(value):
                self.value("Int", part, f"{path}[{at}]")
            return
        good = {"Tag": value is True, "Int": is_whole(value, -(2**63), 2**63 - 1), "Text": isinstance(value, str)}
        if not (is_entity(value) if shape == "Link" else good.get(shape, False)):
            raise Bad("BadField", path)

    def cells(self, value, path):
        object_of(value, self.kinds, path)
        for name, shape in self.kinds.items():
            if name in value:
                self.value(shape, value[name], under(path, name))

    def names(self, value, path):
        if not isinstance(value, list):
            raise Bad("BadField", path)
        for at, name in enumerate(value):
            if not self.is_kind(name):
                raise Bad("BadField", f"{path}[{at}]")

    def steps(self, value):
        if not isinstance(value, list):
            raise Bad("BadField", "steps")
        for at, step in enumerate(value):
            self.step(step, f"steps[{at}]")

    def step(self, step, path):
        word = self.key(step, "step", path, lambda value, _: value in STEP_KEYS if isinstance(value, str) else False)
        object_of(step, ("step", *STEP_KEYS[word]), path)
        for key in STEP_KEYS[word]:
            if key not in step:
                raise Bad("BadField", under(path, key))
            if key == "cells":
                self.cells(step[key], under(path, key))
            elif not self.is_part(word, key, step[key]):
                raise Bad("BadField", under(path, key))

    def is_part(self, word, key, value):
        if key == "name":
            return isinstance(value, str)
        return is_whole(value, -(2**63), 2**63 - 1) if (word, key) == ("addint", "by") else self.is_kind(value)


# ---- the request that stands for a good line


def value_of(shape, text):
    if shape == "Tag":
        return True
    if shape == "Int":
        return int(text)
    return [int(part) for part in text.split(",")] if shape == "Vec3" else text


def cell_of(shapes, word):
    name, _, text = word.partition("=")
    return name, value_of(shapes[name], text)


def step_of(shapes, word):
    name, _, rest = word.partition(":")
    if name == "child":
        return {"step": name, "cells": dict(cell_of(shapes, cell) for cell in rest.split(";"))}
    if name in ("zero", "count"):
        return {"step": name, "kind" if name == "zero" else "name": rest}
    to, by = rest.split(":")
    return {"step": name, "to": to, "by": by if name == "addvec" else int(by)}


def system_of(shapes, name, *words):
    request = {"do": "system", "name": name, "need": [], "without": [], "steps": []}
    for word in words:
        part, mark, names = word.partition("=")
        if mark and part in ("need", "without"):
            request[part] = names.split(",")
        else:
            request["steps"].append(step_of(shapes, word))
    return request


def has_kind_twice(line):
    """Whether a system's child has a kind twice in a good line, which no request says."""
    children = [word.removeprefix("child:").split(";") for word in line.split(" ") if word.startswith("child:")]
    return any(len({cell.partition("=")[0] for cell in cells}) < len(cells) for cells in children)


def request_of(line, kinds):
    """The request that stands for a good line of a script. None for an empty line, a comment, and a spawn with a kind
    twice, which no request says. Of a system whose child has a kind twice, which no advance takes, one without the
    first of them."""
    shapes = dict(kinds)
    word, *words = [word for word in line.split(" ") if word] or [""]
    if word not in KEYS:
        return None
    if word == "load":
        return {"do": word, "text": line.lstrip(" ")[len(word) :].lstrip(" ")}
    if word == "system":
        return system_of(shapes, *words)
    if word == "spawn":
        cells = [cell_of(shapes, cell) for cell in words]
        return {"do": word, "cells": dict(cells)} if len(dict(cells)) == len(cells) else None
    if word == "insert":
        name, value = cell_of(shapes, words[1])
        return {"do": word, "entity": words[0], "kind": name, "value": value}
    if word == "put":
        shape, _, text = words[1].partition("=")
        return {"do": word, "name": words[0], "shape": shape, "value": value_of(shape, text)}
    values = map(int, words) if word in ("slots", "calls", "depth", "as") else words
    return {"do": word, **dict(zip(KEYS[word], values))}
