"""JSON as the editor sends it."""
import json
import sys
from pathlib import Path
from typing import Any, List

sys.path.append(str(Path(__file__).resolve().parent.parent / "picture"))

from page import exact  # noqa: E402

# 2^53 has as many digits. By a table all digits are one, so that such a number is found in texts of many megabytes.
LONG_NUMBER = b"0" * 16
AS_ZEROS = bytes(ord("0" if chr(byte) in "0123456789" else " ") for byte in range(256))
DECODER = json.JSONDecoder()


def compact(value: Any) -> str:
    return json.dumps(value, separators=(",", ":"), check_circular=False)


def exact_text(text: str) -> str:
    """The same JSON, with whole numbers as texts where a browser would round them."""
    # few scenes have such numbers, and to look for them in the text is quick
    return compact(exact(json.loads(text))) if LONG_NUMBER in text.encode().translate(AS_ZEROS) else text


def json_text(value: Any) -> str:
    """JSON without a line break, whose numbers are exact."""
    return exact_text(compact(value))


def with_part(text: str, name: str, part: str) -> str:
    """The text of an object that isn't empty, with a part more, which is a text already."""
    return f'{text[:-1]},"{name}":{part}}}'


def first_items(text: str, most: int) -> List[Any]:
    """The first values of a list without spaces. What stands behind them isn't read."""
    found, at = [], 1
    while len(found) < most and text[at] != "]":
        value, at = DECODER.raw_decode(text, at)
        found.append(value)
        at += text[at] == ","
    return found
