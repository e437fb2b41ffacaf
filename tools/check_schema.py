#!/usr/bin/env python3
"""Holds docs/scene.schema.json and docs/request.schema.json to the texts of the examples, by the jsonschema package: each scene
text that an example prints or loads well has the form that the schema says, and so has each request that isn't bad. It prints
how many of those that are refused have not, and ends with 1 where a schema refuses a text that is read."""
import json
import re
import sys
from pathlib import Path

import jsonschema

ROOT = Path(__file__).resolve().parent.parent
EXAMPLES = ROOT / "examples"
REQUESTS = ("requests_*.scene", "questions_*.scene", "kinds_*.scene", "undos_*.scene")
# NotJson is no text for a schema; the orders, the rules of a world and the records are more than a form.
FORM = re.compile(r'fault (51 UnknownKey|52 BadField|53 BadVersion) (.*)')


def lines_of(path):
    return path.read_bytes().decode("utf-8", "replace").split("\n")


def loads_of(script, answers):
    """The texts of the `load` lines at the head of a script, each with its answer."""
    printing = [line for line in lines_of(script) if line.split() and not line.startswith("#")]
    for line, answer in zip(printing, answers):
        words = line.split(maxsplit=1)
        if words[0] == "load":
            yield (words[1] if len(words) > 1 else ""), answer


def texts():
    for script in sorted(EXAMPLES.glob("*.scene")):
        answers = lines_of(script.with_suffix(".out"))
        args = script.with_suffix(".args")
        word = args.read_text().split()[0] if args.exists() and args.read_text().split() else "run"
        if word in ("check", "print"):
            yield script.name, script.read_bytes().decode("utf-8", "replace"), answers[0]
            continue
        if word != "run":
            continue
        for text, answer in loads_of(script, answers):
            yield script.name, text, answer
        for answer in answers:
            if answer.startswith('{"children"'):
                yield script.name, answer, "ok"


def validator_of(name):
    schema = json.loads((ROOT / "docs" / name).read_text())
    validator = jsonschema.Draft202012Validator(schema)
    validator.check_schema(schema)
    return validator


def requests():
    """The requests of the examples, each with the path or the words by which it is bad, or None."""
    for script in sorted(path for names in REQUESTS for path in EXAMPLES.glob(names)):
        for line, told in zip(lines_of(script), lines_of(script.with_suffix(".out"))):
            if line.startswith("{"):
                answer = json.loads(told)
                yield script.name, line, answer.get("path") if answer["answer"] == "bad" else None


def check_requests():
    """How many requests fit, are refused for their form, for more than that, and differ."""
    validator, counts = validator_of("request.schema.json"), [0, 0, 0, 0]
    for name, text, path in requests():
        try:
            fits = validator.is_valid(json.loads(text))
        except ValueError:
            continue
        counts[(0 if fits else 3) if path is None else (2 if fits else 1)] += 1
        if path is None and not fits:
            print(f"{name}: {text} is read, and the schema refuses it", file=sys.stderr)
    return counts


def main():
    validator = validator_of("scene.schema.json")
    good = bad = beyond = wrong = 0
    for name, text, answer in texts():
        try:
            value = json.loads(text)
        except ValueError:
            continue
        fits = validator.is_valid(value)
        if answer.startswith(("ok", "good ", "tick ")):
            good += fits
            wrong += not fits
            if not fits:
                print(f"{name}: is read, and the schema refuses it", file=sys.stderr)
        elif FORM.match(answer):
            bad += not fits
            beyond += fits
    asked = check_requests()
    for what, counts in (("texts", (good, bad, beyond, wrong)), ("requests", asked)):
        print("{1} {0} fit, {2} are refused for their form, {3} for more than that, {4} differ".format(what, *counts))
    sys.exit(wrong + asked[3] > 0)


if __name__ == "__main__":
    main()
