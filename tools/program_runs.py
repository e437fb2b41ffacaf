"""Runs of the program and what each answers, for the tools that look at the built program from outside: its status, its two
outputs, and the forms that docs/SCRIPTS.md ("Output", "Bad lines", "Exit status") gives the lines of both."""
import json
import re
import subprocess
from pathlib import Path
from typing import NamedTuple

TOP = Path(__file__).resolve().parent.parent
PROGRAM = TOP / "crates" / "scene" / "out" / "scene"

FAULT_OF_THE_PROGRAM = re.compile(rb"scene: fault (20 NoMemory|54 ReadFault|55 WriteFault|56 TooLong)\n")
BAD_LINE_TOLD = re.compile(rb"scene: line ([1-9][0-9]*): .+")
MORE_BAD_LINES = re.compile(rb"scene: ([1-9][0-9]*) more bad lines?")

NATURAL = r"(?:0|[1-9][0-9]*)"
INTEGER = r"(?:0|-?[1-9][0-9]*)"
ENTITY = f"{NATURAL}v{NATURAL}"
NAME = "[A-Za-z][A-Za-z0-9_]{0,31}"
STRING = r'"(?:[^"\\\x00-\x1f]|\\["\\bnrtf]|\\u00[01][0-9a-f])*"'
TICKS = f"@{NATURAL}/{NATURAL}"
CELL = f"{NAME}(?:=(?:{INTEGER}(?:,{INTEGER},{INTEGER})?|{STRING}|{ENTITY}))?{TICKS}"
NUMBERS = f"(?: {NATURAL})*"
PLACE = rf" at {NATURAL}\.{NATURAL}\.{NATURAL}"
PLACED = (
    "1 NoSuchEntity|2 HasChildren|3 NotPresent|4 WrongShape|5 NoSuchKind|6 DuplicateKind|7 SelfParent|8 Cycle|9 NoParent"
    f"|10 NoSuchResource|11 EntitiesFull|12 BadLocal|14 Overflow {ENTITY}|30 BadName"
)
UNPLACED = (
    f"1 NoSuchEntity|13 TickFull|15 NothingToUndo|16 NothingToRedo|17 HistoryFull {NATURAL}|18 Rewound {NATURAL}"
    f"|21 Conflict {NATURAL} {NATURAL} {NATURAL}|22 BadRule {NATURAL} {NATURAL}|30 BadName|31 KindTaken|32 KindsFull"
)
FILE_FAULT = f"fault (?:40 BadWorld {NATURAL}|41 BadRecord {NATURAL} {NATURAL}|50 NotJson|5[12] (?:UnknownKey|BadField) {STRING}"
FILE_FAULT += f"|53 BadVersion {NATURAL})"

FORMS = {
    "ok": "ok|bad line|queued|undone|redone|fault 56 TooLong",
    "done": f"done(?: {ENTITY})*",
    "refused": f"refused (?:(?:{PLACED}){PLACE}|(?:{UNPLACED}))",
    "fault": FILE_FAULT,
    "world": f"tick {NATURAL}|gens{NUMBERS}|free{NUMBERS}|table (?:-|{NAME}(?:,{NAME})*)",
    "row": f"row {ENTITY}(?: {CELL})*|link {ENTITY}(?: {ENTITY})+|resource {NAME} {CELL}",
    "query": f"mark {NATURAL} {NATURAL}|changed {NATURAL}|added {NATURAL}|{ENTITY} {NAME}|history {NATURAL}",
}
LINE = re.compile("|".join(f"(?P<{name}>{form})" for name, form in FORMS.items()))

# What a line answers, by its first word, where that is one line; any line may be bad, and every other one is.
REFUSED = f"refused .*{PLACE}|refused (?:13|17) .*"
ANSWERS = {
    "kind": "ok|refused 3[012] .*", "load": "ok|fault .*", "undo": "undone|refused 1[357] .*", "redo": "redone|refused 1[67] .*",
    "dump": r"\{.*|fault 56 TooLong", "dumpall": r"\{.*|fault 56 TooLong", "spawn": f"queued|done {ENTITY}|{REFUSED}",
    "commit": f"done.*|{REFUSED}", "advance": f"done.*|{REFUSED}|refused 2[12] .*", "get": "row .*|refused 1 NoSuchEntity",
}  # fmt: skip
ANSWERS |= dict.fromkeys(("slots", "calls", "depth", "begin", "queue", "phase", "system", "clear", "as"), "ok")
ANSWERS |= dict.fromkeys("insert despawn remove parent unparent despawnall despawnifalive put drop".split(), f"queued|done|{REFUSED}")
ANSWERS = {word.encode(): re.compile(form.encode()) for word, form in ANSWERS.items()}


class Answer(NamedTuple):
    """What a run of the program answers."""

    status: int
    out: bytes
    err: bytes

    def lines(self):
        return self.out.split(b"\n")[:-1]

    def bad_lines(self):
        """The numbers of the bad lines that standard error tells."""
        return [int(told[1]) for told in map(BAD_LINE_TOLD.fullmatch, self.err.split(b"\n")) if told]


class Hangs(Exception):
    """That a run didn't end in its time."""


def run(program, words, given, seconds=300):
    """The answer of the program to these words and this standard input."""
    try:
        ended = subprocess.run([program, *words], input=given, capture_output=True, timeout=seconds, check=False)
    except subprocess.TimeoutExpired:
        raise Hangs(f"no end after {seconds} s") from None
    return Answer(ended.returncode, ended.stdout, ended.stderr)


def fault_of_a_script(answer):
    """What is wrong with the answer to a script, whatever its lines are, or None."""
    if answer.status == 3:
        is_good = FAULT_OF_THE_PROGRAM.fullmatch(answer.err) and not answer.out
        return None if is_good else "status 3 with another text than a fault's"
    if answer.status not in (0, 1):
        return f"status {answer.status}"
    if answer.out and not answer.out.endswith(b"\n"):
        return "the last line of output has no end"
    lines = answer.lines()
    if fault := fault_of_bad_lines(answer, lines.count(b"bad line")):
        return fault
    wrong = next((line for line in lines if not is_good_line(line)), None)
    return None if wrong is None else f"a line of no form: {wrong[:200]!r}"


def fault_of_bad_lines(answer, count):
    """Whether status and standard error tell just so many bad lines."""
    told = answer.err.split(b"\n")[:-1]
    more = MORE_BAD_LINES.fullmatch(told[-1]) if told else None
    each = told[:-1] if more else told
    if not all(BAD_LINE_TOLD.fullmatch(line) for line in each):
        return "a line of standard error has no form"
    if len(each) != min(count, 10) or (int(more[1]) if more else 0) != max(count - 10, 0):
        return f"{count} lines of output are bad, and standard error tells of others"
    return None if answer.status == (count > 0) else f"status {answer.status} with {count} bad lines"


def answers_word(word, line):
    """Whether a line with this first word may answer so."""
    return line == b"bad line" or (word in ANSWERS and bool(ANSWERS[word].fullmatch(line)))


def is_good_line(line):
    """Whether a line of output has one of the forms."""
    try:
        text = line.decode()
    except UnicodeDecodeError:
        return False
    return is_scene_text(text) if text.startswith("{") else bool(LINE.fullmatch(text))


def is_scene_text(text):
    """Whether a text is compact JSON with its keys in order, as scenes are written."""
    try:
        value = json.loads(text)
    except ValueError:
        return False
    return value.get("scene") in (1, 2) and text == json.dumps(
        value, separators=(",", ":"), sort_keys=True, ensure_ascii=False
    )
