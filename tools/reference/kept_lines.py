"""Which lines a store keeps, and what `scene log` tells of them (docs/SHELL.md, "A store")."""
import json

from line_requests import ENDS, is_open_behind, read, word_of
from reference.follower import SETUP
from request_forms import DROP_FRAME, QUESTIONS

ASKING = frozenset(("get", "show", "changed", "added", "history", "dump", "dumpall", *QUESTIONS))
# These are told only where they end the setup.
ASIDE = ASKING | {"mark", "as"}
UNTOLD = ("begin", "queue")
# The words of commands, in the order in which an account of a frame has them.
COMMAND_WORDS = "spawn insert remove despawn despawnall despawnifalive parent unparent put drop".split()
WITHOUT_FIELDS = ("answer", "number", "name", "place")


class KeptLog:
    """The entries of a log behind lines, without their numbers and moments."""

    def __init__(self):
        self.entries, self.in_setup, self.is_open, self.session = [], True, False, 0
        # What was told in the open frame, and its commands.
        self.of_frame, self.commands = [], []

    def add(self, line, answer):
        """Adds a line that was answered so."""
        word = word_of(line)
        if answer["answer"] in ("bad", "nothing") or word in ASKING and not self.in_setup:
            return
        ends_setup = self.in_setup and word not in SETUP
        self.in_setup = self.in_setup and not ends_setup
        self.is_open = is_open_behind(word, self.is_open)
        if word == "begin":
            self.commands = []
        elif answer["answer"] == "queued":
            self.commands.append((word, line))
        elif word not in UNTOLD and (word not in ASIDE or ends_setup):
            self.of_frame.append(f"as {self.session}: {self.said(word, line)} -> {in_words(word, answer)}")
        if not self.is_open:
            # A frame is kept with its end, and with it all that was done in it.
            self.entries, self.of_frame = self.entries + self.of_frame, []
        if word == "as":
            self.session = read(line, {})["session"]

    def said(self, word, line):
        if word in ENDS:
            return account(self.commands)
        if word == "load":
            return f"load of {len(read(line, {})['text'].encode())} bytes"
        return line


def account(commands):
    """The commands of a frame in few words: a single one as itself, more by their number of each word."""
    if len(commands) == 1:
        return commands[0][1]
    words = [word for word, _ in commands]
    counts = ", ".join(f"{word} {words.count(word)}" for word in COMMAND_WORDS if word in words)
    return f"frame of {len(commands)} commands" + (f": {counts}" if counts else "")


def log_of(lines, answers):
    """The entries of a log behind these lines, which were answered so."""
    log = KeptLog()
    for line, answer in zip(lines, answers):
        log.add(line, answer)
    return log.entries


def in_words(word, answer):
    """An answer as the log has it, in the first line of its text. What only ended the setup is ok, whatever was answered."""
    sort = answer["answer"]
    if word in ASIDE:
        return "ok"
    if word == DROP_FRAME:
        return "dropped"
    if sort in ("refused", "fault"):
        return refused_in_words(answer)
    return " ".join((sort, *answer.get("entities", ())))


def refused_in_words(answer):
    fields = [
        json.dumps(value, ensure_ascii=False) if key == "path" else value
        for key, value in answer.items() if key not in WITHOUT_FIELDS
    ]  # fmt: skip
    place = answer.get("place")
    at = ["at", ".".join(str(place[key]) for key in ("phase", "queue", "command"))] if place else []
    return " ".join(map(str, [answer["answer"], answer["number"], answer["name"], *fields, *at]))

