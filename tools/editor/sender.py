"""Scripts that send lines to what a hub has open. A frame goes to its shell whole, so that no tab's work comes between,
and nobody waits for a script in the midst of one: until its end another shell, without a store, answers its lines."""
import os
from itertools import groupby

from calls import ScriptCall, whole_line
from line_requests import ENDS, is_open_behind, word_of
from played_scene import Trouble
from questions import answer_word, request
from request_forms import DECLARE, DROP_FRAME
from shell import Shell

# Of the lines of an open frame these are done, or asked of the scene's own shell, one by one.
APART = (DECLARE, *ENDS)
ELSEWHERE = "the editor has another store open"
GONE = "the editor's shell has ended, so what became of the lines isn't known"


class Unplayed(Exception):
    """Why lines have no answer, in words."""


def lines_in(content):
    """The lines of a script's bytes, as a shell takes them."""
    text = content.decode(errors="surrogateescape")
    return [whole_line(line.removesuffix("\r")) for line in text.split("\n")[:-1]]


def end_of_frame(words):
    """How many of the lines of these words belong to the frame that is open before them."""
    return next((place + 1 for place, word in enumerate(words) if word in ENDS), len(words))


def end_of_whole(words):
    """Behind how many lines no frame is open, at most. None is before them."""
    end, is_open = 0, False
    for place, word in enumerate(words):
        is_open = is_open_behind(word, is_open)
        if not is_open:
            end = place + 1
    return end


class Draft:
    """A shell without a store that answers the lines of frames that are open, each of which it drops at its end. Of the
    scene it has the kinds: all that such an answer rests on."""

    def __init__(self, program):
        self.shell, self.known = Shell(program, None, lambda _: None), 0
        self.lines = []

    def ask(self, kinds, lines):
        """The answers to lines of the open frame, the first of which begins it. Those that are bad aren't kept."""
        new = [request(DECLARE, name=name, shape=shape) for name, shape in kinds[self.known :]]
        answers = self.shell.ask([*new, *lines])[len(new) :]
        self.known = len(kinds)
        self.lines += [line for line, answer in zip(lines, answers) if answer_word(answer) in ("ok", "queued")]
        return answers

    def drop(self):
        """Drops the frame, and gives the answer to that, and the lines that it had."""
        answers, lines = self.shell.ask([request(DROP_FRAME)]), self.lines
        self.lines = []
        return answers, lines


class Sender:
    """A script that sends lines. It is session 0 until it says otherwise."""

    def __init__(self, hub):
        self.hub, self.session, self.draft = hub, 0, None

    def send(self, store, lines):
        """The answers to lines of the script, which are for a store of this path, as the shell gives them."""
        with self.hub.lock:
            if store != os.path.realpath(self.hub.store):
                raise Unplayed(ELSEWHERE)
            answers = self.hub.of_shell(lambda: self.answered(lines))
        if answers is None:
            raise Unplayed(GONE)
        return answers

    def end(self):
        """No line more comes: a frame that is open is dropped, and a scene that was loaded is seen."""
        if self.draft is not None:
            self.draft.shell.close()
        with self.hub.lock:
            self.hub.of_shell(self.hub.end_loading)

    def answered(self, lines):
        words = list(map(word_of, lines))
        is_open = self.draft is not None and self.draft.lines
        first = end_of_frame(words) if is_open else 0
        last = first + end_of_whole(words[first:])
        answers = [*self.drafted(lines[:first]), *self.played(lines[first:last])]
        if last < len(lines):
            self.begin()
            answers += self.drafted(lines[last:])
        return answers

    def played(self, lines):
        """Plays lines in the scene, outside of frames or in whole ones."""
        answers = self.hub.play(lines, self.session, sort=ScriptCall)
        if any(word_of(line) == "as" and answer_word(answer) == "ok" for line, answer in zip(lines, answers)):
            self.session = self.hub.model.turn
        return answers

    def begin(self):
        """Has what answers the lines of a frame, whose beginning ends the setup."""
        if self.hub.model.in_setup:
            self.played([f"as {self.session}"])
        if self.draft is None:
            try:
                self.draft = Draft(self.hub.program)
            except Trouble as trouble:
                raise Unplayed(str(trouble)) from None

    def drafted(self, lines):
        """The answers to lines of an open frame, of which the last may end it."""
        groups = groupby(lines, lambda line: word_of(line) if word_of(line) in APART else "")
        return [answer for word, group in groups for answer in self.drafted_alike(word, list(group))]

    def drafted_alike(self, word, lines):
        if word == "":
            return self.draft.ask(self.hub.model.kinds, lines)
        if word == DECLARE:
            return self.played(lines)
        answers, frame = self.draft.drop()
        return answers if word == DROP_FRAME else self.played([*frame, *lines])[-1:]
