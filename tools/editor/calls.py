"""What of a session's call goes to the shell, and in which order: its own lines, and behind each that may change the
world the questions that tell what it did."""
import json
from dataclasses import dataclass
from typing import Callable, Dict, List, Optional, Tuple

from commands import FRAMES, TURNS
from line_requests import is_open_behind, read, word_of
from questions import answer_word, behind
from request_forms import DROP_FRAME, QUESTIONS
from texts import compact

KEPT_FROM_TABS = {
    "as": "each tab is a session of its own",
    "mark": "the editor keeps the cursor",
    "changed": "the editor keeps the cursor",
    "added": "the editor keeps the cursor",
}
UNBALANCED = "the lines aren't balanced: each begin needs its commit, and nothing was done"
EndsAt = Callable[[List[str]], Optional[int]]
ASKING = frozenset(("", "get", "show", "history", "dump", "dumpall", DROP_FRAME, *QUESTIONS))


@dataclass
class Sent:
    """A line that goes to the shell, its place in the call, or None for one of the hub's own, and the questions that go
    behind it."""

    line: str
    place: Optional[int]
    behind: Tuple[str, ...] = ()


def refusal(line: str, word: str) -> Optional[str]:
    """Why a line isn't sent, or None."""
    if "\n" in line:
        return "a line has no line break"
    try:
        line.encode()
    except UnicodeEncodeError:
        return "the line is no Unicode text"
    return KEPT_FROM_TABS.get(word)


def is_balanced(words: List[str]) -> bool:
    """Whether each `begin` has its `commit`, or is dropped, and there is no other `commit`."""
    is_open = False
    for word in words:
        if word == "begin" and is_open or word == "commit" and not is_open:
            return False
        is_open = is_open_behind(word, is_open)
    return not is_open


def whole_line(line: str) -> str:
    """A line as it is sent: the shell drops a carriage return at its end, but for a space behind it."""
    return f"{line} " if line.endswith("\r") else line


class ScriptCall:
    """A script's lines, each sent as it is: what is sent, and its answers as JSON. `turn` is a line to send before
    those that do more than ask, if one is needed; it is kept in the store, as they are. `held` says how many frames can
    be undone, and redone, whose records are held. `ends_at` is for the setup alone: it gives of lines the place of that
    which ends it, before which there can be no turn. `ends_loading` says that a scene which was loaded is seen behind
    the call, which ends the setup: of a script further lines of the setup may come."""

    ends_loading = False

    def __init__(self, lines: List[str], turn: Optional[str], held: Tuple[int, int], ends_at: Optional[EndsAt]) -> None:
        self.held = dict(zip(TURNS, held))
        self.lines = list(map(whole_line, lines))
        self.words = list(map(word_of, self.lines))
        self.answers = self.refusals()
        self.sent: List[Sent] = []
        self.send([place for place, answer in enumerate(self.answers) if answer is None], turn, ends_at)

    def refusals(self) -> List[Optional[str]]:
        """The answers to lines that aren't sent, and None for each of the others."""
        return [None] * len(self.lines)

    def send(self, own: List[int], turn: Optional[str], ends_at: Optional[EndsAt]) -> None:
        setup, rest = ([], own) if turn is None or ends_at is None else self.parted(own, ends_at)
        self.sent = [Sent(self.lines[place], place) for place in setup]
        if turn is not None and any(self.words[place] not in ASKING for place in rest):
            self.sent.append(Sent(turn, None))
        # in the setup the hub asks nothing, since that would end it
        questions = self.questions(rest) if ends_at is None else [()] * len(rest)
        self.sent += [Sent(self.lines[place], place, asked) for place, asked in zip(rest, questions)]

    def parted(self, own: List[int], ends_at: EndsAt) -> Tuple[List[int], List[int]]:
        """The places of the lines of the setup, and of those behind it."""
        end = ends_at([self.lines[place] for place in own])
        return (own, []) if end is None else (own[:end], own[end:])

    def questions(self, places: List[int]) -> List[Tuple[str, ...]]:
        """The questions behind each line. While a frame is open none can be asked."""
        questions, is_open = [], False
        for word in (self.words[place] for place in places):
            is_open = is_open_behind(word, is_open)
            is_asked = not is_open and (word in FRAMES or word in TURNS)
            questions.append(behind(word, self.is_held(word)) if is_asked else ())
        return questions

    def is_held(self, word: str) -> bool:
        """Whether an undo or a redo comes to a record that is held, as far as is known before."""
        if word not in TURNS:
            return False
        self.held[word] -= 1
        return self.held[word] >= 0

    def to_ask(self) -> List[str]:
        return [line for sent in self.sent for line in (sent.line, *sent.behind)]

    def answer(self, sent: Sent, answer: str) -> None:
        if sent.place is not None:
            self.answers[sent.place] = answer

    def told(self, _: Dict[str, str]) -> List[Optional[str]]:
        """The answers as the shell gave them. The shapes are those of the kinds."""
        return self.answers


class Call(ScriptCall):
    """A tab's lines: a session of its own, whose frames are whole, and which is told what was refused."""

    ends_loading = True

    def refusals(self) -> List[Optional[str]]:
        answers = [refused(line, word) for line, word in zip(self.lines, self.words)]
        if answers and answers[0]:
            return answers[:1] * len(answers)
        return answers if is_balanced(self.words) else [bad(UNBALANCED)] * len(answers)

    def told(self, shapes: Dict[str, str]) -> List[Optional[str]]:
        self.name_refused(shapes)
        return self.answers

    def name_refused(self, shapes: Dict[str, str]) -> None:
        """Gives each refusal the request that it came at."""
        for place, text in enumerate(self.answers):
            if answer_word(text) == "refused":
                answer = json.loads(text)
                answer["request"] = read(self.refused_line(place, answer.get("place")), shapes)
                self.answers[place] = compact(answer)

    def refused_line(self, place: int, at: Optional[Dict[str, int]]) -> str:
        """The line at fault of one that was refused: of a `commit` the command of its frame."""
        if self.words[place] != "commit" or at is None:
            return self.lines[place]
        return self.queues_before(place)[at["queue"]][at["command"]]

    def queues_before(self, commit: int) -> List[List[str]]:
        queues: List[List[str]] = [[]]
        begin = max(place for place in range(commit) if self.words[place] == "begin")
        for place in range(begin + 1, commit):
            answer = answer_word(self.answers[place])
            if answer == "queued":
                queues[-1].append(self.lines[place])
            elif answer == "ok" and self.words[place] == "queue":
                queues.append([])
        return queues


def bad(reason: str) -> str:
    return compact({"answer": "bad", "reason": reason})


def refused(line: str, word: str) -> Optional[str]:
    reason = refusal(line, word)
    return None if reason is None else bad(reason)
