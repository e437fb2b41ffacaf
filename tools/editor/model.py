"""The scene as the editor follows it: what each step did, as the shell tells it, goes on to the tabs. The world itself
is the shell's alone."""
from typing import List, Optional, Sequence

from line_requests import read
from questions import Moved, answer_word, moved_of
from stored import Log
from texts import json_text
from timeline import Frame, Side

FAR = "frames farther off are read again"


class Model(Log):
    """In the setup, and until it is opened, only what a log tells is followed.

    `events` has what happened since they were taken, as JSON. All has to be told anew where there are `news` of the
    setup, or a `difference` between what the shell says and what is known. `text` is that of the world, or None where
    it isn't known any more."""

    def __init__(self) -> None:
        super().__init__()
        self.is_open, self.text = False, None
        self.events: List[str] = []
        self.news: Optional[str] = None
        self.difference: Optional[str] = None
        self.call_words: Optional[str] = None

    def opened(self, kinds: List[List[str]], text: str) -> None:
        """All is read, and frames are followed by their steps from now on."""
        self.kinds, self.text, self.is_open = kinds, text, True
        self.news = self.difference = None

    def lose(self, why: str) -> None:
        """Follows no steps until all is read again."""
        self.difference, self.is_open = why, False

    def requests_of_phases(self) -> List[List[dict]]:
        return [[read(line, self.shapes) for line in phase] for phase in self.phases]

    # What happens

    def hear(self, line: str, answer: str, behind: Sequence[str]) -> None:
        """Follows a line and its answer."""
        self.follow(line, answer_word(answer), behind)

    def on_setup(self) -> None:
        self.news = "the setup changed" if self.in_setup else "the setup has ended"

    def on_kind(self) -> None:
        # (the world's text has the kinds)
        self.text = None
        if self.is_open:
            self.tell({"sort": "kinds", "session": self.turn, "kinds": self.kinds})

    def on_phases(self) -> None:
        if self.is_open:
            self.tell({"sort": "phases", "session": self.turn, "phases": self.requests_of_phases()})

    def tell(self, event: dict, record: Optional[str] = None) -> None:
        """An event, with the record that comes with it on a line of its own."""
        text = json_text(event)
        self.events.append(text if record is None else f"{text}\n{record}")

    def moved(self, behind: Sequence[str]) -> Optional[Moved]:
        """What a step did; None where the model isn't open, or has to be read anew."""
        self.text = None
        if not self.is_open:
            return None
        moved = moved_of(behind) if behind else None
        if moved is None:
            self.lose("a step wasn't told")
        return moved

    def on_done(self, words: Optional[List[str]], behind: Sequence[str]) -> None:
        moved = self.moved(behind)
        if moved is None or moved.deltas is None:
            super().on_done(words, behind)
            return
        words = [self.call_words] if self.call_words else words
        frame = Frame(self.turn, words, moved.tick, moved.count, moved.deltas)
        said = frame.said(self.kinds)
        record, past = frame.record(), self.timeline.past
        self.timeline.add(frame)
        dropped = self.timeline.shrink(past) + past.cut(moved.length)
        self.tell({"sort": "frame", **said, "dropped": dropped}, record)
        self.hold(past, moved)

    def on_undone(self, behind: Sequence[str]) -> None:
        moved, timeline = self.moved(behind), self.timeline
        if moved is None:
            super().on_undone(behind)
        else:
            self.turned("undo", timeline.past, timeline.future, moved)

    def on_redone(self, behind: Sequence[str]) -> None:
        moved, timeline = self.moved(behind), self.timeline
        if moved is None:
            super().on_redone(behind)
        else:
            self.turned("redo", timeline.future, timeline.past, moved)

    def turned(self, sort: str, source: Side, target: Side, moved: Moved) -> None:
        """A frame went from one side to the other. Tabs hold the record of one that is held."""
        frame = source.pop()
        event, record = {"sort": sort, "session": self.turn}, None
        if frame.deltas is None:
            frame.tick, frame.count, frame.deltas = moved.tick, moved.count, moved.deltas
            if frame.deltas is None:
                target.push(frame)
                self.lose(FAR)
                return
            event["frame"], record = frame.said(self.kinds), frame.record()
        target.push(frame)
        dropped = self.timeline.shrink(target) + target.cut(moved.length)
        self.tell({**event, "dropped": dropped}, record)
        self.hold(target, moved)

    def hold(self, side: Side, moved: Moved) -> None:
        """Holds what is known to what the shell says."""
        nearest = side.frames[-1]
        if (len(side.frames), nearest.tick, nearest.count) != (moved.length, moved.tick, moved.count):
            self.lose("the editor and the program differed in a frame")

    def take_events(self) -> List[str]:
        events, self.events = self.events, []
        return events
