"""Between tabs and the shell: one lock, one shell, and what is known of its scene."""
import json
import sys
import threading
import time
from collections import deque
from itertools import islice

from calls import Call
from events import Events, event_bytes
from files import Files
from model import FAR, Model
from own_links import OwnLinks
from played_scene import Trouble
from questions import get_of
from reading import read_all, read_words, scene_text
from sessions import Sessions
from setup_end import place_of_end
from shell import Gone, Shell
from stored import log_of, store_fault
from texts import exact_text, json_text, with_part
from timeline import Timeline

MOST_BEGUN, SECONDS_BEGUN = 2, 10
SECONDS_TO_CLOSE = 5
SCRIPTS_TURN = "as 0"


def end_loaded_setup(shell, model):
    """Ends a setup in which a scene was loaded: its kinds are complete, and it is to be seen."""
    if model.in_setup and model.is_loaded:
        model.hear(SCRIPTS_TURN, *shell.ask([SCRIPTS_TURN]), ())


class Hub:
    """What tabs ask, each call under the lock. What it answers is JSON text. `address_file`, if there is one, is put
    beside each store that is opened."""

    def __init__(self, program, store, address_file=None):
        self.program, self.store, self.address_file = program, store, address_file
        self.lock, self.stopped = threading.Lock(), threading.Event()
        self.events, self.sessions = Events(), Sessions()
        self.begun = deque(maxlen=MOST_BEGUN)
        self.model, self.shell, self.is_here = None, None, False
        self.files = Files(self)
        with self.lock:
            self.begin()
        self.keeper = threading.Thread(target=self.keep, daemon=True)
        self.keeper.start()

    # The shell

    def begin(self):
        """Begins a shell on the store, and reads what it has."""
        model = Model()
        with log_of(self.program, self.store) as log:
            shell = Shell(self.program, self.store, self.shell_ended)
            try:
                model.read(log())
                self.read_store(shell, model)
            except (Gone, Trouble) as trouble:
                shell.close()
                if isinstance(trouble, Trouble):
                    raise
                raise store_fault(self.store, b"".join(shell.told)) from None
        self.model, self.shell, self.is_here = model, shell, True
        if self.address_file is not None:
            self.address_file.put(self.store)

    @staticmethod
    def read_store(shell, model):
        # An empty line ends no setup, and tells whether the store could be opened.
        shell.ask([""])
        end_loaded_setup(shell, model)
        if not model.in_setup:
            read_all(shell, model)
        model.news = None

    def let_go(self):
        """Ends the shell as one that isn't begun again."""
        shell, self.shell, self.is_here = self.shell, None, False
        if shell is not None:
            shell.close()

    def go_to(self, store, words):
        """Goes to another store, or to the same again; where that can't be used, it stays at the one before."""
        before = self.store
        self.let_go()
        self.store = store
        try:
            self.begin()
        except Trouble:
            self.go_back_to(before)
            raise
        self.tell_whole(words)

    def go_back_to(self, store):
        self.store = store
        try:
            self.begin()
        except Trouble as trouble:
            self.is_gone(f"{trouble}; it isn't begun again".replace("\n", ": "))
        else:
            self.tell_whole("the store is as it was")

    def shell_ended(self, shell):
        """The shell has ended by itself: another one is begun, twice at most within some seconds."""
        if self.stopped.is_set() or shell is not self.shell:
            # who ends it has the lock, and waits
            return
        with self.lock:
            if shell is self.shell and not self.stopped.is_set():
                self.begin_again(shell.end_words())

    def is_gone(self, words):
        self.shell, self.is_here = None, False
        self.tell({"sort": "shell", "state": "gone", "words": words})
        print(f"scene: edit: {words}", file=sys.stderr, flush=True)

    def begin_again(self, words):
        self.is_gone(words)
        while self.may_begin():
            self.begun.append(time.monotonic())
            try:
                self.begin()
            except Trouble as trouble:
                words = str(trouble).replace("\n", ": ")
                continue
            self.tell({"sort": "shell", "state": "here", "words": "the shell is here again"})
            self.tell_whole("the shell ended and was begun again")
            return
        self.is_gone(f"{words}; it isn't begun again")

    def may_begin(self):
        return len(self.begun) < MOST_BEGUN or time.monotonic() - self.begun[0] > SECONDS_BEGUN

    # Events

    def tell(self, event):
        self.events.add(json_text(event))

    def tell_whole(self, words):
        self.events.add(self.whole(self.events.last + 1, f'{{"sort":"whole","words":{json_text(words)}'))

    def world_text(self):
        """The text of the world, or None where there is none now."""
        model = self.model
        if model.text is None and model.is_open and self.is_here:
            try:
                text = scene_text(self.shell, "dump")
                model.text = text and exact_text(text)
            except Gone:
                # who listens for its end tells it
                pass
        return model.text

    def whole(self, sequence, begun):
        """All that a tab has to know, as lines of JSON: first an object that begins so and has the rest as its `scene`,
        and then each record that is held, which a page reads where it needs it."""
        model, world = self.model, self.world_text()
        timeline = model.timeline if world is not None else Timeline()
        past, future = timeline.past, timeline.future
        told = json_text({
            "sequence": sequence,
            "kinds": model.kinds,
            "setup": model.in_setup,
            "frames": [frame.said(model.kinds) for frame in timeline.near()],
            "position": past.held,
            "older": past.far,
            "later": future.far,
            "phases": model.requests_of_phases(),
            "sessions": self.sessions.numbers(),
            "shell": "here" if self.is_here else "gone",
            "store": self.store.name,
        })  # fmt: skip
        scene = with_part(told, "text", "null" if world is None else world)
        return "\n".join([f'{begun},"scene":{scene}}}', *(frame.record() for frame in timeline.near())])

    def whole_event(self):
        """All, for a stream whose cursor is too old, and the cursor of it."""
        with self.lock:
            last = self.events.last
            text = self.whole(last, '{"sort":"whole","words":"too much has happened since"')
        return last, event_bytes(last, text)

    # Sessions

    def tell_sessions(self):
        self.tell({"sort": "sessions", "sessions": self.sessions.numbers()})

    def join(self, tab, wanted):
        """Gives a tab its session. `tab` is an id by which it has the same one again, or None."""
        with self.lock:
            session = self.sessions.join(tab, wanted)
            if session is None:
                return json_text({"refused": "seven tabs are open at most"})
            self.tell_sessions()
            seat = self.sessions.seats[session].number
            return self.whole(self.events.last, f'{{"session":{session},"seat":{seat}')

    def leave(self, seat):
        with self.lock:
            if self.sessions.leave(seat):
                self.tell_sessions()

    def seat(self, session):
        """The place of a tab, which may have been away so long that it was free."""
        if session not in self.sessions.seats:
            self.sessions.take_again(session)
            self.tell_sessions()
        return self.sessions.seats[session]

    def stream_opened(self, session):
        with self.lock:
            seat = self.seat(session)
            seat.opened()
            return seat

    def stream_closed(self, seat):
        with self.lock:
            seat.closed()

    def keep(self):
        """Each second frees the sessions of tabs that are gone, and looks whether the shell has ended unheard."""
        while not self.stopped.wait(1):
            with self.lock:
                if self.sessions.free_left():
                    self.tell_sessions()
                ended = self.shell is not None and self.shell.has_ended
            if ended:
                self.shell_ended(self.shell)

    # Calls

    def call(self, session, lines, words=None, seen=()):
        """Plays a session's lines as one, and answers them. `words` are those of the frame that they make; nothing is
        done where a cell of `seen` has changed since it was."""
        with self.lock:
            self.seat(session)
            told = self.of_shell(lambda: self.called(session, lines, words, seen))
            return json_text({"gone": True}) if told is None else told

    def of_shell(self, ask):
        """What a call of the shell answers, or None where that is gone."""
        if not self.is_here:
            return None
        try:
            return ask()
        except Gone:
            return None
        except Trouble as trouble:
            shell = self.shell
            self.is_gone(f"{trouble}; it isn't begun again")
            shell.close()
            return None

    def called(self, session, lines, words, seen):
        stale = self.first_stale(seen)
        if stale is not None:
            return json_text({"stale": stale})
        answers = self.play(self.with_own_links(lines), session, words)
        return f'{{"answers":[{",".join(map(exact_text, answers))}]}}'

    def first_stale(self, seen):
        """The first of cells, each an entity, a kind and the tick of its change, that has changed since; or None."""
        if not self.model.is_open:
            return None
        rows = self.shell.ask([get_of(entity) for entity, _, _ in seen])
        for (entity, kind, tick), row in zip(seen, rows):
            cell = json.loads(row).get("cells", {}).get(kind)
            if cell is not None and str(cell[2]) != str(tick):
                return entity, kind
        return None

    def with_own_links(self, lines):
        """The lines with entities for links `+K` of a copy within itself."""
        links = OwnLinks(self.model.shapes, lines)
        if not links.found or not self.model.is_open:
            return lines
        world = scene_text(self.shell, "dump")
        return lines if world is None else links.lines_in(self.program, world)

    def frames(self, after, first, count):
        """So many frames from one on, for a tab that has seen all events up to one: 0 is the newest of the past, and 1
        the next of the future. Tells which is the first of those that there are, too."""
        with self.lock:
            if after != self.events.last or not self.model.is_open or not self.is_here:
                return json_text({"again": True})
            places = self.model.timeline.places_from(first, count)
            try:
                read_words(self.shell, self.model, places)
            except Gone:
                return json_text({"again": True})
            frames = [self.model.timeline.frame_at(place).said(self.model.kinds) for place in places]
            return json_text({"first": places.start, "frames": frames})

    def scene_text(self, line):
        """The scene text that a line prints, or None where there is none."""
        with self.lock:
            if not self.is_here or self.model.in_setup:
                return None
            try:
                return scene_text(self.shell, line)
            except Gone:
                return None

    def place_of_end(self, lines):
        return place_of_end(self.program, self.model.kinds, lines)

    def play(self, lines, session, words=None, sort=Call):
        """Plays the lines of a session by a call of a sort, and answers them as JSON."""
        model, timeline = self.model, self.model.timeline
        turn = f"as {session}" if session != model.turn else None
        held = timeline.past.held, timeline.future.held
        call = sort(lines, turn, held, self.place_of_end if model.in_setup else None)
        if call.sent:
            model.call_words = words
            answers = iter(self.shell.ask(call.to_ask()))
            for sent in call.sent:
                answer, *behind = islice(answers, 1 + len(sent.behind))
                model.hear(sent.line, answer, behind)
                call.answer(sent, answer)
            if call.ends_loading:
                end_loaded_setup(self.shell, model)
            self.settle()
        return call.told(model.shapes)

    def end_loading(self):
        """Has a scene that was loaded be seen."""
        end_loaded_setup(self.shell, self.model)
        self.settle()

    def settle(self):
        """Tells what happened; where it isn't known, all is read and told again."""
        model = self.model
        for event in model.take_events():
            self.events.add(event)
        words = model.difference or model.news
        if words is None:
            return
        if model.difference not in (None, FAR):
            print(f"scene: edit: {words}; all is read again", file=sys.stderr, flush=True)
        if not model.in_setup:
            read_all(self.shell, model)
        model.news = None
        self.tell_whole(words)

    def close(self):
        """Ends the shell and all streams."""
        self.stopped.set()
        has_lock = self.lock.acquire(timeout=SECONDS_TO_CLOSE)
        self.events.close()
        shell = self.shell
        if shell is not None:
            if not has_lock:
                # A call waits for it: it hangs, and so wouldn't end by the end of its input.
                shell.process.kill()
            shell.close()
        if self.address_file is not None:
            self.address_file.remove()
        if has_lock:
            self.lock.release()
        self.keeper.join(SECONDS_TO_CLOSE)
