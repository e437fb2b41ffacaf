"""The hub under random scripts, which two sessions play call by call: the scene of a client which applies the events
has to be what the program prints."""
import json
import random
import sys
from contextlib import contextmanager
from pathlib import Path

TOOLS = Path(__file__).resolve().parent.parent
sys.path[:0] = [str(TOOLS / "editor"), str(TOOLS)]

import timeline  # noqa: E402
from advancing import script  # noqa: E402
from asking import TEXTS, read_told  # noqa: E402
from following import Followed  # noqa: E402
from hub import Hub  # noqa: E402
from line_requests import is_open_behind, word_of  # noqa: E402
from mirrored import NODE, Mirrored  # noqa: E402
from page import exact  # noqa: E402
from random_declarations import DeclaringWriter  # noqa: E402
from random_scripts import ScriptWriter  # noqa: E402
from request_forms import request_of  # noqa: E402
from words import MOST_TEXTS, words_of_deltas  # noqa: E402

SEED = 36
CALLS_BETWEEN = 5
LINES = (10, 25, 60)
FEW_BYTES = 2_000
# Calls between those of a script. A question ends the setup as any other line does.
OTHER_CALLS = (["undo"], ["undo", "undo", "redo"], ["redo"], ["begin", "spawn", '{"do":"dropframe"}'], ['{"do":"status"}', "spawn"])
# Reasons of a `whole` event that aren't a fault of the model's.
REASONS = ("the setup changed", "the setup has ended", "frames farther off are read again")


def scene_texts():
    """The scene texts that the examples print, for scripts to load."""
    paths = sorted((TOOLS.parent / "examples").glob("*.out"))
    lines = (line for path in paths for line in path.read_bytes().split(b"\n"))
    return [line for line in lines if line.startswith(b'{"children"') and len(line) < 20_000]


def text_lines(script):
    """The lines of a script that JSON can carry."""
    for line in script:
        try:
            yield line.decode()
        except UnicodeDecodeError:
            pass


def calls_of(chance, lines):
    """The lines in calls, a frame whole in one. One that is open at the end is left open, so that it isn't sent."""
    call, is_open = [], False
    for line in lines:
        word = word_of(line)
        call.append(line)
        is_open = is_open_behind(word, is_open)
        if not is_open and chance.random() < 0.6:
            yield call
            call = []
    if call:
        yield call


def as_request(chance, line, shapes):
    """The request that stands for a line, with other texts, where there is one."""
    try:
        request = request_of(line, shapes)
    except (LookupError, TypeError, ValueError):
        request = None
    if request is None or chance.random() < 0.5:
        return line
    for cells in (each["cells"] for each in (request, *request.get("steps", ())) if "cells" in each):
        cells.update((name, chance.choice(TEXTS)) for name in cells if shapes[name] == "Text")
    if shapes.get(request.get("kind"), request.get("shape")) == "Text" and "value" in request:
        request["value"] = chance.choice(TEXTS)
    return json.dumps(request, ensure_ascii=chance.random() < 0.5)


class Client:
    """What a tab knows: all at its join, and then by events alone. `page` may be a mirror that is told the same."""

    def __init__(self, hub, page=None):
        joined = read_told(hub.join(None, None))
        self.page = page
        self.hub, self.session = hub, joined["session"]
        self.take(joined["scene"])

    def take(self, whole):
        self.cursor, self.phases, self.is_setup = whole["sequence"], whole["phases"], whole["setup"]
        self.sessions, self.frames = whole["sessions"], whole["frames"]
        self.older, self.later = whole["older"], whole["later"]
        self.world = None if whole["text"] is None else Followed(whole["text"])
        self.show(whole=whole)

    def show(self, **told):
        if self.page is not None:
            self.page.tell(**told)

    def call(self, *lines):
        return json.loads(self.hub.call(self.session, list(lines)))["answers"]

    def catch_up(self):
        """Applies what has happened."""
        for event in self.hub.events.after(self.cursor, 0):
            number, data = event.decode().removesuffix("\n\n").replace("\ndata: ", "\n").split("\n", 1)
            self.cursor += 1
            assert number == f"id: {self.cursor}", number
            self.apply(read_told(data))

    def apply(self, event):
        sort = event["sort"]
        if sort != "whole":
            self.show(event=event, record=event.get("record"))
        if sort in ("frame", "undo", "redo"):
            getattr(self, sort)(event)
        elif sort == "kinds":
            self.world.set_kinds(event["kinds"])
        elif sort in ("phases", "sessions"):
            setattr(self, sort, event[sort])
        elif sort == "whole":
            assert event["words"] in REASONS, event["words"]
            self.take(event["scene"])

    def frame(self, event):
        del self.world.records[self.world.position :], self.frames[self.world.position :]
        self.later = 0
        self.add(self.world.position, event["record"], {name: event[name] for name in ("session", "words")})
        self.world.forth()
        self.drop_older(event["dropped"])

    def undo(self, event):
        if self.world.position == 0:
            self.add(0, event["record"], event["frame"])
            self.world.position = 1
            self.older -= 1
        self.world.back()
        keep = len(self.frames) - event["dropped"]
        del self.world.records[keep:], self.frames[keep:]
        self.later += event["dropped"]

    def redo(self, event):
        if self.world.position == len(self.frames):
            self.add(self.world.position, event["record"], event["frame"])
            self.later -= 1
        self.world.forth()
        self.drop_older(event["dropped"])

    def add(self, place, record, frame):
        """A record comes that wasn't held."""
        self.world.records.insert(place, record)
        self.frames.insert(place, frame)

    def drop_older(self, count):
        del self.world.records[:count], self.frames[:count]
        self.world.position -= count
        self.older += count


def as_held(printed, world):
    """What the program prints, with the records alone that are held, which are the nearest ones."""
    undo, redo = printed["undo"], printed["redo"]
    past = world.position
    return {**printed, "undo": undo[len(undo) - past :], "redo": redo[: len(world.records) - past]}


def difference(one, other):
    """In which parts two scene texts differ."""
    return [part for part in one.keys() | other.keys() if one.get(part) != other.get(part)]


def hold(hub, clients):
    """Holds all clients to the program."""
    for client in clients:
        client.catch_up()
    if hub.model.in_setup:
        assert all(client.is_setup for client in clients)
        return 0
    printed = exact(clients[0].call("dumpall")[0]["text"])
    sides = hub.model.timeline.past, hub.model.timeline.future
    counts = [len(side.frames) for side in sides]
    assert counts == [len(printed["undo"]), len(printed["redo"])], counts
    whole = read_told(hub.whole(0, '{"sort":"whole"'))["scene"]
    for client in clients:
        world = client.world
        seen, held = world.scene(), as_held(printed, world)
        assert seen == held, f"the client of session {client.session} differs in {difference(seen, held)}"
        assert client.frames == whole["frames"] and world.position == whole["position"]
        assert client.later == whole["later"], (client.later, whole["later"])
        assert client.phases == whole["phases"] and client.sessions == whole["sessions"]
        if client.page is not None:
            client.page.hold(world, client)
    assert Followed(whole["text"]).scene() == clients[0].world.scene()
    return 1


def hold_words(hub, client):
    """Holds the words of all frames, which are asked for when they are looked at, to those of their records."""
    printed = exact(client.call("dumpall")[0]["text"])
    records = [*printed["undo"], *printed["redo"]]
    asked = hub.events.last, 1 - len(printed["undo"]), len(records)
    told = [frame["words"] for frame in json.loads(hub.frames(*asked))["frames"]]
    assert len(told) == len(records), (len(told), len(records))
    for words, record in zip(told, records):
        deltas = record["deltas"]
        said = words_of_deltas(printed["kinds"], deltas[:MOST_TEXTS], len(deltas))
        assert words == said or words[0].startswith("advance: "), (words, said)


def play(chance, hub, clients, lines):
    """Plays lines by calls of the clients by turns, and answers how often all were held to the program."""
    held = 0
    for number, call in enumerate(calls_of(chance, lines)):
        chance.choice(clients).call(*(as_request(chance, line, hub.model.shapes) for line in call))
        if chance.random() < 0.15:
            chance.choice(clients).call(*chance.choice(OTHER_CALLS))
        if number % CALLS_BETWEEN == 0:
            held += hold(hub, clients)
    return held + hold(hub, clients)


def frames_known(hub):
    whole = read_told(hub.whole(0, '{"sort":"whole"'))["scene"]
    return {part: whole[part] for part in ("frames", "position", "phases", "text", "kinds", "older", "later")}


@contextmanager
def open_hub(program, store):
    hub = Hub(program, store)
    try:
        yield hub
    finally:
        hub.close()


@contextmanager
def paged_client(hub):
    """A client with the page's own mirror, where it can run."""
    page = Mirrored() if NODE else None
    try:
        yield Client(hub, page)
    finally:
        if page is not None:
            page.close()


def written(chance, texts):
    """The lines of a random script, which may declare kinds at any time."""
    writer = chance.choice((ScriptWriter, DeclaringWriter))
    return list(text_lines(writer(chance, texts).script(chance.choice(LINES))))


def try_script(program, room, number, texts):
    """One random script, and its store opened again; how often it was held to the program, and the frames made."""
    chance = random.Random(number)
    lines = script(chance) if number % 2 else written(chance, texts)
    store = room / f"{number}.db"
    with open_hub(program, store) as hub, paged_client(hub) as paged:
        clients = [paged, Client(hub)]
        clients[0].catch_up()
        held = play(chance, hub, clients, lines)
        known = frames_known(hub)
    if hub.model.in_setup:
        return held, 0
    with open_hub(program, store) as again, paged_client(again) as client:
        if timeline.MOST_BYTES != FEW_BYTES:
            assert frames_known(again) == known, "the store, opened again, has other frames"
        hold_words(again, client)
        held += play(chance, again, [client], ["undo", "spawn", "redo", "undo", "undo", "redo", "put again Int=1"])
    return held, len(known["frames"])


@contextmanager
def limits(number):
    """Of three scripts one is held whole, and two by few records."""
    before = timeline.MOST_BYTES
    if number % 3:
        timeline.MOST_BYTES = FEW_BYTES
    try:
        yield
    finally:
        timeline.MOST_BYTES = before


def try_scripts(program, room, count):
    """Random scripts; words of how many there were."""
    held = frames = 0
    texts = scene_texts()
    for number in range(SEED, SEED + count):
        try:
            with limits(number):
                more = try_script(program, room, number, texts)
        except AssertionError as error:
            raise AssertionError(f"random script {number}: {error}") from None
        held, frames = held + more[0], frames + more[1]
    page = "the page's own scripts too" if NODE else "there is no node for the page's own scripts"
    return f"{count} random scripts were held to the program {held} times, with {frames} frames left; {page}"
