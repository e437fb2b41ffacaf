"""What a page asks of the server beyond lines: words of a frame, cells seen before, links within a copy, frames farther
off, and the store as a file."""
import json
import sys
from pathlib import Path

TOOLS = Path(__file__).resolve().parent.parent
sys.path[:0] = [str(TOOLS / "editor"), str(TOOLS)]

from asking import TEXTS, Asker  # noqa: E402
from editor_process import EditorProcess, saved  # noqa: E402
from timeline import MOST_BYTES, Frame, Timeline  # noqa: E402

SCRIPT = "kind Name Text\nkind Health Int\nkind Aim Link\nspawn Name=cat Health=9\n"
BAD = (
    {"words": ""}, {"words": "a\nb"}, {"words": 1}, {"seen": 1}, {"seen": [["0v1", "Health"]]}, {"seen": [[1, 2, 3]]},
)  # fmt: skip
BAD_NAMES = ("", ".", "..", "../x.db", "a/b", "/tmp/x", ".hidden", "-x", "a\0b", "a\nb", "x.db-wal", "x ", "x" * 200)


def call(asker, *lines, **more):
    return asker.post("call", {"session": asker.session, "lines": list(lines), **more})


def newest(stream):
    return stream.until("frame")[-1]["words"]


def try_words(asker, stream):
    """A frame has the words that its call gives, and else those of its deltas."""
    call(asker, "begin", "insert 0v1 Health=1", "insert 0v1 Health=2", "commit", words="heal the cat twice")
    assert newest(stream) == ["heal the cat twice"]
    call(asker, "insert 0v1 Health=3")
    assert newest(stream) == ["Health of 0v1 is 3"]
    for more in BAD:
        status, _, _ = asker.ask("POST", "call", {"session": asker.session, "lines": ["spawn"], **more})
        assert status == 400, more


def try_seen(asker, stream):
    """Nothing is done where a cell has changed since it was seen."""
    tick = asker.call("get 0v1")[0]["cells"]["Health"][2]
    answer = call(asker, "insert 0v1 Health=4", seen=[["0v1", "Health", tick - 1]])
    assert answer == {"stale": ["0v1", "Health"]}, answer
    assert asker.call("get 0v1")[0]["cells"]["Health"][0] == 3
    answer = call(asker, "insert 0v1 Health=4", seen=[["0v1", "Health", tick], ["0v1", "Aim", 1], ["7v7", "Health", 1]])
    assert answer["answers"][0]["answer"] == "done", answer
    newest(stream)


def try_own_links(asker, stream):
    """A link `+K` in a spawn is the entity of the K-th spawn, also where an index was used before; in no Link it is
    text."""
    asker.call("spawn Name=dog", "spawn Name=cow", "despawn 1v1", "despawn 2v1")
    cells = {"Aim": "+2"}, {"Aim": "+0", "Name": "+0"}, {"Aim": "+1"}
    spawns = [json.dumps({"do": "spawn", "cells": each}) for each in cells]
    answer = call(asker, "begin", *spawns, "commit")["answers"][-1]
    one, two, three = answer["entities"]
    rows = [asker.call(f"get {entity}")[0]["cells"] for entity in (one, two, three)]
    assert [row["Aim"][0] for row in rows] == [three, one, two], (answer, rows)
    assert rows[1]["Name"][0] == "+0"
    assert call(asker, '{"do":"spawn","cells":{"Aim":"+5"}}')["answers"][0]["answer"] == "bad", "no such spawn"
    lines = "begin", f"despawn {three}", '{"do":"spawn","cells":{"Aim":"+0"}}', "commit"
    (again,) = call(asker, *lines)["answers"][-1]["entities"]
    assert asker.call(f"get {again}")[0]["cells"]["Aim"][0] == again, "the index was free only within the frame"
    asker.call(*["undo"] * 6)
    stream.until("undo")


def request(word, **keys):
    return json.dumps({"do": word, **keys}, ensure_ascii=False)


def try_texts(asker, stream):
    """Any text is kept as it was said, and stands in quotes in the words of its frame."""
    for text in TEXTS:
        answer = call(asker, request("insert", entity="0v1", kind="Name", value=text))["answers"][0]
        assert answer["answer"] == "done", (text, answer)
        assert newest(stream) == [f"Name of 0v1 is {json.dumps(text, ensure_ascii=False)}"]
        assert asker.call(request("get", entity="0v1"))[0]["cells"]["Name"][0] == text
    asker.call(*["undo"] * len(TEXTS))


def try_requests(asker, stream):
    """A request is as its line: it has a frame, is kept from tabs, or is bad; and a refusal names the command."""
    frame = request("begin"), request("spawn", cells={"Name": "a b"}), request("parent", child="+0", parent="0v1")
    assert asker.told(*frame, request("commit")) == ["ok", "queued", "queued", "done"]
    assert newest(stream) == ['spawn Name="a b" as 1v1', "1v1 goes below 0v1"]
    assert asker.told(request("undo"), request("as", session=3), request("mark")) == ["undone", "bad", "bad"]
    assert asker.told(request("begin"), "spawn") == ["bad", "bad"], "the frame has no end"
    assert asker.told('{"do":"begin","x":1}', "{", '{"do":["undo"]}', "spawn") == ["bad", "bad", "bad", "done"]
    lines = request("begin"), request("spawn", cells={}), "despawn 7v7", request("commit")
    refused = asker.call(*lines)[-1]
    assert refused["name"] == "NoSuchEntity" and refused["request"] == {"do": "despawn", "entity": "7v7"}, refused
    refused = asker.call(request("put", name="a b", shape="Int", value=1))[0]
    assert refused["name"] == "BadName" and refused["request"]["name"] == "a b", refused
    asker.call("undo")
    stream.until("undo")
    stream.until("undo")


def try_kinds(asker, stream):
    """A kind comes at any time, also in a frame that is dropped: it makes no frame, tabs are told, and no undo takes
    it."""
    declare = [request("declare", name=name, shape="Int") for name in ("Mood", "Age", "Luck")]
    assert asker.told(declare[0], "insert 0v1 Mood=3") == ["ok", "done"]
    assert stream.until("kinds")[-1]["kinds"][-1] == ["Mood", "Int"]
    assert newest(stream) == ["Mood of 0v1 is 3"]
    assert asker.told("begin", declare[1], request("dropframe"), "undo") == ["ok", "ok", "ok", "undone"]
    assert stream.until("undo")[-2]["kinds"][-2:] == [["Mood", "Int"], ["Age", "Int"]]
    refused = asker.call("begin", "queue", declare[2], "put a Int=1", "despawn 7v7", "commit")[-1]
    assert refused["request"] == {"do": "despawn", "entity": "7v7"}, "a kind begins no queue"
    refused = asker.call(declare[0])[0]
    assert refused["name"] == "KindTaken" and refused["request"]["name"] == "Mood", refused
    scene = asker.join(tab="front")["scene"]
    assert [name for name, _ in scene["text"]["kinds"]] == ["Name", "Health", "Aim", "Mood", "Age", "Luck"]


def try_places():
    """Frames are told by their places from now, also those whose records aren't held any more."""
    timeline = Timeline()
    for number in range(1, 11):
        timeline.add(Frame(1, [f"frame {number}"], number - 1, 1, "x" * (MOST_BYTES // 4)))
        timeline.shrink(timeline.past)
    past = timeline.past
    assert (past.far, past.held, past.size) == (6, 4, MOST_BYTES), (past.far, past.held)
    timeline.future.push(past.pop())
    places = timeline.places_from
    told = lambda first, count: [timeline.frame_at(at).words[0] for at in places(first, count)]  # noqa: E731
    assert told(0, 1) == ["frame 9"] and told(1, 5) == ["frame 10"] and told(-8, 2) == ["frame 1", "frame 2"]
    assert places(-20, 14).start == -8 and told(-20, 14) == ["frame 1", "frame 2"]
    assert told(-20, 5) == [] and told(2, 5) == []
    assert past.cut(3) == 0 and (past.far, past.held) == (0, 3) and past.cut(1) == 2 and past.held == 1
    past.fit(3)
    assert (past.far, past.held, past.size) == (2, 1, MOST_BYTES // 4)


def try_frames(asker):
    """A tab is told of frames as of the events that it has seen."""
    scene = asker.join(tab="front")["scene"]
    asked = {"after": scene["sequence"], "first": 1 - scene["position"], "count": 2}
    told = asker.post("frames", asked)
    assert told["frames"][0]["words"][0].startswith('spawn Name="cat"') and len(told["frames"]) == 2, told
    assert asker.post("frames", {**asked, "after": scene["sequence"] - 1}) == {"again": True}
    assert asker.ask("POST", "frames", {"after": 1, "first": "0", "count": 1})[0] == 400


def try_names(asker, room):
    """A name that is no file's of this folder, or another's place, is refused, and nothing is made."""
    before = sorted(path.name for path in room.iterdir())
    for name in BAD_NAMES:
        for what in ("new", "open", "save", "backup"):
            assert "refused" in asker.post("file", {"what": what, "name": name}), (what, name)
    for what in ("new", "save", "backup"):
        assert "is there already" in asker.post("file", {"what": what, "name": "front.scene"})["refused"]
    for name in ("front.scene", "nothing.db"):
        assert "no store" in asker.post("file", {"what": "open", "name": name})["refused"]
    assert "refused" in asker.post("file", {"what": "jump", "name": "x.db"})
    assert asker.ask("POST", "file", {"what": 1, "name": ""})[0] == 400
    assert sorted(path.name for path in room.iterdir() if "-" not in path.name) == [n for n in before if "-" not in n]


def try_files(asker, room):
    """A backup, another store, and the first again; and what is exported."""
    assert asker.post("file", {"what": "backup", "name": "copy.db"}) == {}
    assert asker.post("file", {"what": "list", "name": ""})["stores"] == ["copy.db", "front.db"]
    assert asker.post("file", {"what": "open", "name": "copy.db"}) == {}
    scene = asker.join(tab="front")["scene"]
    assert scene["store"] == "copy.db" and scene["text"]["tables"], scene["store"]
    asker.call("spawn Name=only_here")
    assert asker.post("file", {"what": "open", "name": "front.db"}) == {}
    assert asker.post("file", {"what": "compact", "name": ""}) == {}
    status, headers, text = asker.ask("GET", "export?what=dumpall")
    assert status == 200 and json.loads(text) == asker.text() and b"only_here" not in text
    assert headers["Content-Disposition"] == 'attachment; filename="front.scene.json"'
    assert asker.ask("GET", "export?what=show")[0] == 400
    (room / "damaged.db").write_bytes(b"SQLite format 3\0" + b"\1" * 5000)
    assert "refused" in asker.post("file", {"what": "open", "name": "damaged.db"})
    assert asker.join(tab="front")["scene"]["store"] == "front.db", "it stays at the store that can be used"
    assert asker.told("get 0v1") == ["row"]


def try_front(program, room):
    try_places()
    script, store = room / "front.scene", room / "front.db"
    script.write_text(SCRIPT)
    with EditorProcess(program, store, script) as editor:
        asker = Asker(editor.address)
        stream = asker.events(asker.join(tab="front")["scene"]["sequence"])
        for tried in (try_words, try_seen, try_own_links, try_texts, try_requests, try_kinds):
            tried(asker, stream)
        stream.close()
        try_names(asker, room)
        try_files(asker, room)
        try_frames(asker)
    assert b"only_here" not in json.dumps(saved(program, store)).encode()
    return "frames had words and any texts, links of copies went to copies, nothing stale was written, and stores were changed"
