"""Tabs as sessions, and their streams of events: seven at most, slow ones, those that are gone, and those that come
again."""
import sys
import time
from pathlib import Path

TOOLS = Path(__file__).resolve().parent.parent
sys.path[:0] = [str(TOOLS / "editor"), str(TOOLS)]

from asking import Asker  # noqa: E402
from editor_process import EditorProcess  # noqa: E402
from events import MOST_BYTES, MOST_EVENTS, Events  # noqa: E402
from sessions import SECONDS_TO_LISTEN, TABS, Sessions  # noqa: E402

SCRIPT = "kind Name Text\nkind Health Int\nspawn Name=cat Health=9\n"
MANY, LINES, RELOADS = 20_000, 300, 24
# Six to eight, but for the delays of a machine on which many processes run.
SECONDS_TO_FREE = 20


def try_seven(editor):
    """Seven tabs have a session each; one that leaves, or whose stream is closed, makes room."""
    tabs = [Asker(editor.address) for _ in range(8)]
    # (who listens doesn't give way, however long this takes)
    streams = {tab.join()["session"]: tab.events() for tab in tabs[:7]}
    assert list(streams) == [1, 2, 3, 4, 5, 6, 7]
    for tab in (None, "eighth"):
        assert tabs[7].join(tab=tab) == {"refused": "seven tabs are open at most"}
    tabs[3].leave()
    assert tabs[7].join()["session"] == 4
    assert "refused" in tabs[3].join(session=2)
    streams[2].close()
    told = wait_for_sessions(streams[1], [1, 3, 4, 5, 6, 7])
    assert 3 < told < SECONDS_TO_FREE, f"a session was free after {told:.1f} s"
    tabs[5].leave()
    assert tabs[3].join(session=6)["session"] == 6, "the session that is wanted was free"
    assert tabs[1].join(session=6)["session"] == 2, "the session that is wanted is another tab's"
    for stream in streams.values():
        stream.close()


def try_reloads(editor):
    """A tab that is loaded anew has its session again, however often: also while its old page listens on, and where
    that page's leave comes late or never."""
    other, tab, streams = Asker(editor.address), Asker(editor.address), []
    assert [other.join(tab="other")["session"], tab.join(tab="tab")["session"]] == [1, 2]
    for reload in range(RELOADS):
        seat = tab.seat
        if reload % 3 == 0:
            streams.append(tab.events())
        if reload % 4 == 0:
            tab.leave()
        assert tab.join(tab="tab")["session"] == 2, f"reload {reload}"
        if reload % 4 == 2:
            tab.post("leave", {"seat": seat})
    for stream in streams:
        stream.close()
    assert other.join(tab="other")["scene"]["sessions"] == [1, 2]
    tab.leave()
    assert other.join(tab="other")["scene"]["sessions"] == [1]


def try_reserved(editor):
    """The session of a tab that is gone is its own, until all others are taken; then that of the tab gone longest is
    had first."""
    tabs, streams = [Asker(editor.address) for _ in range(9)], []

    def session_of(number, **words):
        """The session that a tab gets, which listens then."""
        session = tabs[number].join(**words or {"tab": f"tab {number}"})["session"]
        streams.append(tabs[number].events())
        return session

    assert [session_of(number) for number in (1, 2, 3)] == [1, 2, 3]
    tabs[2].leave()
    tabs[1].leave()
    assert [session_of(number) for number in (4, 5, 6, 7)] == [4, 5, 6, 7]
    assert session_of(1) == 1
    tabs[1].leave()
    assert session_of(8, session=1) == 2, "the second tab was gone longer than the first"
    assert session_of(1) == 1
    assert "refused" in tabs[2].join(tab="tab 2")
    for stream in streams:
        stream.close()


def try_giving_way():
    """Where all are taken, a page that never listened, as one that was loaded anew, gives way after some seconds; one
    that listens doesn't."""
    sessions = Sessions()
    for number in TABS:
        sessions.join(f"tab {number}", None)
    assert sessions.join("new", None) is None
    for number in (2, 3):
        sessions.seats[number].taken_at -= SECONDS_TO_LISTEN + 1
    sessions.seats[2].opened()
    assert sessions.join("new", None) == 3 and sessions.join("newer", None) is None


def wait_for_sessions(stream, wanted):
    since = time.monotonic()
    while stream.until("sessions")[-1]["sessions"] != wanted:
        pass
    return time.monotonic() - since


def try_cursors(editor):
    """A stream goes on behind a cursor, also by `Last-Event-ID`; one that is too old, or of no event, gets all."""
    tab = Asker(editor.address)
    begun = tab.join()["scene"]["sequence"]
    # While it listens, the session isn't free for a moment, which would be an event.
    listening = tab.events(begun)
    tab.call("insert 0v1 Health=1", "insert 0v1 Health=2", "undo", "redo")
    for stream in (tab.events(begun), tab.events(0, {"Last-Event-ID": str(begun)})):
        found = [stream.next() for _ in range(4)]
        assert [number for number, _ in found] == [begun + more for more in range(1, 5)], found
        assert [event["sort"] for _, event in found] == ["frame", "frame", "undo", "redo"]
        stream.close()
    stream = tab.events(10**9)
    number, whole = stream.next()
    assert whole["sort"] == "whole" and number == whole["scene"]["sequence"] == begun + 4, number
    stream.close()
    listening.close()


def try_kept_events():
    """The last events alone are kept, by number and by size, and the last one whatever its size is."""
    events = Events()
    for number in range(MOST_EVENTS + 5):
        events.add(str(number))
    assert events.after(4, 0) is None and events.after(events.last + 1, 0) is None
    kept = events.after(5, 0)
    assert len(kept) == MOST_EVENTS and kept[0] == b"id: 6\ndata: 5\n\n" and events.after(events.last, 0) == []
    for _ in range(3):
        events.add("x" * (MOST_BYTES // 2))
    assert len(events.after(events.last - 1, 0)) == 1 and events.after(events.last - 2, 0) is None
    events.add("x" * (2 * MOST_BYTES))
    assert len(events.after(events.last - 1, 0)) == 1


def try_slow(editor):
    """A tab that never reads its events holds nobody up, nor does a large call stop in a pipe."""
    slow, quick = Asker(editor.address), Asker(editor.address)
    slow.join()
    begun = quick.join()["scene"]["sequence"]
    unread = slow.events()
    long = "x" * 500
    answers = quick.told("begin", *[f"spawn Name={long}"] * MANY, "commit")
    assert answers == ["ok", *["queued"] * MANY, "done"]
    assert quick.told(*["show"] * 3) == ["world"] * 3
    assert quick.told(*["spawn Health=1"] * LINES) == ["done"] * LINES
    stream = quick.events(begun)
    records = [stream.until("frame")[-1]["record"] for _ in range(LINES + 1)]
    assert len(records[0]["deltas"]) == MANY and records[-1]["after"] == records[0]["after"] + LINES
    unread.close()
    stream.close()


def try_together(editor):
    """Two tabs at once: a refusal is told to who asked alone, a frame to both, and each has its own name in it."""
    tabs = [Asker(editor.address) for _ in range(2)]
    for tab in tabs:
        tab.join()
    streams = [tab.events(tabs[1].scene["sequence"]) for tab in tabs]
    assert tabs[0].told("insert 0v9 Health=1") == ["refused"]
    assert tabs[1].told("insert 0v1 Health=4") == ["done"]
    assert tabs[0].told("undo") == ["undone"]
    for stream in streams:
        events = [event for event in (stream.next()[1] for _ in range(2))]
        assert [(event["sort"], event["session"]) for event in events] == [
            ("frame", tabs[1].session), ("undo", tabs[0].session)
        ], events  # fmt: skip
        assert events[0]["words"] == ["Health of 0v1 is 4"]
        stream.close()


def try_tabs(program, room):
    script = room / "tabs.scene"
    script.write_text(SCRIPT)
    try_kept_events()
    try_giving_way()
    for tried in (try_seven, try_reloads, try_reserved, try_cursors, try_slow, try_together):
        with EditorProcess(program, room / f"{tried.__name__}.db", script) as editor:
            try:
                tried(editor)
            except AssertionError as error:
                raise AssertionError(f"{tried.__name__}: {error}") from None
    slow = f"calls of {MANY:,} lines and a tab that never read stopped nobody"
    return f"seven tabs had a session each, also when they were loaded anew, and {slow}"
