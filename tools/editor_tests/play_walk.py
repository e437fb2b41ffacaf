"""Play, Pause and Stop, which gives back the level as it was; and undo that says what it takes back, and whose."""
from agreement import hold, shown
from editor_process import LEVELS, EditorProcess, saved
from meadow_walk import CLOUD, IS_PLAYING, MEADOW
from person import Person

UNDO = "document.getElementById('undo')"
REDO = "document.getElementById('redo')"
FEW = 12


def play_some(person):
    before = person.frames()
    person.click_id("play")
    person.wait_for(lambda: person.frames() >= before + FEW, f"{FEW} frames are played", 60)


def try_stop(person):
    """Stop takes all that was played back, and redo has it again."""
    world, before = person.forest(), person.frames()
    assert person.evaluate("document.getElementById('stop').disabled"), "nothing was played yet"
    play_some(person)
    person.keep("play", "picture")
    person.click_id("pause")
    person.wait(f"!({IS_PLAYING})", "it pauses")
    play_some(person)
    person.click_id("stop")
    person.wait_status("Stopped: the level is as it was")
    person.wait_frames(before)
    assert person.forest() == world
    assert person.evaluate("document.getElementById('stop').disabled")
    person.key("]")
    person.wait_for(lambda: person.frames() == before + 1, "what was played can be done again")
    person.key("[")
    person.wait_for(lambda: person.frames() == before, "and be taken back")


def try_stop_over_edits(person, other):
    """What came beside the play is asked about first."""
    before = person.frames()
    play_some(person)
    person.click_id("pause")
    person.wait(f"!({IS_PLAYING})", "it pauses")
    # One advance may be under way, which changes that cell too.
    person.scene()
    other.send_line(f"insert {MEADOW} Life=9")
    for each in (person, other):
        each.wait_for(lambda: each.cell_text(MEADOW, "Life") == "9", "the other one edits")
    person.click_id("stop")
    person.wait("document.getElementById('ask').open", "it asks")
    assert f"ession {other.session_number()}" in person.text("ask-words"), person.text("ask-words")
    person.keep("stop_asks")
    person.click_id("ask-no")
    assert len(person.scene()["undo"]) > before
    person.click_id("stop")
    person.wait("document.getElementById('ask').open", "it asks again")
    person.click_id("ask-yes")
    person.wait_for(lambda: person.frames() == before, "all is taken back")


def try_undo_words(person, other):
    """The buttons say what they would do and whose it is, and are greyed where there is nothing; with `only mine`
    nobody else's frame is taken back."""
    person.send_line(f"insert {CLOUD} Life=3")
    person.wait_for(lambda: "Life of" in person.evaluate(f"{UNDO}.textContent"), "undo says what it takes back")
    other.send_line(f"insert {CLOUD} Life=4")
    mark = f"(session {other.session_number()})"
    person.wait_for(lambda: mark in person.evaluate(f"{UNDO}.textContent"), "undo says whose it is")
    person.keep("undo_words")
    person.click_id("only-mine")
    assert person.evaluate(f"{UNDO}.ariaDisabled") == "true"
    before = person.frames()
    person.click_id("forest")
    person.key("z", "Control")
    told = person.wait_status("only mine")
    assert f"session {other.session_number()}" in told
    assert len(person.scene()["undo"]) == before, "what is another's stays"
    person.click_id("forest")
    other.click_id("forest")
    other.key("z", "Control")
    person.wait_for(lambda: person.frames() == before - 1, "the other one undoes its own")
    person.key("z", "Control")
    person.wait_for(lambda: person.frames() == before - 2, "this one undoes its own then")
    person.click_id("only-mine")
    assert person.evaluate(f"{REDO}.ariaDisabled") == "false"
    person.click(person.strip_line(0))
    person.wait(f"{UNDO}.ariaDisabled === 'true'", "at the beginning there is nothing to take back")
    assert person.text("undo") == "Undo"


def try_play_and_undo(remote, program, room):
    store = room / "play.db"
    with EditorProcess(program, store, LEVELS / "meadow.scene") as process:
        person, other = Person(remote, process.address), Person(remote, process.address)
        for step in (try_stop, lambda each: try_stop_over_edits(each, other), lambda each: try_undo_words(each, other)):
            step(person)
            person.check()
        seen = [shown(person), shown(other)]
        person.close()
        other.close()
    for each in seen:
        hold(each, saved(program, store))
