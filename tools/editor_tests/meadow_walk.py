"""The meadow: its systems step by step and at play, drawn on the canvas, and what stops them."""
import time

from agreement import hold, shown
from editor_process import LEVELS, EditorProcess, saved
from person import SHOWN, Person

MEADOW, FOUNTAIN, SKY, CLOUD, FOXGLOVE = "0v1", "1v1", "4v1", "15v1", "26v1"
LEAST_PLAYED = 8
LEAST = "-9223372036854775808"
DRAWN = "document.getElementById('canvas').toDataURL()"
# Notes the entity of the line on which the mouse's button goes down next.
NOTE_PRESS = """(() => {
  window.pressedOn = null;
  const note = ({ target }) => {
    const line = target.closest(".line");
    window.pressedOn = line?.dataset.entity ?? line?.querySelector("b")?.textContent ?? null;
  };
  addEventListener("mousedown", note, { capture: true, once: true });
})()"""
MOST_MISSES = 20
IS_PLAYING = "document.getElementById('play').ariaPressed === 'true'"


def frames(person):
    """How many frames of the past the page tells of."""
    return int(person.text("position").split(" ")[0].replace(",", ""))


def try_steps(person):
    """A step is one frame, and moves what the canvas has."""
    person.wait("document.getElementById('canvas').getClientRects().length > 0", "the canvas is shown")
    before, drawn = frames(person), person.evaluate(DRAWN)
    for step in range(1, 4):
        person.click_id("step")
        person.wait_for(lambda: frames(person) == before + step, f"step {step} is a frame")
    person.wait_for(lambda: person.evaluate(DRAWN) != drawn, "the canvas has changed")
    assert "drops" in person.text("resources")
    drawn = person.evaluate(DRAWN)
    person.select("canvas-y", "Life")
    person.wait_for(lambda: person.evaluate(DRAWN) != drawn and "Life" in person.text("canvas-words"), "Life is drawn")
    person.select("canvas-y", "Place y")


def try_play(person):
    """Play advances thirty times a second at most, until pause; then nothing comes."""
    before, begun = frames(person), time.monotonic()
    person.click_id("play")
    person.wait_for(lambda: frames(person) >= before + LEAST_PLAYED, f"{LEAST_PLAYED} frames were played", 60)
    person.click_id("pause")
    played, seconds = frames(person) - before, time.monotonic() - begun
    assert played <= 30 * seconds + 2, f"{seconds} seconds of play were {played} frames"
    person.wait(f"!({IS_PLAYING})", "it pauses")
    # One advance may be under way: what is sent after it is answered after it.
    paused = person.scene()["tick"]
    time.sleep(0.5)
    assert person.scene()["tick"] == paused, "it went on after the pause"


def click_at_play(person, name, entity):
    """Clicks on a line, which may move on before the button goes down: then the mouse goes after it. What is chosen is
    always the line on which the button went down."""
    for _ in range(MOST_MISSES):
        person.evaluate(NOTE_PRESS)
        person.click(person.line_of(name, entity), press=0.3)
        pressed = person.evaluate("window.pressedOn")
        if pressed is not None:
            person.wait_for(lambda: person.evaluate(SHOWN) == pressed, f"{pressed} is chosen by a click at play")
        if pressed == entity:
            return
    raise AssertionError(f"the mouse didn't reach the line of {entity} in {name} at {MOST_MISSES} clicks")


def try_clicks_at_play(person, other):
    """Clicks are those of their lines though all is drawn anew while the button is held."""
    person.click_id("play")
    for name, entity in (("tables", CLOUD), ("forest", FOUNTAIN), ("tables", SKY), ("forest", MEADOW)):
        for each in (person, other):
            click_at_play(each, name, entity)
    person.click_id("pause")
    person.wait(f"!({IS_PLAYING})", "it pauses")


def try_refusal(person):
    """An advance that is refused pauses the play and is told."""
    person.send_line(f"insert {FOXGLOVE} Life={LEAST}")
    person.wait_for(lambda: LEAST in person.text("changes"), "the foxglove has the least life")
    before = frames(person)
    person.click_id("play")
    told = person.wait_status("Overflow")
    assert FOXGLOVE in told, told
    person.wait(f"!({IS_PLAYING})", "a refusal pauses")
    assert frames(person) == before
    person.click_id("undo")
    person.wait_for(lambda: LEAST not in person.text("changes"), "that is undone")


def try_systems(person, other):
    """Systems are added and dropped, which the other tab sees too; one that breaks a rule is told."""
    assert any("move" in line for line in person.lines("systems"))
    person.click_id("system-clear")
    other.wait_for(lambda: not any("move" in line for line in other.lines("systems")), "no system is left")
    person.fill("system-line", "grow need=Flower,Life addint:Life:5")
    person.click_id("system-add")
    other.wait_for(lambda: any("grow" in line for line in other.lines("systems")), "a system is there")
    person.fill("system-line", "jump need=Name leap:Name")
    person.click_id("system-add")
    person.wait_status("no part of a system")
    before = frames(other)
    other.click_id("step")
    person.wait_for(lambda: frames(person) == before + 1, "the other one steps")


def try_meadow(remote, program, room):
    store = room / "meadow.db"
    with EditorProcess(program, store, LEVELS / "meadow.scene") as process:
        person, other = Person(remote, process.address), Person(remote, process.address)
        try_steps(person)
        try_play(person)
        try_clicks_at_play(person, other)
        try_refusal(person)
        try_systems(person, other)
        seen = [shown(person), shown(other)]
        person.close()
        other.close()
    for each in seen:
        hold(each, saved(program, store))
