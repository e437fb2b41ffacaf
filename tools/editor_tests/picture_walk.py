"""The picture: things are moved there by the mouse and by keys, each move one frame; it has one scale for both axes,
and is panned and zoomed."""
from agreement import hold, shown
from editor_process import EditorProcess, saved
from person import Person

SCRIPT = """kind Name Text
kind Place Vec3
kind Health Int
spawn Name=Corner Place=0,0,0
spawn Name=Far Place=100,0,7
spawn Name=High Place=0,50,0
spawn Name=Far_And_High Place=100,50,0
spawn Name=Nowhere Health=1
"""
CORNER, FAR, HIGH, BOTH = "0v1", "1v1", "2v1", "3v1"
# Where each thing stands in the window, by the page's own marks of the picture.
BOX = """(({ left, top, width, height }) => [left, top, width, height])(
  document.getElementById('canvas').getBoundingClientRect())"""
MARGIN, SPAN = 24, (100, 50)


class Sight:
    """Where things stand in the picture that shows all of them: worked out here apart from the page's scripts."""

    def __init__(self, person):
        self.left, self.top, self.width, self.height = person.evaluate(BOX)
        self.scale = min((self.width - 2 * MARGIN) / SPAN[0], (self.height - 2 * MARGIN) / SPAN[1])

    def at(self, x, y):
        across, up = (x - SPAN[0] / 2) * self.scale, (y - SPAN[1] / 2) * self.scale
        return self.left + self.width / 2 + across, self.top + self.height / 2 - up


def chosen(person):
    return person.evaluate("document.getElementById('detail').dataset.entity")


def click_at(person, point):
    for sort in ("mouseMoved", "mousePressed", "mouseReleased"):
        person.mouse(sort, *point, **({} if sort == "mouseMoved" else {"button": "left", "clickCount": 1}))
    person.settle()


def try_one_scale(person):
    """A unit is as long up as across: each thing is found where one scale has it."""
    sight = Sight(person)
    for entity, x, y in ((CORNER, 0, 0), (FAR, 100, 0), (HIGH, 0, 50), (BOTH, 100, 50)):
        click_at(person, sight.at(x, y))
        person.wait_for(lambda: chosen(person) == entity, f"{entity} is chosen at {x},{y}")
    person.keep("picture", "picture", schemes=("light", "dark"))


def try_drag(person):
    """A drag of one of several moves them all, in one frame; what isn't drawn across or up stays as it was."""
    sight, before = Sight(person), person.frames()
    click_at(person, sight.at(0, 0))
    person.choose(FAR, "Control")
    person.pull(sight.at(100, 0), sight.at(90, 20))
    person.wait_for(lambda: person.cell_text(FAR, "Place") == "90,20,7", "it has moved, and stays at its height")
    assert person.cell_text(CORNER, "Place") == "-10,20,0", person.cell_text(CORNER, "Place")
    assert person.frames() == before + 1, "one drag is one frame"
    assert person.newest() == "move 2 entities by -10,20", person.newest()
    person.key("z", "Control")
    person.wait_for(lambda: person.cell_text(FAR, "Place") == "100,0,7", "one undo takes it back")


def try_keys(person):
    """The arrows move what is chosen, and a pause ends it as one frame; Enter chooses the next, Escape leaves it."""
    before = person.frames()
    person.choose(HIGH)
    person.tab_to("canvas")
    person.keys("ArrowRight", "ArrowRight", "ArrowUp", ("ArrowLeft", "Shift"))
    person.wait_for(lambda: person.cell_text(HIGH, "Place") == "-8,51,0", "the arrows have moved it")
    assert person.frames() == before + 1, "that was one frame"
    person.key("z", "Control")
    person.wait_for(lambda: person.cell_text(HIGH, "Place") == "0,50,0", "one undo takes it back")
    person.keys("ArrowRight", "Escape", "Enter")
    person.wait_for(lambda: chosen(person) == BOTH, "Enter chooses the next one")
    # A move that comes later is there, and that which was left isn't.
    person.key("ArrowDown")
    person.wait_for(lambda: person.cell_text(BOTH, "Place") == "100,49,0", "the next one has moved")
    assert person.cell_text(HIGH, "Place") == "0,50,0" and person.frames() == before + 1
    person.key("z", "Control")
    person.wait_for(lambda: person.cell_text(BOTH, "Place") == "100,50,0", "one undo takes it back")


def try_camera(person):
    """The ground is dragged, the wheel zooms where the mouse is, and Fit shows all again."""
    person.click_id("canvas-fit")
    sight, before = Sight(person), person.frames()
    ground = sight.at(50, 25)
    person.pull(ground, (ground[0] + 40, ground[1] + 30))
    there = sight.at(100, 50)
    click_at(person, (there[0] + 40, there[1] + 30))
    person.wait_for(lambda: chosen(person) == BOTH, "all is panned")
    person.click_id("canvas-fit")
    corner = sight.at(0, 0)
    for _ in range(3):
        person.wheel(*corner, -100)
    click_at(person, corner)
    person.wait_for(lambda: chosen(person) == CORNER, "the wheel keeps what is under the mouse")
    near = sight.at(10, 0)
    click_at(person, near)
    person.keep("zoomed", "picture")
    person.click_id("canvas-fit")
    click_at(person, sight.at(100, 0))
    person.wait_for(lambda: chosen(person) == FAR, "Fit shows all")
    assert person.frames() == before, "the camera is no part of the scene"


def try_locked(person):
    """What is locked isn't moved nor chosen there; what is hidden isn't drawn."""
    sight = Sight(person)
    person.choose(CORNER)
    person.key("k")
    before = person.frames()
    person.wait_status("locked")
    person.pull(sight.at(0, 0), sight.at(30, 30))
    assert len(person.scene()["undo"]) == before and person.cell_text(CORNER, "Place") == "0,0,0"
    person.click_id("canvas-fit")
    person.choose(CORNER)
    person.key("k")
    person.key("h")
    person.wait_for(lambda: person.text("canvas-words").startswith("3 "), "it is hidden")
    person.key("h")
    person.wait_for(lambda: person.text("canvas-words").startswith("4 "), "it is shown again")


def try_picture(remote, program, room):
    script, store = room / "picture.scene", room / "picture.db"
    script.write_text(SCRIPT)
    with EditorProcess(program, store, script) as process:
        person = Person(remote, process.address)
        person.settle()
        for step in (try_one_scale, try_drag, try_keys, try_camera, try_locked):
            step(person)
            person.check()
        seen = shown(person)
        person.close()
    hold(seen, saved(program, store))
