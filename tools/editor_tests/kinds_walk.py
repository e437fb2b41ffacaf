"""A kind more, long after the setup: by a form, in one tab for all, with undo and redo over it, and in the store that
is opened again. By keyboard alone, but for the second tab."""
import json

from agreement import hold, shown
from asking import Asker
from editor_process import LEVELS, EditorProcess, saved
from person import Person
from village_walk import GERRIC, HOB

OPTIONS = "[...document.getElementById('%s').options].map((each) => each.textContent)"
FOCUS = "document.activeElement.id"
REFUSED = (("9lives", "BadName"), ("two words", "BadName"), ("Age", "KindTaken"), ("", "BadName"))


def options(person, name):
    return person.evaluate(OPTIONS % name)


def open_form(person):
    """Goes to the list of kinds, and picks its last choice, a new kind."""
    person.tab_to("add-kind")
    person.key("End")
    person.wait_for(lambda: not person.is_hidden("kind-form"), "the form of a new kind is shown")
    assert options(person, "add-kind")[-1] == "New kind…"
    person.tab_to("kind-name")


def declare(person, name, shape):
    open_form(person)
    person.write(name)
    person.tab_to("kind-shape")
    person.select("kind-shape", shape)
    person.tab_to("kind-add")
    person.key("Enter")
    person.wait_for(lambda: f"{name} ({shape})" in options(person, "add-kind"), f"{name} is in the list")


def refused(person, name, fault):
    """Writes a name that isn't taken, which is told beside it, and stays to be mended."""
    person.key("a", "Control")
    person.key("Backspace")
    person.write(name)
    person.key("Enter")
    person.wait("document.getElementById('kind-name').ariaInvalid === 'true'", f"{name!r} is refused")
    note = person.evaluate("document.getElementById('kind-name').getAttribute('aria-describedby')")
    assert fault in person.text(note), person.text(note)
    assert person.evaluate("document.getElementById('kind-name').value") == name, "what was typed stays"


def try_refusals(person):
    open_form(person)
    for name, fault in REFUSED:
        refused(person, name, fault)
    person.keep("new_kind_refused", "entity", schemes=("light", "dark"))
    person.key("a", "Control")
    person.key("Backspace")


def try_new_kind(person, other):
    """After many frames: the kind is in each list of both tabs, and the pane goes on with a value of it."""
    person.wait_for(lambda: person.cell_text(HOB, "Age") == "39", "many frames")
    person.choose(GERRIC)
    before = person.frames()
    other.choose(HOB)
    other.fill("add-value", "half of a na")
    declare(person, "Mood", "Int")
    person.wait_status("a new kind, Mood (Int)")
    person.wait(f"{FOCUS} === 'add-value'", "a value of it may be written")
    for each in (person, other):
        each.wait_for(lambda each=each: "Mood" in options(each, "filter"), "the filter has it")
        each.wait_for(lambda each=each: "Mood (Int)" in options(each, "add-kind"), "the list has it")
        assert each.frames() == before, "it is no frame"
    assert other.evaluate("document.getElementById('add-value').value") == "half of a na", "what one types stays"
    person.write("3")
    person.key("Enter")
    for each in (person, other):
        each.wait_for(lambda each=each: each.cell_text(GERRIC, "Mood") == "3", "the table has its value")
    person.wait(f"{person.property('Mood')}.value === '3'", "the pane has it")
    person.keep("new_kind", "entity")


def try_undo(person, other):
    """Undo and redo go over the kind, which stays."""
    built, count = person.forest(), person.frames()
    person.tab_to("strip")
    person.key("Home")
    person.key("Enter")
    for each in (person, other):
        each.wait_for(lambda each=each: each.frames() == 0, "all is undone")
        assert "Mood (Int)" in options(each, "add-kind"), "the kind stays"
    other.fill("spawn-cells", "Mood=7")
    for _ in range(count):
        person.key("]")
    person.wait_frames(count)
    assert person.forest() == built and person.cell_text(GERRIC, "Mood") == "3"
    person.key("[")
    person.wait_for(lambda: person.cell_text(GERRIC, "Mood") is None, "its value is undone")
    declare(person, "Wish", "Link")
    assert person.evaluate("document.getElementById('redo').ariaDisabled") == "false", "the future stays"
    person.tab_to("forest", "Shift")
    person.key("]")
    person.wait_for(lambda: person.cell_text(GERRIC, "Mood") == "3", "and done again")


def try_use(person):
    """Entities have it from their first frame on, a filter finds it, and a Link is picked by name."""
    person.fill("spawn-cells", "Name=Wanderer Mood=-4")
    person.key("Enter")
    person.wait_for(lambda: "Wanderer" in [line[2] for line in person.forest()], "it is spawned with it")
    person.select("filter", "Mood")
    person.wait_for(lambda: len([line for line in person.forest() if line[2] == "Wanderer"]) == 1, "it is found")
    person.select("filter", "all kinds")
    person.choose(GERRIC)
    person.select("add-kind", "Wish")
    person.fill("add-value", "Wanderer")
    person.key("Enter")
    wanderer = next(line[0] for line in person.forest() if line[2] == "Wanderer")
    person.wait_for(lambda: person.cell_text(GERRIC, "Wish") == wanderer, "a wish leads to the wanderer")


def told(address, *lines):
    """What lines of a further tab are answered, each by its word."""
    asker = Asker(address)
    asker.join(tab="kinds")
    answers = asker.told(*lines)
    asker.leave()
    asker.close()
    return set(answers)


def try_full(person, address):
    """There are 64 kinds at most."""
    more = (json.dumps({"do": "declare", "name": f"Kind_{number}", "shape": "Tag"}) for number in range(64))
    assert told(address, *more) == {"ok", "refused"}
    person.wait_for(lambda: len(options(person, "add-kind")) == 65, "the list has 64 kinds, and a new one")
    open_form(person)
    refused(person, "One_More", "KindsFull")


def try_kinds(remote, program, room):
    store = room / "kinds.db"
    with EditorProcess(program, store, LEVELS / "village.scene") as process:
        person, other = Person(remote, process.address), Person(remote, process.address)
        try_refusals(person)
        assert told(process.address, *(f"insert {HOB} Age={age}" for age in range(25, 40))) == {"done"}
        for step in (try_new_kind, try_undo):
            step(person, other)
            person.check()
        try_use(person)
        try_full(person, process.address)
        person.reload()
        assert {"Mood (Int)", "Wish (Link)"} <= set(options(person, "add-kind")), "a page loaded anew has them"
        seen = [shown(person), shown(other)]
        person.close()
        other.close()
    scene = saved(program, store)
    assert ["Mood", "Int"] in scene["kinds"] and ["Wish", "Link"] in scene["kinds"], scene["kinds"]
    for each in seen:
        hold(each, scene)
    with EditorProcess(program, store) as process:
        person = Person(remote, process.address)
        assert {"Mood (Int)", "Wish (Link)"} <= set(options(person, "add-kind")), "opened again, they are there"
        again = shown(person)
        person.close()
    for part in ("forest", "tables", "resources"):
        assert again[part] == seen[0][part], f"opened again, {part} is {again[part]}"
