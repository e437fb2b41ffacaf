"""The pane of what is chosen: several at once, links by name, what is wrong beside its field, and a cell that two tabs
edit at once."""
from agreement import hold, shown
from editor_process import LEVELS, EditorProcess, saved
from forest_walk import FORGE, WYNN
from person import Person
from village_walk import ALDOUS, GERRIC, HOB, INN, MAUD, MILL, SMITHY

CHOICES = "[...document.querySelectorAll('.choice')].map((each) => each.textContent)"
CLASH = "document.querySelector('%s .clash')?.textContent"


def try_several(person):
    """Of several chosen, mixed values are — and one that is typed is written to all, in one frame."""
    person.choose_all([GERRIC, WYNN, MAUD])
    person.wait("document.querySelector('#detail b').textContent.startsWith('3 ')", "three are edited together")
    age = person.property("Age")
    assert person.evaluate(f"[{age}.value, {age}.placeholder]") == ["", "—"]
    person.keep("several", "entity")
    before = person.frames()
    person.fill_field(age, "33")
    person.key("Enter")
    for entity in (GERRIC, WYNN, MAUD):
        person.wait_for(lambda: person.cell_text(entity, "Age") == "33", f"{entity} is 33")
    assert person.frames() == before + 1, "that was one frame"
    assert person.evaluate(f"{age}.value") == "33", "they have one value now"
    person.choose_all([SMITHY, INN])
    person.fill_field(person.property("Place", 2), "4")
    person.key("Enter")
    person.wait_for(lambda: person.cell_text(INN, "Place").endswith(",4"), "both stand at the height 4")
    assert person.cell_text(SMITHY, "Place") != person.cell_text(INN, "Place"), "and else where they were"
    person.click_id("forest")
    person.key("[")
    person.key("[")
    person.wait_frames(before)


def try_links(person):
    """A link stands by its name; it is picked from a list by a part of a name, and set by a drop."""
    person.choose(GERRIC)
    home = person.property("Home")
    assert person.evaluate(f"{home}.value") == f"The_Smithy ({SMITHY})", person.evaluate(f"{home}.value")
    person.fill_field(home, "the_m")
    person.wait_for(lambda: any("The_Mill" in each for each in person.evaluate(CHOICES)), "the mill is in the list")
    person.keep("link_list")
    person.fill_field(home, "the_m")
    person.key("ArrowDown")
    person.key("Enter")
    person.wait_for(lambda: person.cell_text(GERRIC, "Home") == MILL, "Gerric is at home in the mill")
    person.fill_field(home, "The_Black_Swan")
    person.key("Enter")
    person.wait_for(lambda: person.cell_text(GERRIC, "Home") == INN, "a whole name is enough")
    person.drag(person.line_of("forest", FORGE), lambda: home)
    person.wait_for(lambda: person.cell_text(GERRIC, "Home") == FORGE, "a drop sets it")
    person.fill_field(home, "no_such_name")
    person.key("Enter")
    person.wait(f"{home}.ariaInvalid === 'true'", "a name that nobody has is told at the field")
    assert "no_such_name" in person.evaluate("document.querySelector('#detail .fault').textContent")
    person.keep("field_fault", "entity")
    person.click(home)
    person.key("Escape")
    shown_as = person.evaluate(f"{person.cell(GERRIC, 'Home')}.firstChild.textContent")
    assert shown_as == "Forge", f"in the table it is {shown_as}"


def try_faults(person):
    """What is wrong is said beside its field, which is invalid, until it is mended."""
    for name, press, typed in (("spawn-cells", "spawn", "two words"), ("system-line", "system-add", "")):
        person.fill(name, typed)
        person.click_id(press)
        person.wait(f"document.getElementById('{name}').ariaInvalid === 'true'", f"{name} is invalid")
        note = person.evaluate(f"document.getElementById('{name}').getAttribute('aria-describedby')")
        told = person.text(note)
        assert told, name
    person.fill("spawn-cells", "Name=Stranger")
    person.wait("document.getElementById('spawn-cells').ariaInvalid !== 'true'", "what is typed anew isn't wrong yet")
    person.click(person.property("Age"))
    person.fill_field(person.property("Age"), "4x")
    person.key("Enter")
    person.wait(f"{person.property('Age')}.ariaInvalid === 'true'", "an age of 4x is told")
    person.key("Escape")


def try_undo_in_fields(person):
    """After a spawn by Enter, Ctrl+Z takes the spawn back and not what was typed; while one types it is the field's."""
    person.fill("spawn-cells", "Name=Passer_By")
    person.key("Enter")
    person.wait_for(lambda: "Passer_By" in [line[2] for line in person.forest()], "somebody comes by")
    person.click_id("spawn-cells")
    person.key("z", "Control")
    person.wait_for(lambda: "Passer_By" not in [line[2] for line in person.forest()], "Ctrl+Z takes the spawn back")
    past = len(person.scene()["undo"])
    person.fill("spawn-cells", "Name=Nobody")
    person.key("z", "Control")
    assert len(person.scene()["undo"]) == past, "Ctrl+Z in a field in which one types is the field's"


def try_clash(person, other):
    """A cell that another tab changed while it was edited is shown with both values, before one is written."""
    person.click(person.cell(ALDOUS, "Coins"), count=2)
    person.key("a", "Control")
    person.write("500")
    other.edit_cell(ALDOUS, "Coins", "77")
    person.wait_for(lambda: "77" in (person.evaluate(CLASH % "#tables") or ""), "both values are shown")
    told = person.evaluate(CLASH % "#tables")
    assert "500" in told and f"ession {other.session_number()}" in told, told
    person.keep("clash", "tables")
    if person.evaluate(CLASH % "#tables"):
        person.key("Enter")
        person.wait("document.activeElement.textContent === 'Write mine'", "Enter asks first")
        person.key("Enter")
        person.wait_for(lambda: person.cell_text(ALDOUS, "Coins") == "500", "it is written then")
    person.choose(HOB)
    coins = person.property("Coins")
    person.fill_field(coins, "900")
    other.edit_cell(HOB, "Coins", "78")
    person.wait_for(lambda: "78" in (person.evaluate(CLASH % "#detail") or ""), "both are shown in the pane too")
    person.click(person.button_in("detail", "Take theirs"))
    person.wait(f"{coins}.value === '78'", "theirs is taken")
    assert person.cell_text(HOB, "Coins") == "78"
    person.key("Escape")


def try_entity(remote, program, room):
    store = room / "entity.db"
    with EditorProcess(program, store, LEVELS / "village.scene") as process:
        person, other = Person(remote, process.address), Person(remote, process.address)
        for step in (try_several, try_links, try_faults, try_undo_in_fields, lambda each: try_clash(each, other)):
            step(person)
            person.check()
        seen = [shown(person), shown(other)]
        person.close()
        other.close()
    for each in seen:
        hold(each, saved(program, store))
