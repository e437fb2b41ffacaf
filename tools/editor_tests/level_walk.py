"""A small level from nothing by keyboard alone: ten named rooms, three levels deep, reordered, duplicated, with a link
by name, played and stopped, undone to the beginning and done again; and the same when the store is opened again."""
from agreement import hold, shown
from editor_process import EditorProcess, saved
from keyboard_walk import ACTIVE
from person import SHOWN, Person
from village_walk import children_of

ROOMS = {
    "Big House": None, "Ground Floor": "Big House", "Upper Floor": "Big House", "Great Hall": "Ground Floor",
    "Old Kitchen": "Ground Floor", "Cold Pantry": "Ground Floor", "Small Chapel": "Ground Floor",
    'a "quoted" one': "Upper Floor", "Кузница 🔥": "Upper Floor", "Quiet Study": "Upper Floor",
}  # fmt: skip


def names(person):
    return [line[2] for line in person.forest()]


def entity_of(person, name):
    return next(line[0] for line in person.forest() if line[2] == name)


def go_to(person, name):
    """Walks through the forest by its arrow keys to the line of a name."""
    wanted = entity_of(person, name)
    person.tab_to("forest", "Shift")
    person.key("Home")
    for _ in range(40):
        if person.evaluate(ACTIVE % "forest") == wanted:
            return
        person.key("ArrowDown")
    raise AssertionError(f"the arrows don't lead to {name}")


def press(person, name):
    person.tab_to(name)
    person.key("Enter")


def try_rooms(person):
    """The kinds of a level, and ten rooms, of which each knows its place."""
    press(person, "setup-level")
    person.wait_for(lambda: "Target (Link)" in person.text("setup-kinds"), "a level has its kinds")
    press(person, "setup-end")
    person.wait("document.activeElement.id === 'spawn-cells'", "the first room may be written")
    for at, (room, floor) in enumerate(ROOMS.items()):
        if floor is not None:
            go_to(person, floor)
            person.key("Enter")
        person.tab_to("spawn-cells")
        person.key("a", "Control")
        person.write(f"Name={room} Place={10 * at},{at % 3},0")
        person.key("Enter", *(["Shift"] if floor is not None else []))
        person.wait_for(lambda: room in names(person), f"{room} is built")
        person.wait_chosen(entity_of(person, room))
    levels = {line[2]: line[1] for line in person.forest()}
    assert levels["Big House"] == 0 and levels["Upper Floor"] == 1 and levels["Quiet Study"] == 2, levels


def try_changes(person):
    """A room goes up, one is duplicated and renamed, and one points to another by its name."""
    ground = entity_of(person, "Ground Floor")
    go_to(person, "Small Chapel")
    person.key("Enter")
    person.key("ArrowUp", "Alt")
    chapel, pantry = entity_of(person, "Small Chapel"), entity_of(person, "Cold Pantry")
    person.wait_for(lambda: children_of(person.forest(), ground)[-2:] == [chapel, pantry], "the chapel goes up")
    go_to(person, "Upper Floor")
    person.key("Enter")
    upper = entity_of(person, "Upper Floor")
    person.wait_for(lambda: person.evaluate(SHOWN) == upper, "the upper floor is chosen")
    person.key("d", "Control")
    person.wait_for(lambda: names(person).count("Quiet Study") == 2, "the upper floor is there twice")
    person.wait_for(lambda: person.evaluate(SHOWN) != upper, "the copy is chosen")
    person.settle()
    person.key("F2")
    person.wait("document.activeElement.className === 'in-place'", "F2 renames")
    person.key("a", "Control")
    person.write("Tower of")
    person.key("Enter", "Shift")
    person.write("two lines")
    person.key("Enter")
    person.wait_for(lambda: "Tower of two lines" in names(person), "it is the tower")
    go_to(person, "Great Hall")
    person.key("Enter")
    person.tab_to("add-kind")
    person.select("add-kind", "Target")
    person.tab_to("add-value")
    person.write("Library of nobody")
    person.key("Enter")
    person.wait("document.getElementById('add-value').ariaInvalid === 'true'", "a name of nobody is told there")
    person.key("a", "Control")
    person.write("Old Kitchen")
    person.key("Enter")
    hall, kitchen = entity_of(person, "Great Hall"), entity_of(person, "Old Kitchen")
    person.wait_for(lambda: person.cell_text(hall, "Target") == kitchen, "the hall leads to the kitchen")


def try_play(person):
    """The rooms are counted by a system, until Stop gives back the level without a count."""
    person.tab_to("system-line")
    person.write("survey need=Place count:rooms")
    person.key("Enter")
    person.wait_for(lambda: any("survey" in line for line in person.lines("systems")), "the system is there")
    before = person.frames()
    press(person, "play")
    person.wait_for(lambda: person.frames() >= before + 5, "it plays")
    assert "rooms" in person.text("resources")
    press(person, "stop")
    person.wait_status("Stopped: the level is as it was")
    person.wait_frames(before)
    person.wait_for(lambda: "rooms" not in person.text("resources"), "there is no count")


def try_history(person):
    """All is undone to the beginning, and done again."""
    built = person.forest()
    count = person.frames()
    person.tab_to("strip")
    person.key("Home")
    person.key("Enter")
    person.wait_for(lambda: person.frames() == 0 and not person.forest(), "all is undone")
    for _ in range(count):
        person.key("]")
    person.wait_for(lambda: person.frames() == count, "and done again")
    assert person.forest() == built


def try_level(remote, program, room):
    store = room / "level.db"
    with EditorProcess(program, store) as process:
        person = Person(remote, process.address)
        person.wait_for(lambda: not person.is_hidden("setup"), "the setup is shown")
        for step in (try_rooms, try_changes, try_play, try_history):
            step(person)
            person.check()
        person.keep("level", "forest", schemes=("light", "dark"))
        seen = shown(person)
        person.close()
    hold(seen, saved(program, store))
    with EditorProcess(program, store) as process:
        person = Person(remote, process.address)
        again = shown(person)
        person.close()
    for part in ("forest", "tables", "resources"):
        assert again[part] == seen[part], f"opened again, {part} is {again[part]}"
