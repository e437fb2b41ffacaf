"""The store as a file: a new scene by a choice of kinds or an example, save as, backup, compact, export, and open."""
import json

from agreement import hold, shown
from editor_process import EditorProcess, saved, wait_until
from person import EXPORTED, Person


def file_menu(person, words):
    person.click_id("file-open")
    person.wait("document.querySelector('.menu') !== null", "the menu is there")
    person.menu(words)


def ask_name(person, words, name):
    """Picks from the menu, and gives a name."""
    file_menu(person, words)
    person.wait("document.getElementById('ask').open", "a name is asked for")
    person.fill("ask-value", name)
    person.click_id("ask-yes")


def store_is(person, name):
    person.wait_for(lambda: person.text("store") == name, f"{name} is open")


def try_beginning(person):
    """A new scene begins with a choice of kinds; its first entity is spawned by keys alone."""
    person.wait_for(lambda: not person.is_hidden("setup"), "the setup is shown")
    assert "kinds" in person.text("forest-empty"), person.text("forest-empty")
    person.keep("new_scene", "forest", schemes=("light", "dark"))
    person.click_id("setup-level")
    person.wait_for(lambda: "Target (Link)" in person.text("setup-kinds"), "a level has its kinds")
    person.click_id("setup-end")
    person.wait_for(lambda: person.is_hidden("setup"), "the setup is over")
    person.wait("document.activeElement.id === 'spawn-cells'", "the first entity may be written")
    person.keep("empty_scene", "forest")
    person.click_id("spawn-cells")
    person.write("Name=Hall Place=1,2,3")
    person.key("Enter")
    person.wait_for(lambda: [line[2] for line in person.forest()] == ["Hall"], "the hall is there")


def try_export(person, program, store):
    """What is exported is what the store says."""
    assert json.loads(person.evaluate(EXPORTED % "dumpall"))["scene"] == 2
    world = json.loads(person.evaluate(EXPORTED % "dump"))
    assert world["scene"] == 1 and "Hall" in json.dumps(world)
    file_menu(person, "Export the scene")
    person.wait_status("downloads")


def try_copies_of_it(person, room):
    """A backup is another file; a bad name and one that is taken are told in the question itself."""
    ask_name(person, "Backup", "no/good")
    person.wait("!document.getElementById('ask-fault').hidden", "a bad name is told")
    person.keep("file_name_fault")
    person.fill("ask-value", "kept copy.db")
    person.click_id("ask-yes")
    person.wait_status("has every change")
    wait_until((room / "kept copy.db").exists, "the backup is there")
    ask_name(person, "Backup", "kept copy.db")
    person.wait_status("is there already")


def try_other_stores(person, other):
    """Save as goes on in the copy; the first one is opened again, by all tabs, and has not what came after."""
    ask_name(person, "Save as", "second.db")
    store_is(person, "second.db")
    store_is(other, "second.db")
    person.fill("spawn-cells", "Name=Cellar")
    person.key("Enter")
    other.wait_for(lambda: "Cellar" in [line[2] for line in other.forest()], "the cellar is dug in the second")
    file_menu(other, "Open")
    other.wait("document.getElementById('ask').open", "it asks which")
    other.keep("open_store")
    other.select("ask-list", "files.db")
    other.click_id("ask-yes")
    for each in (person, other):
        store_is(each, "files.db")
        each.wait_for(lambda: [line[2] for line in each.forest()] == ["Hall"], "the first has no cellar")


def try_compact(person, program):
    """Compaction keeps world and past."""
    person.fill("spawn-cells", "Name=Attic")
    person.key("Enter")
    person.wait_for(lambda: person.frames() == 2, "two frames")
    person.key("Escape")
    file_menu(person, "Compact")
    person.wait("document.getElementById('ask').open", "it asks")
    person.click_id("ask-yes")
    person.wait_status("compacted")
    person.settle()
    assert person.frames() == 2
    person.click_id("undo")
    person.wait_for(lambda: [line[2] for line in person.forest()] == ["Hall"], "undo goes on")
    person.click_id("redo")
    person.wait_for(lambda: len(person.forest()) == 2, "and redo")


def try_new(person):
    """A new store, with an example in it."""
    ask_name(person, "New", "third.db")
    store_is(person, "third.db")
    person.wait_for(lambda: not person.is_hidden("setup"), "it is in its setup")
    person.click_id("setup-village")
    person.wait_for(lambda: person.text("found").startswith("78 "), "the village is there")
    person.keep("example", "forest")
    file_menu(person, "Open")
    person.wait("document.getElementById('ask').open", "it asks which")
    person.select("ask-list", "files.db")
    person.click_id("ask-yes")
    store_is(person, "files.db")


def try_files(remote, program, room):
    room = room / "files"
    room.mkdir()
    store = room / "files.db"
    with EditorProcess(program, store) as process:
        person, other = Person(remote, process.address), Person(remote, process.address)
        try_beginning(person)
        try_export(person, program, store)
        try_copies_of_it(person, room)
        try_other_stores(person, other)
        try_compact(person, program)
        try_new(person)
        for each in (person, other):
            each.wait_for(lambda: len(each.forest()) == 2, "both are in the first again")
            each.check()
        seen = shown(person)
        person.close()
        other.close()
    hold(seen, saved(program, store))
    assert len(saved(program, room / "second.db", "dump")["tables"]) == 2
