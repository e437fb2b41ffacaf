"""The editor without a mouse, and in a small window: at 200% zoom, in light and dark."""
import re

from agreement import hold, shown
from editor_process import LEVELS, EditorProcess, saved
from person import Person
from village_walk import CAT, GERRIC, INN, NESS, SMITHY, TAPROOM, TOM, children_of

SHOWN = """[...document.querySelectorAll(".pane")].filter((pane) => pane.getClientRects().length > 0)
  .map((pane) => pane.id.replace("pane-", ""))"""
PANES = ("forest", "picture", "tables", "entity", "resources", "systems", "frames", "changes", "lines")
BACKGROUND = "getComputedStyle(document.body).backgroundColor"
ACTIVE = "document.querySelector('#%s .line.active')?.dataset.entity"


def go_to(person, name, entity):
    """Walks through a list with the arrow keys until the line of an entity is active."""
    person.tab_to(name)
    person.key("Home")
    for _ in range(200):
        if person.evaluate(ACTIVE % name) == entity:
            return
        person.key("ArrowDown")
    raise AssertionError(f"the arrows don't lead to {entity} in {name}")


def try_moves(person):
    """Two are taken by Space and x, put by v, made roots by r; then undone and redone by keys."""
    person.key("/")
    assert person.evaluate("document.activeElement.id") == "search"
    person.write("farm_none")
    person.wait("document.getElementById('found').textContent.includes(' of ')", "it is searched for")
    person.key("Escape")
    person.wait("!document.getElementById('found').textContent.includes(' of ')", "Escape empties the search")
    go_to(person, "forest", TOM)
    person.key(" ")
    person.key("ArrowDown")
    active = person.evaluate(ACTIVE % "forest")
    assert active == NESS, f"the arrow down leads to {active}"
    person.key(" ")
    person.key("x")
    go_to(person, "forest", TAPROOM)
    person.key("v")
    person.wait_for(lambda: children_of(person.forest(), TAPROOM)[-2:] == [TOM, NESS], "two are moved by x and v")
    person.key("r")
    person.wait_for(lambda: [TOM, 0] in [line[:2] for line in person.forest()], "they are roots by r")
    person.key("[")
    person.wait_for(lambda: children_of(person.forest(), TAPROOM)[-2:] == [TOM, NESS], "[ undoes")
    person.key("z", "Control", "Shift")
    person.wait_for(lambda: [TOM, 0] in [line[:2] for line in person.forest()], "Ctrl+Shift+Z redoes")


def try_despawns(person):
    go_to(person, "forest", INN)
    person.key("Enter")
    person.key("Delete")
    person.wait_status("HasChildren")
    go_to(person, "forest", CAT)
    person.key("Enter")
    person.key("Delete")
    person.wait_for(lambda: not person.is_in("forest", CAT), "the cat is gone")
    go_to(person, "forest", SMITHY)
    person.key("Enter")
    person.key("Delete", "Shift")
    person.wait_for(lambda: not person.is_in("forest", GERRIC), "the smithy is gone with all below")


def try_cells(person):
    """A cell by F2, left by Escape and by Enter; the arrows lead from cell to cell."""
    go_to(person, "tables", TOM)
    for _ in range(9):
        person.key("F2")
        if person.evaluate("document.activeElement.closest('[data-kind]')?.dataset.kind") == "Age":
            break
        person.key("Escape")
        person.key("ArrowRight")
    person.key("a", "Control")
    person.write("13")
    person.key("Enter")
    person.wait_for(lambda: person.cell_text(TOM, "Age") == "13", "Tom is 13")


def try_rest(person):
    """Spawns, lines and the strip, each reached by Tab alone."""
    person.tab_to("spawn-cells")
    person.write("Name=Pilgrim")
    person.key("Enter")
    person.wait_for(lambda: "Pilgrim" in [line[2] for line in person.forest()], "a pilgrim has come")
    person.tab_to("line")
    person.write("put weather Text=fog")
    person.key("Enter")
    person.wait_for(lambda: "fog" in person.text("resources"), "fog")
    person.tab_to("strip")
    person.key("Home")
    person.key("ArrowDown")
    person.wait_for(lambda: "frame 1 changed" in person.text("changes-title"), "the changes of frame 1 are shown")
    assert "Millbrook" in person.text("changes") and "fog" in person.text("resources")
    person.key("ArrowUp")
    person.key("Enter")
    person.wait_for(lambda: not person.forest(), "the strip leads to the beginning")
    person.key("End")
    person.key("Enter")
    person.wait_for(lambda: "fog" in person.text("resources"), "the strip leads to the end")


def try_small_and_dark(person):
    """At 200% zoom one pane is shown at a time, which the window's width holds; each scheme has its colors."""
    person.sized(zoom=2)
    for name in PANES:
        person.show_pane(name)
        assert person.evaluate(SHOWN) == [name], f"at 200% {person.evaluate(SHOWN)} are shown in place of {name}"
        too_wide = person.evaluate("document.documentElement.scrollWidth - window.innerWidth")
        assert too_wide <= 0, f"at 200% the page of {name} is {too_wide} pixels too wide"
    person.show_pane("tables")
    person.edit_cell(NESS, "Age", "8")
    person.wait_for(lambda: person.cell_text(NESS, "Age") == "8", "a cell is edited at 200%")
    light = lambda: sum(map(int, re.findall("[0-9]+", person.evaluate(BACKGROUND))[:3]))  # noqa: E731
    person.schemed("light")
    person.wait_for(lambda: light() > 600, "the page is light")
    person.schemed("dark")
    person.wait_for(lambda: light() < 200, "the page is dark")
    person.sized()


def try_keyboard(remote, program, room):
    store = room / "keyboard.db"
    with EditorProcess(program, store, LEVELS / "village.scene") as process:
        person = Person(remote, process.address)
        for step in (try_moves, try_despawns, try_cells, try_rest, try_small_and_dark):
            step(person)
            person.check()
        seen = shown(person)
        person.close()
    hold(seen, saved(program, store))
