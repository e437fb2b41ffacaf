"""The forest as a level designer uses it: names and renames, order among siblings, copies, the menu, the search, the
filter by a kind, hidden and locked things, folds."""
from agreement import hold, shown
from editor_process import LEVELS, EditorProcess, saved
from person import SHOWN, Person
from village_walk import CAT, GERRIC, MAUD, NESS, SMITHY, TAPROOM, TOM, children_of

FORGE, ANVIL, BELLOWS, WYNN, BRAMBLE = "12v1", "13v1", "14v1", "58v1", "73v1"
FIRST_NAME = "document.querySelector('#forest .line .name').textContent"
IN_MENU = "[...document.querySelectorAll('.menu button')].map((each) => each.firstChild.textContent)"
EDGE = 10
FLAG = "document.querySelector('#forest [data-entity=\"%s\"] [data-flag=%s]')"


def names_below(person, parent):
    """The names of the lines of an entity's children."""
    forest = person.forest()
    names = {line[0]: line[2] for line in forest}
    return [names[child] for child in children_of(forest, parent)]


def wait_below(person, parent, children):
    person.wait_for(lambda: children_of(person.forest(), parent) == children, f"{children} are below {parent}")


def try_names(person):
    """A line begins with the name, and a rename is one by F2, by a double click, or left by Escape."""
    assert person.evaluate(FIRST_NAME) == "Millbrook", person.evaluate(FIRST_NAME)
    mark = person.evaluate(f"{person.line_of('forest', GERRIC)}.querySelector('.mark').title")
    assert "Coins" in mark, f"the mark of Gerric says {mark}"
    person.choose(GERRIC)
    person.key("F2")
    person.wait("document.activeElement.className === 'in-place'", "F2 renames")
    person.keep("rename", "forest")
    person.choose(GERRIC)
    person.key("F2")
    person.key("a", "Control")
    person.write("Old Gerric")
    person.key("Enter")
    person.wait_for(lambda: "Old Gerric" in [line[2] for line in person.forest()], "F2 has renamed him")
    name = f"{person.line_of('forest', GERRIC)}.querySelector('.name')"
    person.click(name, count=2)
    person.key("a", "Control")
    person.write("nobody")
    person.key("Escape")
    person.wait("document.querySelector('#forest .in-place') === null", "Escape leaves it")
    person.key("[")
    person.wait_for(lambda: "Gerric" in [line[2] for line in person.forest()], "that is undone")
    person.settle()


def try_order(person):
    """A drop between siblings, and Alt with the arrows, change their order in one frame; undo gives the old one."""
    order = children_of(person.forest(), FORGE)
    assert order == [ANVIL, BELLOWS, GERRIC, WYNN], order
    before = person.frames()
    person.choose(WYNN)
    person.settle()
    person.drag(person.line_of("forest", WYNN), lambda: person.line_of("forest", ANVIL), down=-EDGE)
    wait_below(person, FORGE, [WYNN, ANVIL, BELLOWS, GERRIC])
    assert person.frames() == before + 1, "that was one frame"
    assert person.newest() == "move Wynn before Anvil", person.newest()
    person.drag(person.line_of("forest", WYNN), lambda: person.line_of("forest", BELLOWS), down=EDGE)
    wait_below(person, FORGE, [ANVIL, BELLOWS, WYNN, GERRIC])
    person.choose(WYNN)
    person.key("ArrowUp", "Alt")
    wait_below(person, FORGE, [ANVIL, WYNN, BELLOWS, GERRIC])
    person.key("ArrowDown", "Alt")
    wait_below(person, FORGE, [ANVIL, BELLOWS, WYNN, GERRIC])
    person.keep("order", "forest")
    for _ in range(4):
        person.key("[")
    wait_below(person, FORGE, order)


def try_copies(person, other):
    """Ctrl+D is one frame that says what it was; a copy goes behind what it is of, and is pasted below another, also
    in another tab. Links within it go to the copies."""
    before = person.frames()
    person.choose(FORGE)
    person.key("d", "Control")
    person.wait_for(lambda: person.newest() == "duplicate Forge and 4 below", "the frame says what was copied")
    assert person.frames() == before + 1, "that was one frame"
    names = names_below(person, SMITHY)
    assert names[:2] == ["Forge", "Forge"], names
    copy = children_of(person.forest(), SMITHY)[1]
    assert names_below(person, copy) == names_below(person, FORGE)
    person.keep("duplicate", "forest")
    other.wait_for(lambda: other.newest() == "duplicate Forge and 4 below", "the other tab reads it too")
    person.wait_chosen(copy)
    person.key("Delete", "Shift")
    person.wait_for(lambda: not person.is_in("forest", copy), "the copy was chosen, and goes")
    person.choose(FORGE)
    person.key("c", "Control")
    person.wait_status("Copied: Forge and 4 below")
    other.wait("localStorage.getItem('copy') !== null", "the browser gives the copy to the other tab")
    other.choose(TAPROOM)
    other.key("v", "Control")
    person.wait_for(lambda: "Forge" in names_below(person, TAPROOM), "the other tab has pasted it")
    for _ in range(3):
        person.key("[")
    person.wait_frames(before)
    assert "Forge" not in names_below(person, TAPROOM), "undo takes all of it back"


def try_own_links(person):
    """Of a copy, a link to what is copied too goes to its copy."""
    person.choose(GERRIC)
    person.send_line(f"insert {GERRIC} Home={ANVIL}")
    person.wait_for(lambda: person.cell_text(GERRIC, "Home") == ANVIL, "Gerric is at home at the anvil")
    person.choose(FORGE)
    person.key("d", "Control")
    person.wait_for(lambda: person.newest() == "duplicate Forge and 4 below", "it is copied")
    copy = children_of(person.forest(), SMITHY)[1]
    anvil, _, gerric, _ = children_of(person.forest(), copy)
    assert person.cell_text(gerric, "Home") == anvil, f"the copy is at home at {person.cell_text(gerric, 'Home')}"
    person.wait_chosen(copy)
    person.key("[")
    person.key("[")
    person.wait_for(lambda: person.cell_text(GERRIC, "Home") == SMITHY, "that is undone")


def try_menu(person):
    """A right click, and the menu key, tell what can be done; the arrows and Enter do it."""
    person.right_click(person.line_of("forest", CAT))
    person.wait("document.querySelector('.menu') !== null", "the menu is there")
    said = person.evaluate(IN_MENU)
    for words in ("Rename", "Duplicate", "Copy", "Paste below", "Move up", "Hide", "Lock", "Despawn"):
        assert words in said, said
    person.keep("menu", "forest")
    person.right_click(person.line_of("forest", CAT))
    before = person.frames()
    person.menu("Duplicate")
    person.wait_for(lambda: (person.newest() or "").startswith("duplicate"), "the menu duplicates")
    person.wait(f"{SHOWN} !== '{CAT}'", "the copy is chosen")
    person.key("[")
    person.wait_frames(before)
    person.choose(CAT)
    person.key("ContextMenu")
    person.wait("document.activeElement.closest('.menu') !== null", "the menu key opens it")
    person.key("h")
    person.key("Enter")
    person.wait_status("hidden in the picture")
    person.key("h")
    person.wait_status("shown again")


def try_search(person):
    """Hits look other than those above them; what the search hides isn't despawned."""
    person.choose(MAUD)
    person.search("gerric")
    person.wait("document.getElementById('found').textContent.startsWith('1 of ')", "one is found")
    hit = person.evaluate(f"{person.line_of('forest', GERRIC)}.className")
    above = person.evaluate(f"{person.line_of('forest', FORGE)}.className")
    assert "hit" in hit and "context" in above, (hit, above)
    person.keep("search", "forest")
    person.click_id("despawn")
    person.wait_status("hidden by the search")
    person.choose(SMITHY)
    person.click_id("despawn-all")
    person.wait("document.getElementById('ask').open", "what goes unseen is asked for")
    assert "hides" in person.text("ask-words"), person.text("ask-words")
    person.keep("hidden_despawn")
    person.click_id("ask-no")
    person.click_id("search")
    person.key("Escape")
    person.wait("!document.getElementById('found').textContent.includes(' of ')", "Escape empties the search")
    assert person.is_in("forest", MAUD) and person.is_in("forest", GERRIC)
    person.search("nobody_at_all")
    person.wait("document.getElementById('forest-empty').textContent.includes('Nothing is found')", "nothing is found")
    person.keep("nothing_found", "forest")
    person.click_id("search")
    person.key("Escape")


def try_filter(person):
    """A kind filters forest and tables; all is folded and unfolded by a button and by keys."""
    person.select("filter", "Coins")
    person.wait("document.getElementById('found').textContent.includes(' of ')", "some have coins")
    person.wait("document.querySelectorAll('#forest .line.hit').length > 2", "they are hits")
    assert not person.is_in("forest", BELLOWS), "the bellows have no coins"
    person.keep("filter", "forest")
    person.select("filter", "all kinds")
    person.wait_for(lambda: person.is_in("forest", BELLOWS), "all are there again")
    person.click_id("fold-all")
    person.wait_for(lambda: len(person.forest()) == 1, "all is folded")
    person.click_id("forest")
    person.key("ArrowRight", "Shift")
    person.wait_for(lambda: person.is_in("forest", NESS), "Shift and the arrow unfold all")


def try_sights(person):
    """What is hidden isn't drawn; what is locked isn't moved by a drag."""
    drawn = lambda: int(person.text("canvas-words").split(" ")[0])  # noqa: E731
    before = drawn()
    person.choose(SMITHY)
    person.key("h")
    person.wait_for(lambda: drawn() < before, "the smithy and all below aren't drawn")
    person.key("k")
    person.wait_status("It is locked")
    person.wait(FLAG % (SMITHY, "locked") + "?.ariaPressed === 'true'", "the smithy's lock is shown")
    person.keep("hidden_and_locked", "forest")
    assert not person.evaluate(f"{person.line_of('forest', GERRIC)}.draggable"), "what is below is locked too"
    person.choose(FORGE)
    person.key("ArrowDown", "Alt")
    person.wait_status("Not moved: it is locked")
    person.choose(SMITHY)
    person.key("k")
    person.key("h")
    person.wait_for(lambda: drawn() == before, "all is drawn again")


def try_forest(remote, program, room):
    store = room / "forest.db"
    with EditorProcess(program, store, LEVELS / "village.scene") as process:
        person, other = Person(remote, process.address), Person(remote, process.address)
        for step in (try_names, try_order, lambda each: try_copies(each, other), try_own_links, try_menu, try_search,
                     try_filter, try_sights):  # fmt: skip
            step(person)
            person.check()
        assert children_of(person.forest(), TAPROOM).count(TOM) == 0
        seen = [shown(person), shown(other)]
        person.close()
        other.close()
    for each in seen:
        hold(each, saved(program, store))
