"""Two people in the village at once: each step by one of them is seen by the other."""
from agreement import hold, shown
from editor_process import LEVELS, EditorProcess, saved
from person import Person

MILL, SMITHY, INN, TAPROOM, NAVE, COTTAGE = "5v1", "11v1", "24v1", "25v1", "33v1", "38v1"
ALDOUS, GERRIC, MAUD, HOB, MARJORY, TOM, NESS, CAT = "53v1", "56v1", "57v1", "61v1", "65v1", "69v1", "70v1", "80v1"
BEYOND_DOUBLES = "9007199254740993"
# Seconds from one to the next, of which some end a page before it has joined.
QUICK_RELOADS = (0, 0.02, 0.05, 0.1, 0.15, 0.2, 0.3, 0.4, 0.6, 0.8)


class Village:
    """The village with two tabs, `one` and `other`."""

    def __init__(self, remote, process):
        self.process = process
        self.one, self.other = Person(remote, process.address), Person(remote, process.address)

    def both(self, is_so, what):
        """Waits until both pages are so: what the next click goes to moves no more then."""
        for person in (self.one, self.other):
            person.wait_for(lambda: is_so(person), what)

    def both_show(self, entity, kind, text):
        self.both(lambda person: person.cell_text(entity, kind) == text, f"{entity} shows {kind} {text}")

    def both_have_below(self, parent, children):
        """Both forests have these as the last ones below an entity."""
        last = lambda person: children_of(person.forest(), parent)[-len(children):]  # noqa: E731
        self.both(lambda person: last(person) == children, f"{children} are below {parent}")

    def try_arrival(self):
        numbers = [self.one.session_number(), self.other.session_number()]
        assert numbers[0] != numbers[1], numbers
        for person, there in zip((self.one, self.other), reversed(numbers)):
            person.wait_for(lambda: str(there) in person.text("others"), f"session {there} is told of")
        self.one.search("gerric")
        self.one.wait("document.getElementById('found').textContent.startsWith('1 of ')", "one is found")
        assert [line[0] for line in self.one.forest()] == ["0v1", "1v1", SMITHY, "12v1", GERRIC]
        self.one.key("Escape")
        self.one.wait("!document.getElementById('found').textContent.includes(' of ')", "Escape empties the search")

    def try_cells(self):
        """Each shape is edited in place, by either of the two."""
        one, other = self.one, self.other
        for person, entity, kind, written, text in (
            (one, GERRIC, "Age", "40", "40"), (other, GERRIC, "Age", BEYOND_DOUBLES, BEYOND_DOUBLES),
            (one, GERRIC, "Home", MILL, MILL), (other, MILL, "Place", "-31,45,2", "-31,45,2"),
            (one, MILL, "Name", 'The "New" Mill', '"The \\"New\\" Mill"'),
        ):  # fmt: skip
            person.edit_cell(entity, kind, written)
            self.both_show(entity, kind, text)
        one.edit_cell(GERRIC, "Age", "4x")
        one.wait_status("number")
        one.key("Escape")
        tick = one.scene()["tick"]
        one.edit_cell(GERRIC, "Age", "7", end="Escape")
        assert one.scene()["tick"] == tick, "Escape has sent what was typed"
        self.both_show(GERRIC, "Age", BEYOND_DOUBLES)
        self.both_show(MILL, "Name", '"The \\"New\\" Mill"')

    def try_components(self):
        """A tag by its check box, a component added and removed in the detail."""
        one = self.one
        one.choose(MAUD)
        one.wait_for(lambda: MAUD in one.text("detail"), f"the detail is of {MAUD}")
        one.select("add-kind", "Lit")
        one.click_id("add")
        self.both(lambda person: person.cell_text(MAUD, "Lit") is not None, "Maud is lit")
        one.click(one.button_in("detail", "remove Lit"))
        self.both(lambda person: person.cell_text(MAUD, "Lit") is None, "Maud isn't lit")
        one.click(one.cell(NAVE, "Name"))
        one.choose(TAPROOM)
        one.click(one.cell(TAPROOM, "Lit"), count=2)
        one.wait("document.activeElement.type === 'checkbox'", "a tag is a check box")
        one.key(" ")
        one.key("Enter")
        self.both(lambda person: person.cell_text(TAPROOM, "Lit") is None, "the taproom isn't lit")

    def try_moves(self):
        """Several are dragged in one frame; a drag that would make a cycle is refused in words."""
        frames = len(self.other.lines("strip"))
        self.one.move([TOM, NESS], TAPROOM)
        self.both_have_below(TAPROOM, [TOM, NESS])
        self.other.wait_for(lambda: len(self.other.lines("strip")) == frames + 1, "that was one frame")
        self.other.move([INN], TAPROOM)
        told = self.other.wait_status("Cycle")
        assert INN in told and "Nothing changed" in told, told
        self.other.move([CAT], None)
        self.both(lambda person: [CAT, 0] in [line[:2] for line in person.forest()], "the cat is a root")

    def try_despawns(self):
        one, other = self.one, self.other
        one.choose(COTTAGE)
        one.click_id("despawn")
        one.wait_status("HasChildren")
        one.click_id("despawn-all")
        self.both(lambda person: not person.is_in("forest", MARJORY), "the cottage is gone with all below")
        other.send_line(f"insert {MARJORY} Age=72")
        told = other.wait_status("NoSuchEntity")
        assert f"session {one.session_number()}" in told and MARJORY in told, told
        other.click_id("forest")
        other.key("z", "Control")
        self.both(lambda person: person.is_in("forest", MARJORY), "the cottage is there again")
        other.key("y", "Control")
        self.both(lambda person: not person.is_in("forest", MARJORY), "the cottage is gone again")
        other.key("[")
        self.both(lambda person: person.is_in("forest", MARJORY), "the cottage is there once more")

    def try_spawns(self):
        one, other = self.one, self.other
        one.fill("spawn-cells", "Name=Stranger Age=30")
        one.click_id("spawn")
        told = one.wait_status("future")
        assert "1 frame" in told and "gone" in told, told
        self.both(lambda person: "Stranger" in [line[2] for line in person.forest()], "the stranger has come")
        one.wait_chosen(next(line[0] for line in one.forest() if line[2] == "Stranger"))
        other.choose(HOB)
        other.fill("spawn-cells", "Name=Purse Coins=9")
        other.click_id("spawn-below")
        purses = lambda: [line[0] for line in one.forest() if line[2] == "Purse"]  # noqa: E731
        purse = one.wait_for(purses, "Hob has a purse")[0]
        self.both_have_below(HOB, [purse])
        other.wait_chosen(purse)
        other.choose(purse)
        other.key("Delete")
        self.both(lambda person: not person.is_in("forest", purse), "the purse is gone")

    def try_resources(self):
        one, other = self.one, self.other
        one.fill("resource-name", "weather")
        one.select("resource-shape", "Text")
        one.fill("resource-value", "rain")
        one.click_id("resource-put")
        self.both(lambda person: "weather" in person.text("resources"), "it rains")
        other.click(other.resource("weather"), count=2)
        other.key("a", "Control")
        other.write("sun")
        other.key("Enter")
        self.both(lambda person: "sun" in person.text("resources"), "the sun shines")
        one.click(one.button_in("resources", "drop weather"))
        self.both(lambda person: "weather" not in person.text("resources"), "there is no weather")
        other.fill("resource-name", "9")
        other.fill("resource-value", "1")
        other.click_id("resource-put")
        other.wait_status("BadName")

    def try_lines(self):
        """A frame of several queues by lines, of which the first waits until `commit`; recall by the arrow up."""
        one = self.one
        for line in ("begin", f"insert {ALDOUS} Coins=90", "queue", f"insert {HOB} Coins=91", "commit"):
            one.send_line(line)
        self.both_show(ALDOUS, "Coins", "90")
        self.both_show(HOB, "Coins", "91")
        one.send_line(f"get {ALDOUS}")
        answer = "document.querySelector('#answers > .answer:last-child')"
        one.wait(f"{answer}?.textContent.includes('{ALDOUS}')", "the row is answered")
        one.send_line("jump")
        one.wait("document.querySelector('#answers > :last-child').classList.contains('refused')", "a bad line is told")
        one.click_id("line")
        for _ in range(3):
            one.key("ArrowUp")
        assert one.evaluate("document.getElementById('line').value") == "commit"
        one.key("Escape")

    def try_strip(self):
        """A click on a frame goes there, also for the other; the last one leads back."""
        one, other = self.one, self.other
        lines = other.lines("strip")
        other.click(other.strip_line(2))
        self.both(lambda person: not person.is_in("forest", ALDOUS), "there were no people after frame 2")
        self.both(lambda person: person.frames() == 2, "frame 2 is the last one")
        assert len(one.lines("strip")) == len(lines)
        one.click(one.strip_line(len(lines) - 1))
        self.both_show(ALDOUS, "Coins", "90")

    def try_kill(self):
        """The shell is killed: both pages say so, it comes back, and each change that was answered is there."""
        for person in (self.one, self.other):
            person.evaluate(NOTE_THE_BANNER)
        for age in range(61, 66):
            self.one.send_line(f"insert {ALDOUS} Age={age}")
        self.one.wait_for(lambda: self.one.cell_text(ALDOUS, "Age") == "65", "the changes are answered")
        self.process.kill_shell()
        for person in (self.one, self.other):
            person.wait("window.bannerTold.length > 0", "the banner tells that the shell is gone")
            person.wait("document.getElementById('shell').getClientRects().length === 0", "the shell is back")
            person.wait_status("begun again")
        self.both_show(ALDOUS, "Age", "65")
        self.one.edit_cell(ALDOUS, "Age", "66")
        self.other.edit_cell(ALDOUS, "Coins", "1")
        self.both_show(ALDOUS, "Age", "66")
        self.both_show(ALDOUS, "Coins", "1")

    def try_reload(self):
        """Reloads, also quicker than a page loads: the tab is the session that it was."""
        number = self.one.session_number()
        for pauses in ((), QUICK_RELOADS):
            self.one.reload_often(pauses)
            self.one.arrived()
            self.one.reload()
            assert self.one.session_number() == number, "a reload took another session"
        alone = f"with session {number}"
        self.other.wait_for(lambda: self.other.text("others") == alone, f"the other is told that {alone}")
        self.both_show(ALDOUS, "Age", "66")

    def try_copy(self):
        """A copy of a tab is a session of its own."""
        numbers = self.one.session_number(), self.other.session_number()
        self.one.open_copy()
        number = self.one.wait("copied.document.getElementById('session')?.textContent.match(/[1-7]/)?.[0]", "a copy")
        assert int(number) not in numbers, f"the copy is session {number}, as one of {numbers}"
        self.one.evaluate("copied.close()")
        self.other.wait_for(lambda: number not in self.other.text("others"), "the copy is gone")


NOTE_THE_BANNER = """(() => {
  window.bannerTold = [];
  const banner = document.getElementById("shell");
  const note = () => { if (banner.getClientRects().length > 0) window.bannerTold.push(banner.textContent); };
  new MutationObserver(note).observe(banner, { attributes: true, childList: true, characterData: true, subtree: true });
})()"""


def children_of(forest, parent):
    """The children of an entity in the lines of a forest."""
    place = next(at for at, line in enumerate(forest) if line[0] == parent)
    level, found = forest[place][1], []
    for entity, each, _ in forest[place + 1:]:
        if each <= level:
            break
        if each == level + 1:
            found.append(entity)
    return found


def try_village(remote, program, room):
    """All that two people do in the village; at the end both pages show what the store has."""
    store = room / "village.db"
    with EditorProcess(program, store, LEVELS / "village.scene") as process:
        village = Village(remote, process)
        for step in (
            village.try_arrival, village.try_cells, village.try_components, village.try_moves, village.try_despawns,
            village.try_spawns, village.try_resources, village.try_lines, village.try_strip, village.try_kill,
            village.try_reload, village.try_copy,
        ):  # fmt: skip
            step()
            village.one.check()
            village.other.check()
        seen = [shown(person) for person in (village.one, village.other)]
        village.one.close()
        village.other.close()
    scene = saved(program, store)
    for each in seen:
        hold(each, scene)
