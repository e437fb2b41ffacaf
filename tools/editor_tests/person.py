"""A person at the editor's page: what they see in its lists, and what they do there with keys and mouse."""
import json

from tab import Tab

# The drawn line of an entity in a list. Only lines in sight are drawn, so the list is scrolled until it is.
ENTITY_OF = 'const entityOf = (line) => line.dataset.entity ?? line.querySelector("b")?.textContent;'
FIND = """(async () => {
  """ + ENTITY_OF + """
  const box = document.getElementById(%s);
  const at = () => [...box.querySelectorAll(".line")].find((line) => entityOf(line) === %s);
  if (at()) return true;
  const step = Math.max(box.clientHeight - 48, 24);
  for (let top = 0; top < box.scrollHeight; top += step) {
    box.scrollTop = top;
    await new Promise((done) => requestAnimationFrame(() => setTimeout(done)));
    if (at()) return true;
  }
  return false;
})()"""
# All lines of a list from its first to its last: what each element says, by its place.
READ = """(async () => {
  const box = document.getElementById(%s);
  const found = new Map();
  const before = box.scrollTop;
  for (let top = 0; top <= box.scrollHeight; top += Math.max(box.clientHeight - 48, 24)) {
    box.scrollTop = top;
    await new Promise((done) => requestAnimationFrame(() => setTimeout(done)));
    for (const line of box.querySelectorAll(".line")) found.set(Number(line.dataset.place), (%s)(line));
  }
  box.scrollTop = before;
  return [...found].sort(([one], [other]) => one - other).map(([place, said]) => said);
})()"""
TEXT = "(line) => line.textContent"
FOREST_LINE = """(line) => [
  line.querySelector(".id")?.textContent, Number(line.ariaLevel) - 1, line.querySelector(".name")?.textContent,
]"""
TABLE_LINE = """(line) => [
  line.querySelector("b")?.textContent ?? null,
  Object.fromEntries([...line.querySelectorAll("[data-kind]")].map((cell) => [
    cell.dataset.kind, (cell.querySelector(".id") ?? cell).textContent,
  ])),
]"""


SHOWN = "document.getElementById('detail').dataset.entity"
EXPORTED = "fetch('export?what=%s').then((answer) => answer.text())"
# The sizes at which a row's pictures are kept: a desk, the least for all panes, and a phone.
SIZES = {"wide": (1400, 900), "least": (1000, 700), "narrow": (420, 800)}


class Person(Tab):
    """A tab on the editor's page. Pictures of it are kept in the folder `album`, if it is set."""

    album = None

    def __init__(self, remote, address):
        super().__init__(remote, address)
        self.arrived()

    def arrived(self):
        """Waits until the page has joined, and has drawn what it got."""
        self.wait("/[1-7]/.test(document.getElementById('session')?.textContent)", "the page has joined")
        self.wait("document.getElementById('found').textContent !== ''", "the page has drawn the scene")

    def reload(self):
        super().reload()
        self.arrived()

    def session_number(self):
        return int(self.evaluate("document.getElementById('session').textContent.match(/[1-7]/)[0]"))

    def keep(self, name, pane=None, schemes=("light",)):
        """Keeps pictures of what is seen, at each size; where panes are shown one at a time, of a pane."""
        if self.album is None:
            return
        for scheme in schemes:
            self.schemed(scheme)
            for size, (width, height) in SIZES.items():
                self.sized(width, height)
                if pane is not None and size == "narrow":
                    self.show_pane(pane)
                self.settle()
                kept = name if scheme == "light" else f"{name}_{scheme}"
                (self.album / f"{kept}_{size}.png").write_bytes(self.picture())
        self.schemed("light")
        self.sized()

    def choose_all(self, entities):
        """Chooses entities in the forest, each by a click with Ctrl but for the first."""
        for at, entity in enumerate(entities):
            self.choose(entity, *(["Control"] if at > 0 else []))

    def wait_chosen(self, entity):
        """Waits until the pane of what is chosen is of an entity."""
        self.wait(f"{SHOWN} === {json.dumps(entity)}", f"{entity} is chosen")

    def menu(self, words):
        """Picks what the open menu has with such words."""
        entries = "[...document.querySelectorAll('.menu button')]"
        self.click(f"{entries}.find((each) => each.textContent.startsWith({json.dumps(words)}))")

    def fill_field(self, expression, text):
        """Clicks into a field, and writes in place of what is there."""
        self.click(expression)
        self.key("a", "Control")
        self.key("Backspace")
        self.write(text)

    def property(self, kind, at=0):
        """The expression of a field of a component of what is chosen."""
        return f"document.querySelectorAll('#detail [data-kind={kind}] :is(input, textarea)')[{at}]"

    def frames(self):
        """How many frames of the past the page tells of."""
        return int(self.text("position").split(" ")[0].replace(",", ""))

    def newest(self):
        """The words of the newest frame of the past."""
        return self.evaluate("document.getElementById('strip').querySelector('[aria-current] .text')?.textContent")

    def wait_frames(self, count):
        self.wait_for(lambda: self.frames() == count, f"there are {count} frames of the past")

    def scene(self):
        """The scene that the server has behind all that this page has sent: lines go in their order, so the answer to a
        further one comes behind the others. What must not be sent isn't in it."""
        said = "document.querySelectorAll('#answers > .answer').length"
        before = self.evaluate(said)
        self.send_line("history")
        self.wait(f"{said} > {before}", "a line is answered")
        return json.loads(self.evaluate(EXPORTED % "dumpall"))

    @staticmethod
    def by_id(name):
        return f"document.getElementById({json.dumps(name)})"

    def text(self, name):
        return self.evaluate(f"{self.by_id(name)}.textContent")

    def is_hidden(self, name):
        return self.evaluate(f"{self.by_id(name)}.getClientRects().length === 0")

    def wait_status(self, words):
        """Waits until the status has these words, and gives it whole."""
        said = lambda: next((told for told in [self.status()] if words in told), None)  # noqa: E731
        return self.wait_for(said, f"the status has {words!r}")

    def fill(self, name, text):
        """Clicks into a box, and writes in place of what is there."""
        self.click_id(name)
        self.key("a", "Control")
        self.key("Backspace")
        self.write(text)

    def search(self, text):
        self.fill("search", text)

    def line_of(self, name, entity):
        """The expression of an entity's line in a list, which is in sight then."""
        self.wait(FIND % (json.dumps(name), json.dumps(entity)), f"{name} has a line of {entity}")
        lines = f"[...{self.by_id(name)}.querySelectorAll('.line')]"
        is_it = f"(line.dataset.entity ?? line.querySelector('b')?.textContent) === {json.dumps(entity)}"
        return f"{lines}.find((line) => {is_it})"

    def is_in(self, name, entity):
        return self.evaluate(FIND % (json.dumps(name), json.dumps(entity)))

    def choose(self, entity, *held):
        """Clicks on an entity in the forest, and waits until the page shows that it is chosen."""
        self.click(self.line_of("forest", entity), *held)
        self.wait_chosen(entity)

    def cell(self, entity, kind):
        """The expression of a cell in the tables."""
        return f"{self.line_of('tables', entity)}?.querySelector('[data-kind={kind}]')"

    def cell_text(self, entity, kind):
        """What a cell says; a link's entity."""
        cell = self.cell(entity, kind)
        return self.evaluate(f"((cell) => (cell?.querySelector('.id') ?? cell)?.textContent ?? null)({cell})")

    def edit_cell(self, entity, kind, value, end="Enter"):
        """Double clicks on a cell, writes a value in place of what is there, and ends with a key."""
        self.click(self.cell(entity, kind), count=2)
        self.key("a", "Control")
        self.write(value)
        self.key(end)

    def resource(self, name):
        """The expression of a resource's value in its list."""
        values = f"[...{self.by_id('resources')}.querySelectorAll('.value')]"
        return f"{values}.find((value) => value.closest('.line').textContent.startsWith({json.dumps(name)}))"

    def send_line(self, line):
        """Writes a line into the box for lines, and sends it."""
        self.fill("line", line)
        self.key("Enter")

    def select(self, name, text):
        """Picks the first option with such a text, once there is one, by the arrow keys: a click would open a list
        beside the page."""
        said = f"[...{self.by_id(name)}.options].map((option) => option.textContent)"
        is_it = f"(each) => each.startsWith({json.dumps(text)})"
        self.wait(f"{said}.some({is_it})", f"{name} has an option {text}")
        self.evaluate(f"{self.by_id(name)}.focus()")
        self.key("Home")
        for _ in range(self.evaluate(f"{said}.findIndex({is_it})")):
            self.key("ArrowDown")
        picked = self.evaluate(f"{self.by_id(name)}.selectedOptions[0].textContent")
        assert picked.startswith(text), f"{name}: {picked} was picked in place of {text}"

    def button_in(self, name, words):
        """The expression of the first button in a part whose text or label has these words."""
        said = "(button.textContent + ' ' + (button.ariaLabel ?? '') + ' ' + button.title)"
        buttons = f"[...{self.by_id(name)}.querySelectorAll('button')]"
        return f"{buttons}.find((button) => {said}.includes({json.dumps(words)}))"

    def strip_line(self, place):
        """The expression of a line of the frames, which is in sight then; 0 is the beginning."""
        shown = f"!!{self.by_id('strip')}.querySelector('[data-place=\"{place}\"]')"
        self.wait(f"({self.by_id('strip')}.scrollTop = {24 * place - 48}, {shown})", f"frame {place} is in sight")
        return f"{self.by_id('strip')}.querySelector('[data-place=\"{place}\"]')"

    def show_pane(self, name):
        """In a narrow window, shows a pane by its tab."""
        self.click_id(f"tab-pane-{name}")

    def tab_to(self, name, *held):
        """Presses Tab, or with Shift the way back, until a part has the focus."""
        for _ in range(120):
            if self.evaluate("document.activeElement.id") == name:
                return
            self.key("Tab", *held)
        raise AssertionError(f"Tab doesn't lead to {name}")

    def lines(self, name):
        return self.evaluate(READ % (json.dumps(name), TEXT))

    def forest(self):
        """The forest as the page shows it: of each line the entity, its level, and its cells as text."""
        return self.evaluate(READ % (json.dumps("forest"), FOREST_LINE))

    def table_lines(self):
        return self.evaluate(READ % (json.dumps("tables"), TABLE_LINE))

    def move(self, entities, target):
        """Chooses entities, and drags one of them onto the line of another, or onto `to-root`."""
        self.choose(entities[0])
        for entity in entities[1:]:
            self.choose(entity, "Control")
        self.settle()
        onto = lambda: self.by_id("to-root") if target is None else self.line_of("forest", target)  # noqa: E731
        self.drag(self.line_of("forest", entities[0]), onto)
