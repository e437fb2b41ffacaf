"""How the page looks: nothing lies over another from 1000x700 up, one pane at a time at 420, contrast in both schemes,
panes that fold and resize, and are remembered, and the list of frames."""
from contrast import hold_contrasts
from editor_process import LEVELS, EditorProcess
from keyboard_walk import PANES, SHOWN
from person import Person
from village_walk import GERRIC, MAUD

SIZES = ((1000, 700), (1280, 720), (1400, 900), (1920, 1080))
# Pairs of parts that lie over another, and those that are cut off by their pane or the window.
OVERLAPS = """(() => {
  const which = "header > *, .pane > *, .head > *, .row > *, form > *, .splitter, #status";
  const parts = [...document.querySelectorAll(which)]
    .filter((each) => each.getClientRects().length > 0 && !each.closest("dialog"));
  const seen = (part) => {
    const own = part.getBoundingClientRect();
    let [left, top, right, bottom] = [own.left, own.top, own.right, own.bottom];
    for (let up = part.parentElement; up !== null; up = up.parentElement) {
      if (getComputedStyle(up).overflow === "visible") continue;
      const area = up.getBoundingClientRect();
      [left, top] = [Math.max(left, area.left), Math.max(top, area.top)];
      [right, bottom] = [Math.min(right, area.right), Math.min(bottom, area.bottom)];
    }
    return { left, top, right, bottom };
  };
  const isSeen = ([, { left, right, top, bottom }]) => right - left > 1 && bottom - top > 1;
  const areas = parts.map((part) => [part, seen(part)]).filter(isSeen);
  const named = (part) => part.id || part.className || `${part.tagName} ${part.textContent.slice(0, 20)}`;
  const found = [];
  areas.forEach(([one, area], at) => areas.slice(at + 1).forEach(([other, its]) => {
    if (one.contains(other) || other.contains(one)) return;
    if (one.matches(".splitter") || other.matches(".splitter")) return;
    const across = Math.min(area.right, its.right) - Math.max(area.left, its.left);
    const down = Math.min(area.bottom, its.bottom) - Math.max(area.top, its.top);
    if (across > 1 && down > 1) found.push(`${named(one)} over ${named(other)}`);
  }));
  for (const [part] of areas) {
    const { left, right, bottom } = part.getBoundingClientRect();
    const canScroll = part.closest(".column.scrolls") !== null;
    const isCut = left < -1 || right > innerWidth + 1 || (bottom > innerHeight + 1 && !canScroll);
    if (isCut) found.push(`${named(part)} is cut off`);
  }
  return found;
})()"""
WIDTH = "Math.round(document.getElementById('%s').getBoundingClientRect().width)"
NOW = """(() => {
  const box = document.getElementById("strip").getBoundingClientRect();
  const now = document.querySelector("#strip [aria-current]")?.getBoundingClientRect();
  return now !== undefined && now.top >= box.top - 1 && now.bottom <= box.bottom + 1;
})()"""


def try_sizes(person):
    """Nothing lies over another, nor is cut off, at any size."""
    person.choose_all([GERRIC, MAUD])
    for width, height in SIZES:
        person.sized(width, height)
        person.settle()
        found = person.evaluate(OVERLAPS)
        assert not found, f"at {width}x{height}: {found[:5]}"
        assert person.evaluate("document.documentElement.scrollWidth <= innerWidth"), f"at {width} it is too wide"
        person.wait(NOW, f"at {width}x{height} the line of now is in sight")
    person.sized(420, 800)
    for name in PANES:
        person.show_pane(name)
        person.settle()
        assert person.evaluate(SHOWN) == [name], person.evaluate(SHOWN)
        found = person.evaluate(OVERLAPS)
        assert not found, f"at 420, {name}: {found[:5]}"
        if person.album is not None:
            (person.album / f"narrow_{name}.png").write_bytes(person.picture())
    person.sized()


def try_contrasts(person):
    """The contrasts of both schemes, with something found, chosen and refused."""
    person.search("a")
    person.send_line("insert 9v9 Age=4")
    person.wait_status("NoSuchEntity")
    said = []
    for scheme in ("light", "dark"):
        person.schemed(scheme)
        person.settle()
        said.append(hold_contrasts(person, scheme))
    person.keep("looks", "forest", schemes=("light", "dark"))
    person.schemed("light")
    person.click_id("search")
    person.key("Escape")
    return "; ".join(said)


def try_panes(person):
    """Panes fold by a button and are resized by keys and by the mouse; a page that is loaded anew has them so."""
    before = person.evaluate(WIDTH % "left")
    person.evaluate("document.getElementById('split-left').focus()")
    for _ in range(3):
        person.key("ArrowRight")
    wide = person.evaluate(WIDTH % "left")
    assert wide == before + 48, (before, wide)
    x, y = person.center("document.getElementById('split-right')")
    person.pull((x, y), (x - 60, y))
    right = person.evaluate(WIDTH % "right")
    person.click("document.querySelector('#pane-tables .turn')")
    person.click("document.querySelector('#pane-lines .turn')")
    person.wait_for(lambda: person.is_hidden("tables"), "the tables are folded")
    found = person.evaluate(OVERLAPS)
    assert not found, found[:5]
    person.keep("folded", "forest")
    person.reload()
    person.settle()
    assert person.is_hidden("tables") and person.is_hidden("line"), "they are folded still"
    assert [person.evaluate(WIDTH % name) for name in ("left", "right")] == [wide, right], "they are as wide"
    for name in ("tables", "lines"):
        person.click(f"document.querySelector('#pane-{name} .turn')")
    person.wait_for(lambda: not person.is_hidden("tables") and not person.is_hidden("line"), "they unfold")
    person.evaluate("document.cookie = 'scene-panes=; path=/; max-age=0'")


def try_now(person):
    """The line of now stays in sight, also after the list was clicked."""
    for age in range(30, 60):
        person.send_line(f"insert {GERRIC} Age={age}")
    person.wait_for(lambda: person.cell_text(GERRIC, "Age") == "59", "many frames")
    person.wait(NOW, "the line of now is in sight")
    place = person.frames() - 3
    person.click(person.strip_line(place))
    person.wait_frames(place)
    person.wait(NOW, "and where a click went")
    person.send_line(f"insert {GERRIC} Age=70")
    person.wait_for(lambda: person.cell_text(GERRIC, "Age") == "70", "one more")
    person.wait(NOW, "and after that")
    person.evaluate("document.getElementById('strip').scrollTop = 0")
    person.click_id("to-now")
    person.wait(NOW, "a button leads there")


def try_looks(remote, program, room):
    with EditorProcess(program, room / "looks.db", LEVELS / "village.scene") as process:
        person = Person(remote, process.address)
        told = [step(person) for step in (try_sizes, try_contrasts, try_panes, try_now)]
        person.close()
    return f"least contrasts {told[1]}"
