"""How long it takes from a key to the page's change, over many entities; how long a store takes to open; and how fast a
play reaches a page."""
import statistics
import time

from edit_parts import FORGET, TOLD, by_http, by_shell, medians
from editor_process import EditorProcess
from person import Person

# From the key that ends the edit until the first frame in which the cell has its new text.
TIMED = """(() => {
  window.timed = new Promise((done) => {
    addEventListener("keydown", (event) => {
      const begun = event.timeStamp;
      const look = () => (%s ? done(performance.now() - begun) : requestAnimationFrame(look));
      requestAnimationFrame(look);
    }, { capture: true, once: true });
  });
})()"""


def many_script(count):
    """A forest of so many entities, ten below each, made in one frame."""
    lines = ["kind Name Text", "kind Number Int", "begin"]
    lines += [f"spawn Name=thing_{at} Number={at}" for at in range(count)]
    lines += [f"parent +{at} +{(at - 1) // 10}" for at in range(1, count)]
    return "\n".join([*lines, "commit", ""])


def edits(person, entity, count):
    """The milliseconds of so many edits in place, each from its Enter to the page's change, and of what they consist."""
    found, steps = [], []
    for number in range(count):
        text = str(20_000 + number)
        person.click(person.cell(entity, "Number"), count=2)
        person.key("a", "Control")
        person.write(text)
        person.evaluate(TIMED % f"({person.cell(entity, 'Number')})?.textContent === '{text}'")
        person.evaluate(FORGET)
        person.key("Enter")
        found.append(person.evaluate("window.timed"))
        steps.append(person.evaluate("window.times"))
    return found, steps


def turns(person, count):
    """The same of undo and redo in turn, until the strip marks another frame as now."""
    found = []
    person.click_id("forest")
    for number in range(count):
        before = person.text("position")
        person.evaluate(TIMED % f"document.getElementById('position').textContent !== {before!r}")
        person.key("[" if number % 2 == 0 else "]")
        found.append(person.evaluate("window.timed"))
    return found


def figures(times):
    return f"median {statistics.median(times):.0f} ms, worst {max(times):.0f} ms of {len(times)}"


def searches(person, count):
    """The same of a search, a letter more or less in turn, until it says how many are found."""
    found = []
    person.fill("search", "thing_77")
    for number in range(count):
        before = person.wait_for(lambda: person.text("found"), "it says how many")
        person.evaluate(TIMED % f"document.getElementById('found').textContent !== {before!r}")
        person.key(*(["7"] if number % 2 == 0 else ["Backspace"]))
        found.append(person.evaluate("window.timed"))
    return found


def choices(person, entities):
    """The same of clicks on entities, until the pane shows each."""
    found = []
    clicked = TIMED.replace("keydown", "mousedown")
    for entity in entities:
        line = person.line_of("forest", entity)
        person.evaluate(clicked % f"document.getElementById('detail').dataset.entity === '{entity}'")
        person.click(line)
        found.append(person.evaluate("window.timed"))
    return found


def figures(times):
    return f"median {statistics.median(times):.0f} ms, worst {max(times):.0f} ms of {len(times)}"


def opening(remote, program, store):
    """The seconds until the server of a store is ready, and until a page has drawn it then; the editor, the page."""
    begun = time.monotonic()
    process = EditorProcess(program, store)
    ready = time.monotonic()
    person = Person(remote, process.address)
    return ready - begun, time.monotonic() - ready, process, person


def latency(remote, program, room, count, edited):
    """Words that tell how long a level of so many entities takes to open, to choose in, to edit, undo and search."""
    script, store = room / f"many_{count}.scene", room / f"many_{count}.db"
    script.write_text(many_script(count))
    with EditorProcess(program, store, script):
        pass
    server, page, process, person = opening(remote, program, store)
    with process:
        person.call("Page.addScriptToEvaluateOnNewDocument", source=TOLD)
        person.reload()
        person.search("thing_77")
        person.wait_for(lambda: person.is_in("tables", "77v1"), "the entity is found", 60)
        chosen = choices(person, [f"{each}v1" for each in (77, 770, 771, 772, 773, 774) * 3])
        edit, steps = edits(person, "77v1", edited)
        undo, search = turns(person, edited // 2), searches(person, edited // 2)
        person.check()
        person.close()
        http = by_http(process.address, "77v1", edited)
    shell = by_shell(program, store, "77v1", edited)
    return "\n  ".join((
        f"{count:,} entities: opened in {server + page:.1f} s, the server {server:.1f} and the page {page:.1f};",
        f"choosing: {figures(chosen)}; an edit: {figures(edit)}; undo and redo: {figures(undo)};",
        f"a search: {figures(search)};",
        f"an edit's parts in ms: {medians(steps)}; without a page {http:.1f}, by the shell alone {shell:.1f}",
    ))


# How many places of the strip the page showed within some seconds.
SHOWN = """new Promise((done) => {
  const seen = new Set();
  const end = performance.now() + 1000 * %s;
  const look = () => {
    seen.add(document.getElementById("position").textContent);
    if (performance.now() < end) requestAnimationFrame(look);
    else done(seen.size - 1);
  };
  requestAnimationFrame(look);
})"""
SECONDS_PLAYED = 5


def moving_script(count):
    """So many entities, each of which a system moves."""
    lines = ["kind Name Text", "kind Place Vec3", "kind Speed Vec3", "begin"]
    lines += [f"spawn Name=thing_{at} Place={at % 100},{at // 100},0 Speed=1,{at % 3},0" for at in range(count)]
    return "\n".join([*lines, "commit", "phase", "system move need=Place,Speed addvec:Place:Speed", ""])


def playing(remote, program, room, count):
    """Words that tell how many frames a second of a play over so many rows are shown."""
    script, store = room / f"moving_{count}.scene", room / f"moving_{count}.db"
    script.write_text(moving_script(count))
    with EditorProcess(program, store, script) as process:
        person = Person(remote, process.address)
        person.click_id("play")
        person.wait_for(lambda: person.frames() > 10, "it plays")
        shown = person.evaluate(SHOWN % SECONDS_PLAYED)
        person.click_id("stop")
        person.wait_status("Stopped")
        person.close()
    return f"a play that writes {count:,} rows: {shown / SECONDS_PLAYED:.1f} frames a second are shown"
