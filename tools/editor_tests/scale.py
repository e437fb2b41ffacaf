"""What the page itself costs over many entities: the processor time of its thread from a key or a click until nothing
is left to do, whatever else the machine does."""
import time

from latency import many_script
from editor_process import EditorProcess
from person import Person

QUIET = 0.6


def busy(person):
    """The milliseconds of the page's thread so far: all tasks."""
    metrics = {each["name"]: each["value"] for each in person.call("Performance.getMetrics")["metrics"]}
    return 1000 * metrics["TaskDuration"]


def cost(person, do):
    """What the page spends for something that is done, until it is quiet again."""
    time.sleep(QUIET)
    before = busy(person)
    do()
    last = busy(person)
    while True:
        time.sleep(QUIET)
        now = busy(person)
        if now - last < 1:
            return now - before
        last = now


def typed_search(person, text):
    """The search as one input, as of a paste."""
    person.evaluate(f"(() => {{ const field = document.getElementById('search'); field.value = '{text}';"
                    " field.dispatchEvent(new Event('input', { bubbles: true })); })()")


def scale(remote, program, room, count):
    """Words of what things cost the page at so many entities."""
    script, store = room / f"scale_{count}.scene", room / f"scale_{count}.db"
    script.write_text(many_script(count))
    with EditorProcess(program, store, script) as process:
        person = Person(remote, process.address)
        person.call("Performance.enable", timeDomain="threadTicks")
        said = [f"opening {cost(person, person.reload):.0f}"]
        for what, do in (
            ("choosing", lambda: person.choose("0v1")),
            ("a search", lambda: typed_search(person, "thing_77")),
            ("a search of all", lambda: typed_search(person, "thing")),
            ("its end", lambda: typed_search(person, "")),
            ("an edit", lambda: person.send_line("insert 0v1 Number=5")),
            ("an undo", lambda: person.click_id("undo")),
            ("a spawn", lambda: person.send_line("spawn Name=one_more")),
        ):
            said.append(f"{what} {cost(person, do):.0f}")
        person.check()
        person.close()
    return f"{count:,} entities, milliseconds of the page's thread: {', '.join(said)}"
