"""A level from nothing: kinds by the form, the first entities, and texts that a page must not take for markup."""
from agreement import hold, shown
from editor_process import EditorProcess, saved
from person import Person

KINDS = [("Name", "Text"), ("Health", "Int"), ("Place", "Vec3"), ("Seen", "Tag"), ("Aim", "Link")]
RUN = "document.title='run'"
MARKUP = ["<b>bold</b>", f"<script>{RUN}</script>", f'"><img src=x onerror={RUN}>', "&lt;&#60;"]
GREATEST = "9223372036854775807"


def declare(person):
    """The kinds of the setup, after some that are refused."""
    for name, shape in [("9lives", "Int"), *KINDS, ("Name", "Int")]:
        person.fill("setup-name", name)
        person.select("setup-shape", shape)
        person.click_id("setup-add")
        if name == "9lives":
            person.wait_status("BadName")
        elif (name, shape) in KINDS:
            person.wait_for(lambda: name in person.text("setup-kinds"), f"the kind {name} is there")
    person.wait_status("KindTaken")


def spawn(person, cells, count):
    person.fill("spawn-cells", cells)
    person.click_id("spawn")
    person.wait_for(lambda: len(person.forest()) == count, f"{cells} is there")
    person.wait_chosen(f"{count - 1}v1")


def try_setup(remote, program, room):
    store = room / "new.db"
    with EditorProcess(program, store) as process:
        person = Person(remote, process.address)
        person.wait_for(lambda: not person.is_hidden("setup"), "the setup is shown")
        declare(person)
        person.click_id("setup-end")
        person.wait_for(lambda: person.is_hidden("setup"), "the setup is over")
        for at, name in enumerate(MARKUP):
            spawn(person, f"Name={name} Health={GREATEST} Aim={at}v1", at + 1)
        person.fill("spawn-cells", "two words")
        person.click_id("spawn")
        person.wait_status("no component")
        spawn(person, "Name=two words Place=1, -2, 3 Seen", len(MARKUP) + 1)
        person.send_line(f"put motto Text={MARKUP[1]}")
        person.wait_for(lambda: MARKUP[1] in person.text("resources"), "the resource is there")
        strange = "document.querySelectorAll('main script, main img, footer script, footer img, .line .text b').length"
        assert person.evaluate(strange) == 0 and "run" not in person.evaluate("document.title")
        person.check()
        seen = shown(person)
        person.close()
    hold(seen, saved(program, store))
