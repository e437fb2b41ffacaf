"""Takes the pictures of the editor that docs/ has."""
import time

from editor_process import LEVELS, TOP, EditorProcess
from meadow_walk import FOUNTAIN, frames
from palette import with_few_colors
from person import Person
from village_walk import HOB

MOST_BYTES = 120_000
STEPS = 30
ROSAMUND, TRAVELER = "62v1", "63v1"


def keep(person, name):
    person.check()
    time.sleep(0.3)
    picture = with_few_colors(person.picture())
    assert len(picture) < MOST_BYTES, f"{name} has {len(picture)} bytes"
    (TOP / "docs" / name).write_bytes(picture)
    print(f"editor: docs/{name} has {len(picture):,} bytes")


def forest_picture(remote, program, room):
    """Two people in the village: one has chosen some, the other has just changed a cell."""
    with EditorProcess(program, room / "forest_picture.db", LEVELS / "village.scene") as process:
        person, other = Person(remote, process.address), Person(remote, process.address)
        for entity in (ROSAMUND, TRAVELER, HOB):
            person.choose(entity, *(["Control"] if entity != ROSAMUND else []))
        other.edit_cell(HOB, "Coins", "70")
        person.wait_status("Coins of Hob is 70")
        keep(person, "editor_forest.png")
        other.close()
        person.close()


def systems_picture(remote, program, room):
    with EditorProcess(program, room / "systems_picture.db", LEVELS / "meadow.scene") as process:
        person = Person(remote, process.address)
        before = frames(person)
        for step in range(1, STEPS + 1):
            person.click_id("step")
            person.wait_for(lambda: frames(person) == before + step, f"step {step}")
        person.choose(FOUNTAIN)
        keep(person, "editor_systems.png")
        person.close()


def take_pictures(remote, program, room):
    forest_picture(remote, program, room)
    systems_picture(remote, program, room)
