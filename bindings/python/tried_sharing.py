"""What try_scene.py tries of sharing over the library: a scene that several threads read at once, each by a reader,
what it refuses meanwhile, and who has it behind that."""
from __future__ import annotations

import threading
from typing import Any, Callable, Dict, List

from scene import AddInt, BadLine, Calls, Closed, OtherThread, SceneError, Shared
from scene.header import SHARED
from scene.library import LibraryScene, Moment
from tried_library import calls_of, some_rows
from trying import KINDS, Begin, error_of, is_bad, is_set_up, over_library, refusal, spawned, to_come

THREADS, ROUNDS, SECONDS = 4, 5, 60
# What a shared scene refuses: all that changes it, and what is a line or a request.
CHANGES = set("line request show get changed added mark load declare set_depth spawn insert insert_all remove".split())
CHANGES |= set("despawn despawn_all set_parent parent put drop frame drop_frame undo redo advance".split())
CHANGES |= {"add_phase", "add_system", "clear_systems"}
# What of its calls goes on but what only reads.
SHARING = {"share", "unshare", "reader", "close", "play"}


def grown(begun: Calls) -> LibraryScene:
    """A scene with a tree, resources and systems, with frames to undo and one to redo."""
    world = over_library(begun)
    some_rows(world)
    with world.frame():
        for number in range(10, 40):
            world.set_parent(f"{number}v1", f"{number % 5}v1")
        world.put("title", "Big House")
        world.put("left", 7)
    world.add_system("age", AddInt("Health", 1), need=["Health"])
    world.insert("5v1", Name="five", Health=5)
    world.undo()
    with world.frame():
        world.spawn(Health=1)
        world.insert("6v1", Health=6)
    world.despawn_all("8v1")
    world.undo()
    return world


def seen(world: LibraryScene) -> List[Any]:
    """All that is read of a scene."""
    rows, now = world.rows(), world.now()
    named, before = [row.entity for row in rows], Moment(now.rewinds, now.tick - 1)
    told: List[Any] = [rows, now, world.status(), world.depth, world.in_frame, world.roots(), world.resources()]
    told += [world.save(), world.save(world_alone=True), world.spawned_last(), world.listed_last()]
    told += [world.changed_since(before), world.added_since(before), world.tables("Name"), world.check_systems()]
    told += [world.values(named, kind) for kind in KINDS]
    told += [[row == world.row(row.entity) for row in rows], world.get("3v1", "Health"), world.resource("title")]
    told += [step(place) for step in (world.past_step, world.future_step) for place in range(8)]
    for mask, _ in world.tables():
        told += [bytes(world.entities(mask)), world.kinds_of(mask)]
        told += [bytes(world.changed_ticks(mask, kind)) for kind in world.kinds_of(mask)]
    return told


def try_changes(world: LibraryScene) -> None:
    """Some of what changes a scene is refused, and what arguments alone say comes first."""
    for call in (world.spawn, world.undo, world.redo, world.mark, world.advance, world.show, world.clear_systems):
        error_of(Shared, call)
    error_of(Shared, world.insert, "0v1", Name="a", Health=1)
    error_of(Shared, world.put, "left", 1)
    error_of(Shared, world.unshare)
    assert is_bad(world.insert, "0v1", Nothing=1) and is_bad(world.set_depth, 0)
    error_of(TypeError, world.insert, "0v1", Health=None)


def run_all(calls: List[Callable[[], None]], meanwhile: Callable[[], None] = lambda: None) -> None:
    """Makes each call in a thread of its own, all at once, and another one here. What goes wrong in a thread, Python
    tells on standard error."""
    running = [threading.Thread(target=call) for call in calls]
    for thread in running:
        thread.start()
    meanwhile()
    for thread in running:
        thread.join()


def readers_at_once(begin: Begin) -> None:
    """Several threads read at once what was there before, while one of them tries changes; then the scene goes on."""
    with begin() as begun:
        world = grown(begun)
        wanted, start = seen(world), threading.Barrier(THREADS, timeout=SECONDS)
        same: List[bool] = []
        world.share()

        def reading(reader: LibraryScene, changes: bool) -> Callable[[], None]:
            def read() -> None:
                with reader:
                    for _ in range(ROUNDS):
                        start.wait()
                        if changes:
                            try_changes(reader)
                        same.append(seen(reader) == wanted)

            return read

        running = [reading(world.reader(), number == 0) for number in range(THREADS)]
        run_all(running, lambda: same.append(seen(world) == wanted))
        assert same == [True] * (THREADS * ROUNDS + 1)
        world.unshare()
        assert seen(world) == wanted
        saved = world.save()
        world.redo()
        world.undo()
        assert world.save() == saved
        world.advance()
        world.undo(world.status().undo)
        assert world.rows() == []


def changes_of_shared(begin: Begin) -> None:
    """Each call that would change a shared scene is a `Shared`, and no call that only reads is an error."""
    with begin() as begun:
        world = over_library(begun)
        spawned(world, Health=1)
        spawned(world, Health=2)
        world.put("left", 1)
        world.share()
        before = world.save(), world.now(), world.spawned_last()
        came: Dict[str, Any] = {}
        for name, call in calls_of(world):
            try:
                came[name] = call() if name not in SHARING else None
            except SceneError as error:
                came[name] = error
        assert {name for name, one in came.items() if isinstance(one, Shared)} == CHANGES, came
        wrong = {name: one for name, one in came.items() if isinstance(one, SceneError) and name not in CHANGES}
        assert not wrong and SHARING < set(came) and isinstance(came["put"], RuntimeError), wrong
        assert world.play(b"spawn") == (SHARED, b"") and (world.save(), world.now(), world.spawned_last()) == before
        world.unshare()
        assert world.spawn() == "2v1"


def unshared_scenes(begin: Begin) -> None:
    """A scene stays shared while others have it; then it goes back, and on again, as one that never was shared."""
    with begin() as begun:
        world = over_library(begun)
        cat = spawned(world, Health=9)
        before = world.show()
        world.insert(cat, Health=5)
        behind = world.save()
        assert "isn't shared" in str(error_of(BadLine, world.reader))
        world.unshare()
        world.share()
        world.share()
        reader = world.reader()
        further = reader.reader()
        for each in (world, reader, further):
            assert "others" in str(error_of(Shared, each.unshare)) and each.get(cat, "Health") == 5
        reader.close()
        reader.close()
        for call in (reader.rows, reader.share, reader.reader, reader.unshare, reader.spawn):
            error_of(Closed, call)
        error_of(Shared, world.unshare)
        with further:
            assert further.save() == behind
        world.unshare()
        assert world.save() == behind
        world.undo()
        assert world.show() == before
        world.redo()
        assert world.save() == behind and is_bad(world.reader)


def whoever_is_left(begin: Begin) -> None:
    """The scene that is closed first leaves it to a reader, which then changes it, also in a thread of its own."""
    with begin() as begun:
        world = over_library(begun)
        cat = spawned(world, Health=9)
        world.share()
        made: List[Any] = []
        reader = world.reader()

        def go_on() -> None:
            with reader:
                reader.unshare()
                made.append(reader.spawn(Health=7))
                reader.undo()
                assert refusal(reader.undo, 2).number == 15 and reader.get(cat, "Health") == 9
                made.append(reader.line("spawn")[0])

        world.close()
        error_of(Closed, world.rows)
        run_all([go_on])
        assert made == ["1v1", "done 1v1"]


def threads_of_readers(begin: Begin) -> None:
    """A reader belongs to the thread that calls it first, as the scene does to the one that opened it."""
    with begin() as begun:
        world = over_library(begun)
        spawned(world, Health=1)
        world.put("left", 1)
        world.share()
        told: List[Any] = []
        hold_elsewhere(world, told)
        # (nobody has that reader any more, so that it is closed)
        world.unshare()
        world.share()
        for _ in range(20):
            ask_at_once(world.reader(), told)
        assert told == [1, *(["other", "own"] * 20)]
        run_all([lambda: told.append(error_of(OtherThread, world.reader))])
        world.unshare()


def hold_elsewhere(world: LibraryScene, told: List[Any]) -> None:
    """A reader that another thread has called first is no other one's, also not to close it."""
    reader = world.reader()
    run_all([lambda: told.append(reader.get("0v1", "Health"))])
    came: Dict[str, bool] = {}
    for name, call in calls_of(reader):
        try:
            call()
            came[name] = False
        except OtherThread:
            came[name] = True
    # (an insert without components has nothing to do)
    assert all(came.values()) and {"close", "reader", "rows"} < set(came), came
    error_of(Shared, world.unshare)


def ask_at_once(reader: LibraryScene, told: List[Any]) -> None:
    """Of two threads that call a reader first at once, one has it."""
    came: List[str] = []
    start = threading.Barrier(2, timeout=SECONDS)

    def ask() -> None:
        start.wait()
        try:
            reader.status()
            came.append("own")
        except OtherThread:
            came.append("other")

    run_all([ask, ask])
    told += sorted(came)


def sharing_in_the_setup(begin: Begin) -> None:
    """It ends the setup, as a read does."""
    with begin() as begun:
        world = over_library(begun)
        world.share()
        with world.reader() as reader:
            assert {name: reader.shape_of(name) for name in KINDS} == KINDS
            assert reader.rows() == [] and reader.status().kinds == len(KINDS) and reader.past_step() is None
        world.unshare()
        assert is_set_up(world)
        world.declare("Late", "Tag")
        assert spawned(world, Health=1) == "0v1"


def sharing_in_a_frame(begin: Begin) -> None:
    """An open frame stays open, also behind the end of its `with`; reads tell nothing of it."""
    with begin() as begun:
        world = over_library(begun)
        cat = spawned(world, Health=9)
        with world.frame() as made:
            first = to_come(world, Health=1)
            world.share()
            with world.reader() as reader:
                assert reader.in_frame and reader.values([cat], "Health") == [9] and is_bad(reader.get, cat, "Health")
                error_of(Shared, reader.drop_frame)
                assert reader.in_frame
            error_of(Shared, world.insert, first, Health=2)
            world.unshare()
            world.insert(first, Health=2)
        assert made == [first.entity] and world.get(made[0], "Health") == 2
        for kind, end in ((Shared, lambda: None), (ZeroDivisionError, lambda: 1 // 0)):
            error_of(kind, share_in_frame, world, end)
            assert world.in_frame
            error_of(Shared, world.drop_frame)
            world.unshare()
            assert world.drop_frame() and not world.in_frame and len(world.rows()) == 2
        world.undo(2)
        assert world.rows() == []


def share_in_frame(world: LibraryScene, end: Callable[[], Any]) -> None:
    """A frame that is still shared at its end."""
    with world.frame():
        world.spawn(Health=3)
        world.share()
        end()


LIBRARY = (
    readers_at_once,
    changes_of_shared,
    unshared_scenes,
    whoever_is_left,
    threads_of_readers,
    sharing_in_the_setup,
    sharing_in_a_frame,
)
