"""What the commands of an accepted frame do to a recorder."""
from request_forms import KEYS

TARGETS = ("entity", "child", "parent")


def with_targets(request, made):
    """A request with entities in place of local names."""
    return {
        key: made[int(value[1:])] if key in TARGETS and value.startswith("+") else value
        for key, value in request.items()
    }  # fmt: skip


def apply_queue(world, queue):
    """Does the commands of a queue. An entity that it names by a local name is one that it has spawned before."""
    made = []
    for request in queue:
        word, named = request["do"], with_targets(request, made)
        parts = [named[key] for key in KEYS[word]]
        if word == "spawn":
            made.append(world.spawn(*parts))
        elif word == "despawnall" or (word == "despawnifalive" and parts[0] in world.cells):
            world.despawn_all(*parts)
        elif word != "despawnifalive":
            getattr(world, word)(*parts)
