"""Random questions (docs/SHELL.md, "Questions"), about what a shell has, and now and then about what it hasn't; and
requests for several undos or redos."""
from request_forms import ALL_KEYS, CHOICES, DROP_FRAME, MAY_MISS, QUESTIONS

FAR = (2**32 - 1, 2**31)
NOT_ALIVE = ("0v0", "7v9", "4294967295v4294967295")
OF_FILTERS = (0, 0, 0, 1, 1, 2)
# A line that asks, too, whose answer the reference works out.
WORDS = (*QUESTIONS, "history")


def kinds(chance, shell):
    names = [name for name, _ in shell.kinds] if chance.random() < 0.98 else ["None"]
    return chance.choices(names, k=chance.choice(OF_FILTERS)) if names else []


def entity(chance, shell):
    live = list(shell.world.cells) if shell.world else []
    return chance.choice(live) if live and chance.random() < 0.8 else chance.choice(NOT_ALIVE)


def place(chance, _):
    return chance.choice(FAR) if chance.random() < 0.05 else chance.choice((0, 0, 0, 1, 2, 5, 20))


def count(chance, _):
    return chance.choice(FAR) if chance.random() < 0.3 else chance.choice((0, 1, 2, 3, 100))


def rewinds(chance, shell):
    return shell.rewinds if chance.random() < 0.8 else chance.choice((0, shell.rewinds + 1, 2**64 - 1))


def tick(chance, shell):
    now = shell.world.tick if shell.world else 0
    return chance.choice((0, now, 2**64 - 1)) if chance.random() < 0.3 else chance.randint(0, now)


PARTS = {
    "need": kinds, "without": kinds, "entity": entity, "from": place, "step": place, "count": count, "rewinds": rewinds,
    "tick": tick,
}  # fmt: skip


def question(chance, shell):
    word = chance.choice(WORDS)
    parts = {key: chance.choice(CHOICES[key]) if key in CHOICES else PARTS[key](chance, shell) for key in ALL_KEYS[word]}
    return {"do": word, **parts}


def several_frames(chance, shell):
    """An undo or a redo of several frames, or of none; of all that there are, and of more. Behind an undo perhaps a redo
    of as many frames, or of some."""
    word = chance.choice(list(MAY_MISS))
    there = len(shell.records("past" if word == "undo" else "future")) if shell.world else 0
    few = chance.choice((0, 1, 1, 2, 2, 3, 5))
    asked = {"do": word, "count": chance.choice((few, few, few, there, there + 1, chance.choice(FAR)))}
    again = {"do": "redo", "count": chance.choice((asked["count"], few, min(few, 1)))}
    return [asked, again] if word == "undo" and chance.random() < 0.6 else [asked]


def dropped_frame():
    return {"do": DROP_FRAME}
