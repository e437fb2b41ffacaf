"""Random scripts whose systems go over many rows, of several tables, so that each order of an advance shows; in a world
with indices that are retired soon."""

WRITES = {"addint:A:-1": "A", "addint:B:1": "B", "addvec:P:V": "P V", "addvec:V:V": "V"}
QUEUES = {"zero:A": "A", "zero:B": "B", "child:A=1;T": "", "child:B=0;P=0,0,1": "", "child:T": "T", "count:left": ""}
LOADED = (
    'load {"children":[],"free":[1,2,0],"generations":[4294967295,4294967294,7],'
    '"kinds":[["A","Int"],["B","Int"],["P","Vec3"],["V","Vec3"],["T","Tag"]],"limit":400,"resources":[],"scene":1,'
    '"tables":[],"tick":3}'
)


def spawn(chance):
    cells = [f"A={chance.randint(0, 2)}", f"B={chance.randint(-1, 1)}"]
    cells += ["P=0,0,0", f"V={chance.randint(0, 3)},1,-1", "T"]
    return " ".join(["spawn", *(cell for cell in cells if chance.random() < 0.6)])


def system(chance, name):
    """A system of steps that its filter allows; some of a phase conflict."""
    writes = chance.sample(list(WRITES), chance.choice((0, 0, 1, 2)))
    queues = chance.sample(list(QUEUES), chance.choice((0, 1, 2)) if writes else chance.choice((1, 2)))
    need = sorted({kind for step in writes + queues for kind in {**WRITES, **QUEUES}[step].split()})
    filters = [f"need={','.join(need)}"] if need else []
    if chance.random() < 0.2 and "T" not in need:
        filters.append("without=T")
    return " ".join(["system", name, *filters, *writes, *queues])


def command(chance, entities):
    one, other = (f"{chance.randrange(entities)}v1" for _ in range(2))
    lines = f"parent {one} {other}", f"unparent {one}", f"remove {one} T", f"despawnall {one}", f"insert {one} T"
    return chance.choice(lines)


def script(chance):
    """Lines of a script: some entities in a forest, and then systems and advances."""
    count = chance.choice((5, 12, 20))
    lines = [LOADED, *(spawn(chance) for _ in range(count))]
    lines += [command(chance, count) for _ in range(count)]
    for turn in range(6):
        lines.append("clear")
        for number in range(chance.randint(1, 4)):
            if chance.random() < 0.4:
                lines.append("phase")
            lines.append(system(chance, f"s{turn}_{number}"))
        lines += ["advance"] * chance.randint(1, 2) + [chance.choice(("undo", "undo", "redo", spawn(chance)))]
    return lines
