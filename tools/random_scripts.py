"""Random scripts for tools/fuzz: new ones over every line of docs/SCRIPTS.md, and the examples with some of their lines
changed. A script is a list of lines, as bytes without their LF."""
import json

ENDS = [0, 1, 2, 31, 32, 63, 64, 65, 127, 255, 1048575, 1048576, 1048577]
ENDS += [bits + more for bits in (2**31, 2**32, 2**62, 2**63, 2**64) for more in (-2, -1, 0, 1)]
INTS = [0, 1, -1, 2, 3, 5, -7, 100, 2**62, -(2**62), 2**63 - 1, -(2**63)]
TEXTS = ["", "a", "cat", 'a"b', "\\", "é", "\u2028", "\x7f", "\x01", "\t", "\x0b", "=x", "\U0001f600", "#", "x\ry", "\0", "\ufeff", ":,"]
NAMES = [*"ABCDEFGH", "Health", "a", "n_0", "N" * 32]
BAD_NAMES = ["9", "_a", "a-b", "N" * 33, "é", "a.b", "A=1", "#a", '"']
SHAPES = ["Tag", "Int", "Int", "Vec3", "Text", "Link"]
MOST_NARROW = 200  # slots of a script whose systems spawn, so that it stays small
WIDE = 131072  # rows of a table from which on threads share its columns
FAULTY = [
    "show x", "undo 1", "kind", "kind A", "kind A Int x", "begin x", "queue", "commit", "spawn Nothing", "get +0", "get", "as 8",
    "as -1", "as 01", "as", "slots 0", "slots 5", "calls 0", "calls 9", "depth 1", "depth 1048577", "load", "load {}", "frobnicate",
    "Show", "show\t", "\t", "insert 0v1", "insert 0v01 A=1", "parent 0v1", "parent +4294967296 0v1", "put a Int", "put a Tag=",
    "put a Text=b c", "system", "system s need=", "system s without=A need=A", "system s bogus", "system s child:", "system s child:A;;B",
    "system s count:", "system s addint:A:1:2", "system s addvec:A", "drop", "despawn 4294967296v1", "remove 0v1 A=1", "history x",
]  # fmt: skip


class World:
    """A guess of what a script has made, so that most of its later lines are accepted."""

    def __init__(self):
        self.generations, self.free, self.live = [], [], []

    def copied(self):
        new = World()
        new.generations, new.free, new.live = list(self.generations), list(self.free), list(self.live)
        return new

    def spawn(self):
        if self.free:
            index = self.free.pop()
        else:
            index = len(self.generations)
            self.generations.append(1)
        self.live.append((index, self.generations[index]))

    def despawn(self, entity):
        if entity in self.live:
            self.live.remove(entity)
            self.free.append(entity[0])
            self.generations[entity[0]] += 1


class ScriptWriter:
    """Writes one script by chance, with some of the scene texts given in its `load` lines."""

    def __init__(self, chance, texts=()):
        self.chance, self.texts = chance, texts
        self.lines, self.kinds, self.resources = [], [], []
        self.world, self.past, self.future = World(), [], []
        self.is_narrow = chance.random() < 0.9

    def one_in(self, count):
        return self.chance.randrange(count) == 0

    def put(self, *words):
        self.lines.append(" ".join(words).encode())

    # Words

    def name(self):
        return self.chance.choice(BAD_NAMES if self.one_in(30) else NAMES)

    def value(self, shape):
        pick = self.chance.choice
        if shape == "Int":
            return str(pick(INTS) if self.one_in(3) else self.chance.randint(-3, 9))
        if shape == "Vec3":
            return ",".join(self.value("Int") for _ in range(3))
        return pick(TEXTS) if shape == "Text" else self.entity_text()

    def with_value(self, name, shape):
        return name if shape == "Tag" else f"{name}={self.value(shape)}"

    def kind(self, *shapes):
        """A kind, of one of these shapes where there is one."""
        fitting = [kind for kind in self.kinds if kind[1] in shapes] or self.kinds or [("A", "Int")]
        return self.chance.choice(fitting)

    def cell(self):
        return self.with_value(*self.kind())

    def cells(self):
        count = min(self.chance.randint(0, 4), len(self.kinds))
        found = self.chance.sample(self.kinds, count)
        return [self.with_value(*kind) for kind in found + found[: self.one_in(40)]]

    def entity(self):
        if self.world.live and not self.one_in(20):
            return self.chance.choice(self.world.live)
        if self.one_in(10):
            return self.chance.choice(ENDS), self.chance.choice(ENDS)
        return self.chance.randrange(len(self.world.generations) + 2), self.chance.randint(0, 2)

    def entity_text(self):
        return "{}v{}".format(*self.entity())

    def target(self, locals_made):
        if locals_made and self.one_in(2):
            return f"+{self.chance.randrange(locals_made + self.one_in(12))}"
        return self.entity_text()

    # The setup

    def setup(self):
        if self.texts and self.one_in(5):
            self.load()
        many = self.chance.randint(60, 66) if self.one_in(40) else self.chance.choice([0, 1, 2, 4, 6, 8, 8])
        for number in range(many):
            self.declare(f"K{number}" if many > 8 else self.name())
        if self.is_narrow:
            self.put("slots", str(self.chance.choice([1, 2, 5, 20, 60, MOST_NARROW])))
        for word, rarely in (("calls", 12), ("depth", 4)):
            if self.one_in(rarely):
                self.put(word, str(self.chance.choice([1, 2, 3, 5, 9, 30, 1048576])))
        if self.texts and self.one_in(12):
            self.load()

    def declare(self, name):
        shape = self.chance.choice(SHAPES)
        self.put("kind", name, shape)
        if name not in BAD_NAMES and name not in dict(self.kinds):
            self.kinds.append((name, shape))

    def load(self):
        text = self.chance.choice(self.texts)
        scene = json.loads(text)
        self.lines.append(b"load " + text)
        self.kinds = [tuple(kind) for kind in scene["kinds"]]
        self.is_narrow = scene["limit"] <= MOST_NARROW
        self.world = World()
        self.world.generations, self.world.free = list(scene["generations"]), list(scene["free"])
        rows = [row for table in scene["tables"] for row in table["rows"]]
        self.world.live = [tuple(map(int, row["entity"].split("v"))) for row in rows]
        self.past, self.future = [self.world.copied() for _ in scene.get("undo", [])], []

    # Commands and frames

    def command(self, locals_made=0):
        """Puts a command, and answers whether it is a spawn."""
        word = self.chance.choices(list(COMMANDS), list(COMMANDS.values()))[0]
        if word == "spawn":
            self.put("spawn", *self.cells())
            self.world.spawn()
        elif word == "put":
            self.resources.append(self.name())
            self.put("put", self.resources[-1], self.resource_value())
        elif word == "drop":
            self.put("drop", self.chance.choice(self.resources or NAMES))
        else:
            self.command_on(word, locals_made)
        return word == "spawn"

    def resource_value(self):
        shape = self.chance.choice(SHAPES)
        return self.with_value(shape, shape)

    def command_on(self, word, locals_made):
        target = self.target(locals_made)
        further = {"insert": self.cell, "remove": lambda: self.kind()[0], "parent": lambda: self.target(locals_made)}
        self.put(word, target, *([further[word]()] if word in further else []))
        if word.startswith("despawn") and "+" not in target:
            self.world.despawn(tuple(map(int, target.split("v"))))

    def remember(self):
        """That a frame begins, which can be undone."""
        self.past.append(self.world.copied())
        self.future = []

    def one_command(self):
        self.remember()
        self.command()

    def frame(self):
        self.remember()
        self.put("begin")
        made = 0
        for _ in range(self.chance.choice([0, 1, 2, 3, 5, 12])):
            if self.one_in(8):
                self.put("queue")
                made = 0
            elif self.one_in(40):
                self.faulty()
            else:
                made += self.command(made)
        if not self.one_in(40):
            self.put("commit")

    def undo(self):
        for _ in range(self.chance.choice([1, 1, 1, 2, 4])):
            self.put("undo")
            if self.past:
                self.future.append(self.world)
                self.world = self.past.pop()

    def redo(self):
        if not self.future and not self.one_in(6):
            self.undo()
        for _ in range(self.chance.choice([1, 1, 2])):
            self.put("redo")
            if self.future:
                self.past.append(self.world)
                self.world = self.future.pop()

    # Queries, sessions and texts

    def query(self):
        word = self.chance.choice(["show", "get", "get", "mark", "changed", "added", "history", "dump", "dumpall", "as"])
        further = {"get": self.entity_text, "as": lambda: str(self.chance.randrange(8))}
        self.put(word, *([further[word]()] if word in further else []))

    def marked(self):
        self.put("mark")
        for _ in range(self.chance.randint(0, 3)):
            self.one_command()
        self.put(self.chance.choice(["changed", "added"]))

    # Systems

    def step(self):
        word = self.chance.choices(["addvec", "addint", "zero", "count", "child"], [3, 4, 2, 2, self.is_narrow])[0]
        if word == "addvec":
            return f"addvec:{self.kind('Vec3')[0]}:{self.kind('Vec3')[0]}"
        if word == "addint":
            return f"addint:{self.kind('Int')[0]}:{self.value('Int')}"
        if word == "count":
            return f"count:{self.name()}"
        return f"zero:{self.kind('Int')[0]}" if word == "zero" else "child:" + ";".join(self.cells() or [self.cell()])

    def system(self):
        steps = [self.step() for _ in range(self.chance.choice([1, 1, 2, 3, 4]) if not self.one_in(60) else 17)]
        if not self.one_in(12):
            steps.sort(key=lambda step: not step.startswith("add"))
        read = {part for step in steps if not step.startswith(("count", "child")) for part in step.split(":")[1:]}
        need = {name for name, _ in self.kinds if name in read and not self.one_in(20)}
        need |= {self.kind()[0]} if self.one_in(2) else set()
        without = {self.kind()[0] for _ in range(self.one_in(3))} - (set() if self.one_in(9) else need)
        filters = [f"{word}={','.join(names)}" for word, names in (("need", sorted(need)), ("without", sorted(without))) if names]
        self.put("system", self.name(), *filters, *steps)

    def advance(self):
        if not self.one_in(5):
            self.put("clear")
        for _ in range(66 if self.one_in(80) else self.chance.choice([0, 1, 1, 2, 3])):
            if self.one_in(2):
                self.put("phase")
            self.system()
        for _ in range(self.chance.randint(1, 3)):
            self.remember()
            self.put("advance")

    # What isn't right

    def faulty(self):
        if self.one_in(2):
            self.lines.append(self.chance.choice(FAULTY).encode())
            return
        kept = self.lines
        self.lines = [b"get 0v1"]
        self.chance.choice([self.query, self.system, self.command])()
        self.lines = kept + [damaged(self.chance, self.lines[-1])]

    def empty(self):
        self.lines.append(self.chance.choice([b"", b"  ", b"# words", b"#", b"  #\xc3\xa9", b"\r"]))

    def any_line(self):
        made = self.chance.choices(LINES, [weight for _, weight in BODY])[0]
        made(self)

    def script(self, length):
        self.setup()
        for _ in range(self.chance.randint(0, 8)):
            self.remember()
            self.put("spawn", *self.cells())
            self.world.spawn()
        for _ in range(length):
            self.any_line()
        return self.lines


COMMANDS = {
    "spawn": 30, "insert": 18, "remove": 8, "parent": 16, "unparent": 4, "despawn": 7, "despawnall": 4, "despawnifalive": 3, "put": 5,
    "drop": 2,
}  # fmt: skip
BODY = [
    (ScriptWriter.one_command, 40), (ScriptWriter.frame, 10), (ScriptWriter.undo, 7), (ScriptWriter.redo, 4), (ScriptWriter.query, 8),
    (ScriptWriter.marked, 3), (ScriptWriter.advance, 6), (ScriptWriter.faulty, 3), (ScriptWriter.empty, 1),
]  # fmt: skip
LINES = [made for made, _ in BODY]


def damaged(chance, line):
    """A line with a change of bytes or of words."""
    words = line.split(b" ")
    at = chance.randrange(len(words))
    how = chance.randrange(6)
    if how == 0:
        del words[at]
    elif how == 1:
        words.insert(at, chance.choice(words))
    elif how == 2:
        words[at] = str(chance.choice(ENDS)).encode()
    elif how == 3:
        other = chance.randrange(len(words))
        words[at], words[other] = words[other], words[at]
    else:
        return with_bytes_changed(chance, line)
    return b" ".join(words)


def with_bytes_changed(chance, line):
    """A text with one byte changed, put in or taken out; never an LF."""
    at = chance.randrange(len(line) + 1)
    new = bytes([chance.choice(b'0123456789 =:;,+-#v"\\\r\t\x00\xff\xc3aAzZ{}[]')])
    return chance.choice([line[:at] + new + line[at + 1 :], line[:at] + new + line[at:], line[:at] + line[at + 1 :]])


def wide_script(chance):
    """A script with a table of so many rows that several threads write its columns, and with others beside."""
    wide = chance.choice(["spawn A={0}", "spawn P=1,{0},3 V=1,-1,0", "spawn A={0} P=1,{0},3 V=1,-1,0"])
    few = ["spawn A={0} B=1", "spawn B={0} V=0,0,1", "spawn P=0,0,{0} V=2,{0},0 B=9", "spawn"]
    sorts = [wide] * (WIDE + chance.randrange(20000)) + chance.choices(few, k=1000)
    chance.shuffle(sorts)
    values = [chance.randint(-9, 9) for _ in sorts]
    if chance.randrange(4) == 0:
        values[chance.randrange(len(values))] = 2**63 - 1 - chance.randrange(3)
    lines = [b"kind A Int", b"kind B Int", b"kind P Vec3", b"kind V Vec3", b"begin"]
    lines += [sort.format(value).encode() for sort, value in zip(sorts, values)]
    lines += [b"parent %dv1 %dv1" % (child, child - chance.randint(1, 50)) for child in range(51, 400)] + [b"commit"]
    adding = b"a need=A addint:A:%d%s count:as" % (chance.randint(-2, 2), chance.choice([b"", b" zero:A"]))
    others = [b"b need=B addint:B:-1 zero:B", b"d without=A count:none", b"e need=V without=P child:B=1"]
    systems = [adding, b"c need=P,V addvec:P:V", *chance.sample(others, chance.randint(0, 3))]
    chance.shuffle(systems)
    lines += [b"system " + system for system in systems]
    turns = [b"advance"] * 3 + [b"undo", b"redo"]
    turns += [line % chance.randrange(len(sorts)) for line in (b"insert %dv1 A=7", b"despawnifalive %dv1")]
    return lines + [b"advance"] * chance.randint(2, 3) + chance.choices(turns, k=chance.randint(2, 6)) + [b"show"]


def mutated(chance, examples):
    """The lines of an example, some of them changed, or of two examples one after another."""
    lines = list(chance.choice(examples))
    if chance.randrange(5) == 0:
        lines += chance.choice(examples)
    for _ in range(chance.randint(1, 6)):
        at = chance.randrange(len(lines) + 1)
        how = chance.randrange(5)
        if how == 0:
            lines.insert(at, chance.choice(chance.choice(examples) or [b""]))
        elif at == len(lines):
            lines.append(b"undo")
        elif how == 1:
            del lines[at]
        elif how == 2:
            lines.insert(at, lines[at])
        elif how == 3:
            other = chance.randrange(len(lines))
            lines[at], lines[other] = lines[other], lines[at]
        else:
            lines[at] = damaged(chance, lines[at])
    return lines


def joined(chance, lines):
    """The bytes of a script: its lines with their ends, of which some have a CR, and the last may have none."""
    end = b"\r\n" if chance.randrange(12) == 0 else b"\n"
    text = end.join(lines)
    return text if chance.randrange(12) == 0 else text + end
