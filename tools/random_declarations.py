"""Random scripts that declare kinds at any time (docs/SHELL.md, "Kinds at any time")."""
import json

from random_scripts import BAD_NAMES, SHAPES, ScriptWriter
from request_forms import DECLARE

MOST_KINDS = 64
# So many at once reach the most that there may be, and more.
MANY = 70


def declaration(name, shape):
    return {"do": DECLARE, "name": name, "shape": shape}


def unused(chance, kinds):
    """The declaration of a kind of which no script has a cell, or of one with a bad name or one that is taken."""
    names = [f"Z{len(kinds)}"] * 4 + [chance.choice((*BAD_NAMES, "", "a b", "A\0"))] + [name for name, _ in kinds][:1]
    return declaration(chance.choice(names), chance.choice(SHAPES))


class DeclaringWriter(ScriptWriter):
    """Writes a script with declarations in the setup, behind it and in frames, whose later lines have these kinds."""

    def declare(self, name):
        if self.one_in(2):
            self.declare_by_request(name)
        else:
            super().declare(name)

    def declare_by_request(self, name):
        shape = self.chance.choice(SHAPES)
        self.lines.append(json.dumps(declaration(name, shape)).encode())
        if name not in BAD_NAMES and name not in dict(self.kinds) and len(self.kinds) < MOST_KINDS:
            self.kinds.append((name, shape))

    def declare_late(self):
        if self.one_in(15):
            names = [f"M{number}" for number in range(MANY)]
        else:
            names = [self.name() if self.one_in(3) else f"L{len(self.lines)}"]
        for name in names:
            self.declare_by_request(name)

    def command(self, locals_made=0):
        if self.one_in(6):
            self.declare_late()
        return super().command(locals_made)

    def any_line(self):
        if self.one_in(10):
            self.declare_late()
        super().any_line()
