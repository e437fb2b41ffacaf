"""The commands of a sketch as lines of a script."""


def value_text(shape, value):
    if shape == "Vec3":
        return ",".join(map(str, value))
    return str(value)


def cell_text(name, shape, value):
    return name if shape == "Tag" else f"{name}={value_text(shape, value)}"


def line_of(shapes, command):
    """A command as a line. A carriage return at its end would count to the line break, but for a space behind it."""
    word, *parts = command
    if word == "spawn":
        parts = [cell_text(name, shapes[name], value) for name, value in parts[0].items()]
    elif word == "insert":
        parts = [parts[0], cell_text(parts[1], shapes[parts[1]], parts[2])]
    elif word == "put":
        parts = [parts[0], cell_text(parts[1], parts[1], parts[2])]
    line = " ".join([word, *parts])
    return f"{line} " if line.endswith("\r") else line


def lines_of(sketch):
    """The lines of a sketch: a frame of one command is that line alone, and an empty one is there for its tick."""
    for frame in sketch.frames if sketch.is_by_ticks else filter(None, sketch.frames):
        lines = [line_of(sketch.world.shapes, command) for command in frame]
        if len(lines) == 1:
            yield lines[0]
        else:
            yield from ("begin", *lines, "commit")
