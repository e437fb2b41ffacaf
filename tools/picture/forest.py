"""Draws a small forest as an SVG picture: a box for each entity, parents above their children."""
import json
import re
from html import escape

from played_scene import Trouble

MOST_BOXES = 100
MOST_CELLS = 6
MOST_LETTERS = 28
LETTER, LINE, PAD, GAP, RISE = 7.3, 16, 8, 14, 34
# What XML can't hold, even escaped.
NO_XML = re.compile("[^\t\n\r\x20-\ud7ff\ue000-\ufffd\U00010000-\U0010ffff]")
STYLE = """
  text { font: 12px ui-monospace, monospace; fill: #24292f; }
  .id { font-weight: 700; }
  rect { fill: #f6f8fa; stroke: #57606a; }
  path { fill: none; stroke: #57606a; }
  @media (prefers-color-scheme: dark) {
    text { fill: #e6edf3; }
    rect { fill: #161b22; stroke: #b1bac4; }
    path { stroke: #b1bac4; }
  }
"""


class Box:
    """An entity's box, with those of its children. Its middle is told from the left edge of the room of both."""

    def __init__(self, lines, children):
        self.lines, self.children = lines, children
        self.width = 2 * PAD + LETTER * max(len(line) for line in lines)
        self.height = 2 * PAD + LINE * len(lines)
        below = sum(child.room for child in children) + GAP * max(0, len(children) - 1)
        self.room = max(self.width, below)
        self.aside = (self.room - below) / 2


def drawing(scene):
    """The forest of a scene as the text of an SVG picture."""
    cells = {row["entity"]: cell_lines(scene, table, row) for table in scene["tables"] for row in table["rows"]}
    if len(cells) > MOST_BOXES:
        raise Trouble(f"--svg draws {MOST_BOXES} entities at most, and there are {len(cells):,}; a page shows them")
    children = {each["parent"]: each["list"] for each in scene["children"]}
    below = {child for each in children.values() for child in each}
    roots = sorted((entity for entity in cells if entity not in below), key=index_of)
    forest = [box_of(entity, cells, children) for entity in roots]
    boxes, left = [], GAP
    for root in forest:
        boxes += placed(root, left, GAP)
        left += root.room + GAP
    bottom = max((top + box.height for box, _, top in boxes), default=0) + GAP
    notes = [shortened(named(each["name"], *each["cell"][:2])) for each in scene["resources"]]
    return svg(boxes, notes, max(left, 2 * GAP + LETTER * max(map(len, notes), default=0), 120), bottom)


def index_of(entity):
    return int(entity.partition("v")[0])


def box_of(entity, cells, children):
    """The boxes of an entity and of all below it. There are few, so that the depth is small."""
    return Box([entity, *cells[entity]], [box_of(child, cells, children) for child in children.get(entity, [])])


def placed(box, left, top):
    """The boxes from this one on, each with its left edge and its top."""
    found = [(box, left + (box.room - box.width) / 2, top)]
    at = left + box.aside
    for child in box.children:
        found += placed(child, at, top + box.height + RISE)
        at += child.room + GAP
    return found


def cell_lines(scene, table, row):
    said = []
    for kind, cell in zip(table["kinds"], row["cells"]):
        name, shape = scene["kinds"][kind]
        said.append(shortened(named(name, shape, cell[0])))
    if len(said) > MOST_CELLS:
        said[MOST_CELLS - 1 :] = [f"and {len(said) - MOST_CELLS + 1} more"]
    return said


def named(name, shape, value):
    if shape == "Tag":
        return name
    if shape == "Text":
        value = json.dumps(value, ensure_ascii=False)
    return f"{name}={','.join(map(str, value)) if shape == 'Vec3' else value}"


def shortened(text):
    return text if len(text) <= MOST_LETTERS else text[: MOST_LETTERS - 1] + "…"


def xml(text):
    """The text for XML; what XML can't hold stands as in JSON."""
    return escape(NO_XML.sub(lambda letter: f"\\u{ord(letter[0]):04x}", text))


def svg(boxes, notes, width, bottom):
    height = bottom + (LINE * len(notes) + GAP if notes else 0)
    lines = [
        f'<svg xmlns="http://www.w3.org/2000/svg" viewBox="0 0 {width:.0f} {height:.0f}" role="img">',
        f"<title>A forest of {len(boxes)} entities</title>", f"<style>{STYLE}</style>",
    ]  # fmt: skip
    places = {box: (left + box.width / 2, top) for box, left, top in boxes}
    for box, left, top in boxes:
        lines += [edge(places[box][0], top + box.height, *places[child]) for child in box.children]
        lines += box_lines(box, left, top)
    for at, note in enumerate(notes):
        lines.append(f'<text x="{GAP}" y="{bottom + LINE * (at + 0.8):.1f}">{xml(note)}</text>')
    return "\n".join([*lines, "</svg>", ""])


def edge(x, y, to_x, to_y):
    half = (y + to_y) / 2
    return f'<path d="M{x:.1f} {y:.1f}C{x:.1f} {half:.1f} {to_x:.1f} {half:.1f} {to_x:.1f} {to_y:.1f}"/>'


def box_lines(box, left, top):
    yield f'<rect x="{left:.1f}" y="{top:.1f}" width="{box.width:.1f}" height="{box.height:.1f}" rx="4"/>'
    for at, line in enumerate(box.lines):
        sort = ' class="id"' if at == 0 else ""
        yield f'<text{sort} x="{left + PAD:.1f}" y="{top + PAD + LINE * (at + 0.8):.1f}">{xml(line)}</text>'
