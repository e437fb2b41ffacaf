"""The pages of README.md and docs/: their blocks, and what they cite, which has to be there."""
import os
import re
from pathlib import Path
from typing import NamedTuple

TOP = Path(__file__).resolve().parent.parent
PAGES = [TOP / "README.md", *sorted((TOP / "docs").glob("*.md"))]

FENCE = re.compile(r" *```(.*)")
HEADING = re.compile(r"^#+ (.*)$", re.MULTILINE)
LINK = re.compile(r"\]\(([^)#]+)")
# What a comment begins a further line with, so that a citation may go over two lines.
LINE_BREAK = re.compile(r"\n[ \t]*(?://[/!]?|--|#|\*)?[ \t]*")
CITATION = re.compile(r'((?:docs/ ?)?[A-Z_]+\.md), ?((?:"[^"()]{1,60}"(?:,? and )?)+)')
OWN_SECTION = re.compile(r'\("([A-Z][^"]*)"\)')
PATH = re.compile(r"(?<![\w/.])(?:crates|tools|bindings|examples|include|bench)/[\w./-]*\w(?![\w*])")
NAME = re.compile(r"`(?:\w+::)?([a-z]\w*_\w+|[A-Z]\w*[a-z]\w*)`")
# What the toolchain's own library names.
OF_THE_LIBRARY = {"Display", "FromStr"}
CITING = {".rt", ".antt", ".md", ".h", ".c", ".rs", ".py", ".js", ".txt", ""}


class Block(NamedTuple):
    """A fenced block: its page, the number of its first line, its language, why nothing is tried or None, and its text."""

    page: str
    number: int
    language: str
    reason: object
    text: str

    def place(self):
        return f"{self.page}, line {self.number}"

    def lines(self):
        return self.text.split("\n")[:-1]


class Page:
    """A page: its blocks in their order, those that are only indented, and the text between the blocks."""

    def __init__(self, path):
        self.path, self.name = path, str(path.relative_to(TOP))
        self.blocks, self.unmarked, self.prose = [], [], []
        lines, at = path.read_text().split("\n"), 0
        while at < len(lines):
            fence = FENCE.fullmatch(lines[at])
            if fence:
                at = self.add_block(lines, at, fence[1])
            else:
                if re.match(r" {4}|\t", lines[at]) and not lines[at - 1].strip():
                    self.unmarked.append(at + 1)
                self.prose.append(lines[at])
            at += 1

    def add_block(self, lines, at, mark):
        """Adds the block that begins at a line. The line at which it ends."""
        end = next(last for last in range(at + 1, len(lines)) if FENCE.fullmatch(lines[last]))
        language, is_picture, reason = mark.partition(" picture:")
        text = "".join(f"{line}\n" for line in lines[at + 1 : end])
        self.blocks.append(Block(self.name, at + 1, language.strip(), reason.strip() if is_picture else None, text))
        return end

    def text(self):
        return "\n".join(self.prose)


def sources(*patterns):
    """The texts of the crates' files of some patterns, by path."""
    return {path: path.read_text() for pattern in patterns for path in sorted((TOP / "crates").glob(pattern))}


def citing_files():
    """The files of the repository that may cite a page, but for what is built."""
    for folder, below, names in os.walk(TOP):
        below[:] = sorted(name for name in below if name not in {".git", "out", "target", "proofs", "must-fail", "wrong-bodies"})
        yield from (Path(folder) / name for name in names if Path(name).suffix in CITING)


def missing_sections():
    """Each cited section of a page that isn't there, with the file that cites it."""
    titles = {str(path.relative_to(TOP)): set(HEADING.findall(path.read_text())) for path in PAGES}
    count, missing = 0, []
    for path in citing_files():
        text = LINE_BREAK.sub(" ", path.read_text(errors="replace"))
        for page, sections in CITATION.findall(text):
            name = page.replace(" ", "")
            for section in re.findall(r'"([^"]+)"', sections):
                count += 1
                if section.rstrip(",") not in titles.get(name, ()):
                    missing.append(f'{path.relative_to(TOP)} cites {name}, "{section}"')
    return count, missing


def missing_targets(page):
    """Each link, path and own section of a page that isn't there."""
    text, titles = page.text(), set(HEADING.findall(page.path.read_text()))
    links = [link for link in LINK.findall(text) if "://" not in link]
    # (capitals stand for any name, and a tool of one's own is nowhere)
    paths = [path for path in PATH.findall(text) if not re.search(r"[A-Z]{4}|/my_", path)]
    flat = text.replace("\n", " ")
    own = OWN_SECTION.findall(flat)
    missing = [f"the link {link}" for link in links if not (page.path.parent / link).exists()]
    missing += [f"the path {path}" for path in paths if not (TOP / path).exists()]
    missing += [f'the section "{title}"' for title in own if title not in titles]
    return len(links) + len(paths) + len(own), [f"{page.name} names {each}, which isn't there" for each in missing]


def missing_proofs(page):
    """What the page of what is proved names and the crates don't have: functions, types, wrong bodies."""
    words = set()
    for text in sources("*/src/**/*.rt", "*/specs/**/*.antt").values():
        words.update(re.findall(r"\w+", text))
    names = set(NAME.findall(page.text())) - OF_THE_LIBRARY
    missing = [f"{page.name} names {name}, which no crate has" for name in sorted(names - words)]
    bodies = {folder: {path.stem for path in (TOP / "crates").glob(f"*/{folder}/*.edit")} for folder in ("must-fail", "wrong-bodies")}
    rows = [row.strip("| ").split(" | ") for row in re.findall(r"^\| .*\|$", page.text(), re.MULTILINE)][1:]
    named = [(body.strip("*"), "*" in body) for row in rows for body in row[-1].split(", ")]
    for body, is_tried in named:
        if body not in bodies["must-fail" if is_tried else "wrong-bodies"]:
            missing.append(f"{page.name} names the wrong body {body}, which isn't there")
    for body in sorted(bodies["must-fail"] - {body for body, is_tried in named if is_tried}):
        missing.append(f"{page.name} names no promise that the wrong body {body} guards")
    return len(names) + len(named), missing
