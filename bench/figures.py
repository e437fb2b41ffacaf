#!/usr/bin/env -S python3 -B
"""Holds what the benches printed against bench/bounds, and prints a table.

    figures.py [--propose] BOUNDS FOLDER

FOLDER has a file SECTION.txt of what each section of bench/all.sh printed. The figures of a workload NAME, at its greatest size, are
NAME.time and NAME.memory, as times the peer's where it was timed beside it; NAME.growth, the exponent by which its time grows from
its least size, without that of the start-up; NAME.bytes, the memory of each further line; and NAME.share, its time as times that of
spawn, where both are measured up to 100,000 lines. Those of other sections are named after them, as world.get.growth. Every figure is
the better the less it is.

The status is 1 where a figure is beyond its bound, or a section gave none. --propose prints bounds somewhat above the figures instead,
in the form of the file, with the goals that it has. What has no figure keeps its bound.
"""
import math
import re
import sys
from pathlib import Path

SORTS = ("time", "memory", "growth", "bytes", "share")
WITH_GOALS = SORTS[:3]
# by how much a proposed bound is above its figure: times for all but the growth
ABOVE = {"time": 1.3, "memory": 1.15, "growth": 0.15, "bytes": 1.02, "share": 1.8, "factor": 1.4}
SHARED_SIZE = 100_000
DIED = re.compile(r"(\w+) (\d+): scene died or timed out")
NOISE = 3  # bytes a line, by which the memory of two runs may differ
LEAST_TIMED = 3.0  # milliseconds; of less time no growth is told


def numbers(text):
    return [float(word) if word != "-" else math.inf for word in text.split()]


def exponent(small, great, sizes):
    return math.log(great / small) / math.log(sizes[1] / sizes[0])


def growth_of(rows, start):
    """The exponent by which the time grows from the least size to the greatest, or None where there are no two."""
    least, most = min(rows), max(rows)
    small, great = rows[least][0] - start, rows[most][0] - start
    if least == most or small < LEAST_TIMED:
        return None
    return exponent(small, great, (least, most))


def bytes_of(memory):
    """The bytes by which the memory of the greatest size is above that of the least, for each further line."""
    if len(memory) < 2:
        return None
    least, most = min(memory), max(memory)
    return max(0.0, (memory[most] - memory[least]) * 2**20 / (most - least))


def figures_of_work(name, rows, peers, start, died):
    """Of one workload: `rows` has milliseconds and MiB for each size, and `peers` those of the peer."""
    if died:
        yield from ((f"{name}.{sort}", math.inf) for sort in ("time", "growth"))
        return
    most = max(rows)
    if most in peers:
        yield f"{name}.time", rows[most][0] / peers[most][0]
        yield f"{name}.memory", rows[most][1] / peers[most][1]
    growth = growth_of(rows, start)
    if growth is not None:
        yield f"{name}.growth", growth


def scripts(lines):
    """Those of bench/scripts.sh, whether the peer was timed beside the program or not."""
    ours, peers, exact, died, start = {}, {}, {}, set(), 0.0
    for line in lines:
        if told := re.match(r"start-up.*\bscene ([\d.]+)", line):
            start = float(told[1])
        elif told := DIED.match(line):
            died.add(told[1])
        elif told := re.match(r"memory of (\w+) (\d+): (\d+) KiB", line):
            exact.setdefault(told[1], {})[int(told[2])] = float(told[3]) / 1024
        elif "DIFFERENT OUTPUT" in line:
            yield f"{line.split()[2]}.other_output", math.inf
        elif told := re.match(r"(\w+) +(\d+) \| ", line):
            parts = [numbers(part) for part in line.split(" | ")[1:]]
            name, size = told[1], int(told[2])
            times = [(part[-3], part[-1]) if len(part) == 5 else (part[0], part[1]) for part in parts]
            if math.inf not in times[-1]:
                ours.setdefault(name, {})[size] = times[-1]
            if len(times) > 1:
                peers.setdefault(name, {})[size] = times[0]
    for name in sorted(set(ours) | died):
        yield from figures_of_work(name, ours.get(name, {}), peers.get(name, {}), start, name in died)
        if bytes_a_line := bytes_of(exact.get(name) or {size: used[1] for size, used in ours.get(name, {}).items()}):
            yield f"{name}.bytes", bytes_a_line
    of_spawn = ours.get("spawn", {})
    if of_spawn and max(of_spawn) == SHARED_SIZE:
        for name in sorted(set(ours) - died - {"spawn"}):
            yield f"{name}.share", ours[name][max(ours[name])][0] / of_spawn[SHARED_SIZE][0]


def plain(name):
    return re.sub(r"\W+", "_", name.strip())


def world(lines):
    for line in lines:
        if told := re.match(r"memory of .*: (\d+) MiB, in plain Rust (\d+) MiB", line):
            yield "world.memory", float(told[1]) / float(told[2])
        elif re.match(r"\w.{27}( +[\d.-]+){3,}$", line):
            *_, growth, factor = numbers(line[28:])
            yield f"world.{plain(line[:28])}.growth", growth
            yield f"world.{plain(line[:28])}.factor", factor


def journal(lines):
    tried = {}
    for line in lines:
        if told := re.match(r"(\d+) +([\d.]+) +([\d.]+)$", line):
            tried[int(told[1])] = float(told[2])
        elif told := re.match(r"(\w+) +([\d.]+) +([\d.]+) +([\d.]+) +(-?[\d.]+)  ", line):
            yield f"journal.{told[1]}.factor", float(told[4])
            yield f"journal.{told[1]}.revert", max(0.0, float(told[5])) / float(told[2])
    if len(tried) > 1 and min(tried.values()) > 0:
        sizes = min(tried), max(tried)
        yield "journal.tries.growth", exponent(tried[sizes[0]], tried[sizes[1]], sizes)


def systems(lines):
    rows = [numbers(line) for line in lines if re.match(r" +\d+ +\d+ +[\d.-]+", line)]
    alone = {row[0]: row[4] for row in rows if row[1] == 1}
    sizes = [size for size in alone if size >= 10_000 and alone[size] > 0]
    if len(sizes) > 1:
        ends = min(sizes), max(sizes)
        yield "systems.growth", exponent(alone[ends[0]], alone[ends[1]], ends)
    for size, workers, _, _, _, factor in rows:
        if workers == 16:
            yield f"systems.{size:.0f}_rows_16_workers.factor", factor


def sessions(lines):
    for line in lines:
        if told := re.match(r"thousands of answers.* ([\d.]+) times as many", line):
            yield "sessions.eight.part", 1 / float(told[1])
        elif told := re.match(r"bytes an entry: (-?\d+)", line):
            yield "sessions.entry.bytes", float(told[1])
        elif told := re.match(r"a million cursors: (-?\d+) bytes .* memory (-?\d+) times", line):
            yield "sessions.cursors.bytes", float(told[1])
            yield "sessions.cursors.requests", float(told[2])
        elif re.match(r"\w.{21}( +[\d.]+){3}$", line):
            yield f"sessions.{plain(line[:22])}.factor", numbers(line[22:])[2]


def lock(lines):
    """How many times a Mutex's turns a second are those of the lock."""
    for line in lines:
        if told := re.match(r"(write|read|mixed) +(\d+) +([\d.]+) ±.*?([\d.]+) ±", line):
            yield f"lock.{told[1]}_{told[2]}.factor", float(told[4]) / float(told[3])


def beside(lines):
    rows, tells_of, others = {}, "", 0
    for line in lines:
        if re.match(r"\w.{17}( +([\d.]+|~)){8}$", line):
            rows[line[:18].strip()] = [math.nan if word == "~" else float(word) for word in line[18:].split()]
        elif line and not line.startswith(" "):
            tells_of = line.strip()
        others += tells_of == "Scene" and line.endswith("another")
    ours = rows.pop("Scene")
    for name, row in rows.items():
        for what, at in (("step", 6), ("undo", 7), ("memory", 5)):
            if not math.isnan(row[at]) and not math.isnan(ours[at]):
                yield f"beside.{plain(name)}.{what}", ours[at] / row[at]
    yield "beside.Scene.others", others


SECTIONS = {
    "scripts": scripts, "world": world, "systems": systems, "sessions": sessions, "journal": journal, "lock": lock, "beside": beside,
}  # fmt: skip


class Bound:
    """The most that a figure may be, and what is wanted of it; None where there is neither."""

    def __init__(self, most, goal):
        self.most, self.goal = (None if word == "-" else float(word) for word in (most, goal))


def bounds_in(file):
    found = {}
    for line in file.read_text().splitlines():
        words = line.split("#")[0].split()
        if len(words) == 9:
            name, *rest = words
            for at, sort in enumerate(WITH_GOALS):
                found[f"{name}.{sort}"] = Bound(*rest[2 * at : 2 * at + 2])
            for sort, most in zip(SORTS[len(WITH_GOALS) :], rest[2 * len(WITH_GOALS) :]):
                found[f"{name}.{sort}"] = Bound(most, "-")
        elif len(words) == 3:
            found[words[0]] = Bound(*words[1:])
        elif words:
            sys.exit(f"{file}: a line has neither three words nor nine: {line}")
    return found


def shown(value):
    if value is None:
        return "-"
    return f"{value:,.0f}" if abs(value) >= 100 or value == int(value) else f"{value:.2f}"


def table(figures, bounds):
    """Prints each figure, and gives how many are beyond their bounds."""
    missed, wanted, reached = 0, 0, 0
    print(f"{'figure':42}{'bound':>9}{'as it is':>10}  {'':8}{'goal':>7}")
    for name, value in figures.items():
        bound = bounds.get(name, Bound("-", "-"))
        if name.endswith(".other_output"):
            bound = Bound("0", "0")
        is_missed = math.isinf(value) or bound.most is not None and value > bound.most
        missed += is_missed
        told = "missed" if is_missed else "-" if bound.most is None else "holds"
        goal = ""
        if bound.goal is not None:
            wanted += 1
            reached += value <= bound.goal
            goal = "  reached" if value <= bound.goal else "  not yet"
        is_lost = math.isinf(value)
        print(f"{name:42}{shown(bound.most):>9}{'none' if is_lost else shown(value):>10}  {told:8}{shown(bound.goal):>7}{goal}")
    print(f"{len(figures)} figures, of which {missed} are missed; of {wanted} goals {reached} are reached")
    return missed


def proposed(name, figures, bounds, sort):
    """A bound somewhat above a figure, or the one that was there."""
    value = figures.get(name, math.inf)
    if math.isinf(value):
        old = bounds.get(name)
        return "-" if old is None or old.most is None else f"{old.most:g}"
    if sort == "growth":
        return f"{max(1, value) + ABOVE[sort]:.2f}"
    most = value * ABOVE.get(sort, ABOVE["factor"])
    if sort == "bytes" and name.count(".") == 1:
        most += NOISE
    return f"{math.ceil(most)}" if sort in ("bytes", "others", "requests") else f"{most:.2g}" if most < 10 else f"{math.ceil(most)}"


def goal_of(name, bounds):
    return "-" if name not in bounds or bounds[name].goal is None else f"{bounds[name].goal:g}"


def work_row(work, figures, bounds):
    row = f"{work:14}"
    for sort in SORTS:
        name = f"{work}.{sort}"
        row += f"{proposed(name, figures, bounds, sort):>9}" + (f"{goal_of(name, bounds):>6}" if sort in WITH_GOALS else "")
    return row


def figure_row(name, figures, bounds):
    return f"{name:46}{proposed(name, figures, bounds, name.split('.')[-1]):>9}{goal_of(name, bounds):>6}"


def propose(figures, bounds, lines):
    """Prints the file of bounds anew, and behind it rows for figures that it hasn't."""
    for line in lines:
        words = line.split("#")[0].split()
        row = {9: work_row, 3: figure_row}.get(len(words))
        print(row(words[0], figures, bounds) if row else line)
    for name in figures:
        if name.split(".")[0] in SECTIONS and name not in bounds:
            print(figure_row(name, figures, bounds))


def main():
    is_proposal = sys.argv[1] == "--propose"
    file, folder = map(Path, sys.argv[-2:])
    bounds, figures, lost = bounds_in(file), {}, []
    for section, read in SECTIONS.items():
        printed = folder / f"{section}.txt"
        if printed.exists():
            found = dict(read(printed.read_text().splitlines()))
            figures |= found
            lost += [] if found else [section]
    if is_proposal:
        propose(figures, bounds, file.read_text().splitlines())
        return
    missed = table(figures, bounds)
    for section in lost:
        print(f"{section}: no figure")
    sys.exit(bool(missed or lost))


main()
