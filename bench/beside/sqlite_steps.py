#!/usr/bin/env python3
"""Steps over a tree of nodes in SQLite, whose undo is the documented scheme with triggers: each INSERT, UPDATE and DELETE on the
table of nodes makes a trigger write the statement that takes it back into a log, and a step is a range of that log.

    sqlite_steps.py STEPS UNDOS    makes so many steps of one addition, and undoes so many, newest first
    sqlite_steps.py answers        tries what is taken back, and prints it

The database lies in memory, the timed run is one transaction without a journal, and no index but that of the ids is kept: its
best case. It needs no more than Python's own sqlite3. The command line of SQLite can't run the statements of its own log without
a file between, so Python is the faster way.
"""
import sqlite3
import sys

CHILDREN = 100  # of each parent
COLUMNS = ("id", "parent", "place", "name")


def trigger(event, text):
    return f"CREATE TRIGGER on_{event.split()[1]} {event} ON node BEGIN INSERT INTO undolog VALUES(NULL, {text}); END"


def database(journal, key="PRIMARY KEY"):
    """A table of nodes, the log, and the triggers that fill it."""
    made = sqlite3.connect(":memory:", isolation_level=None)
    made.execute(f"PRAGMA journal_mode = {journal}")
    made.execute(f"CREATE TABLE node(id INTEGER {key}, parent INTEGER, place INTEGER, name TEXT)")
    made.execute("CREATE TABLE undolog(seq INTEGER PRIMARY KEY, sql TEXT)")
    sets = "||','||".join(f"'{column}='||quote(old.{column})" for column in COLUMNS)
    values = "||','||".join(f"quote(old.{column})" for column in COLUMNS)
    made.execute(trigger("AFTER INSERT", "'DELETE FROM node WHERE rowid='||new.rowid"))
    made.execute(trigger("AFTER UPDATE", f"'UPDATE node SET '||{sets}||' WHERE rowid='||old.rowid"))
    made.execute(trigger("BEFORE DELETE", f"'INSERT INTO node({','.join(COLUMNS)}) VALUES('||{values}||')'"))
    return made


class Steps:
    """The undo of a database: ranges of the log, of steps that can be undone and of those that can be redone."""

    def __init__(self, base):
        self.base, self.past, self.future = base, [], []
        self.first = self.next()

    def next(self):
        """The number that the log's next entry gets."""
        return self.base.execute("SELECT coalesce(max(seq), 0) + 1 FROM undolog").fetchone()[0]

    def ends(self):
        """Ends a step, where the log has entries since the last one."""
        following = self.next()
        if following > self.first:
            self.past.append((self.first, following - 1))
            self.future.clear()
        self.first = following

    def undo(self):
        span = self.past.pop()
        found = self.base.execute("SELECT sql FROM undolog WHERE seq >= ? AND seq <= ? ORDER BY seq DESC", span).fetchall()
        self.base.execute("DELETE FROM undolog WHERE seq >= ? AND seq <= ?", span)
        first = self.next()
        for (statement,) in found:
            self.base.execute(statement)
        self.first = self.next()
        self.future.append((first, self.first - 1))


def add(base, parent, place, name):
    return base.execute("INSERT INTO node(parent, place, name) VALUES(?, ?, ?)", (parent, place, name)).lastrowid


def timed(steps, undos):
    base = database("OFF")
    base.execute("BEGIN")
    parents = [add(base, None, at, f"parent{at}") for at in range(-(-steps // CHILDREN))]
    made = Steps(base)
    for at in range(steps):
        add(base, parents[at // CHILDREN], at % CHILDREN, f"node{at}")
        made.ends()
    for _ in range(undos):
        made.undo()
    base.execute("COMMIT")
    left = base.execute("SELECT count(*) FROM node").fetchone()[0]
    print(f"{len(parents)} parents, then {left} nodes in all")


def names(base):
    return " ".join(name for (name,) in base.execute("SELECT name FROM node WHERE parent = 1 ORDER BY place"))


def family(key="PRIMARY KEY"):
    """A parent with four children, a to d, whose making isn't in the past."""
    base = database("MEMORY", key)
    add(base, None, 0, "parent")
    for place, name in enumerate("abcd"):
        add(base, 1, place, name)
    return base, Steps(base)


def take_out(base, name):
    parent, place = base.execute("SELECT parent, place FROM node WHERE name = ?", (name,)).fetchone()
    base.execute("DELETE FROM node WHERE name = ?", (name,))
    base.execute("UPDATE node SET place = place - 1 WHERE parent = ? AND place > ?", (parent, place))


def half_done(base):
    """Adds x, then a node with an id that is taken, which is refused, and then y, which isn't reached."""
    add(base, 1, 4, "x")
    base.execute("INSERT INTO node VALUES(1, 1, 5, 'twin')")
    add(base, 1, 5, "y")


def ids(key):
    """Which id a new node gets once another is undone or removed, by a sort of key."""
    base, steps = family(key)
    first = add(base, 1, 4, "x")
    steps.ends()
    steps.undo()
    second = add(base, 1, 4, "y")
    steps.ends()
    take_out(base, "y")
    third = add(base, 1, 4, "z")
    print(f"undone id: x had {first}; after its undo a new y has {second} ({key})")
    print(f"removed id: y had {second}; after its removal a new z has {third} ({key})")


def answers():
    base, steps = family()
    shown = [names(base)]
    take_out(base, "b")
    steps.ends()
    shown.append(names(base))
    steps.undo()
    print(f"place: {shown[0]} -> {shown[1]} -> {names(base)}")

    base, steps = family()
    shown = [names(base)]
    try:
        half_done(base)
    except sqlite3.Error as error:
        told = str(error)
    steps.ends()
    shown.append(names(base))
    steps.undo()
    print(f"half: without a transaction {shown[0]} -> {shown[1]} ({told}), and by an undo -> {names(base)}")
    base, steps = family()
    base.execute("BEGIN")
    try:
        half_done(base)
        base.execute("COMMIT")
    except sqlite3.Error:
        base.execute("ROLLBACK")
    print(f"half: in a transaction, rolled back, {shown[0]} -> {names(base)}")

    ids("PRIMARY KEY")
    ids("PRIMARY KEY AUTOINCREMENT")
    base, steps = family()
    before = base.execute("SELECT * FROM node ORDER BY id").fetchall()
    for at in range(1000):
        add(base, 1, 4 + at, f"node{at}")
        steps.ends()
    for _ in range(1000):
        steps.undo()
    same = before == base.execute("SELECT * FROM node ORDER BY id").fetchall()
    print(f"whole: all rows of the table after 1,000 additions and their undos: {'the same' if same else 'others'}")


if sys.argv[1] == "answers":
    answers()
else:
    timed(int(sys.argv[1]), int(sys.argv[2]))
