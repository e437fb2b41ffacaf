"""Random edits of scene texts for tools/fuzz: of the values of their JSON, of their white space and of their bytes. A text
is read into objects as lists of pairs, so that keys may come twice and in any order, and numbers stay the words they are."""
import json

from random_scripts import BAD_NAMES, ENDS, NAMES, SHAPES, TEXTS, with_bytes_changed

NUMBERS = [str(number) for number in ENDS] + ["-1", "-9223372036854775808", "-9223372036854775809", "-0", "1.0", "1e0", "1e400", "1e-400"]
NUMBERS += ["4294967295", "18446744073709551615"] * 2
ENTITIES = [f"{index}v{generation}" for index in (0, 1, 2, 9, 4294967295) for generation in (0, 1, 2, 3, 4294967295)]
ENTITIES += ["0v01", "+0v1", "0v", "v1", "4294967296v1", "0v4294967296", "0V1", " 0v1"]
STRINGS = ENTITIES + NAMES + BAD_NAMES + SHAPES + TEXTS + ["spawned", "despawned", "shifted", "cellset", "linked", "resourceset"]
KEYS = ["scene", "tick", "undo", "redo", "kinds", "cells", "entity", "place", "link", "before", "after", "op", "name", "", "zz", "e\u0301"]
WHITE = ["", "", "", " ", "\t", "\r", "\n", "  "]


class Word(str):
    """A number, true, false or null, as it is written."""


class Pairs(list):
    """An object: its keys and values in their order, each pair a list."""


def tree_of(text):
    """The value of a JSON text."""
    words = {"parse_int": Word, "parse_float": Word, "parse_constant": Word}
    return with_words(json.loads(text, object_pairs_hook=lambda pairs: Pairs(map(list, pairs)), **words))


def with_words(value):
    """The value with its true, false and null as words."""
    if isinstance(value, Pairs):
        return Pairs([key, with_words(part)] for key, part in value)
    if isinstance(value, list):
        return [with_words(part) for part in value]
    return value if isinstance(value, str) else Word(json.dumps(value))


def text_of(value, chance=None):
    """The JSON text of a value: compact, or with white space and escapes by chance."""
    white = (lambda: chance.choice(WHITE)) if chance else (lambda: "")
    if isinstance(value, Word):
        text = str(value)
    elif isinstance(value, str):
        text = json.dumps(value, ensure_ascii=bool(chance) and chance.randrange(2) == 0)
    elif isinstance(value, Pairs):
        parts = [f"{text_of(key, chance)}:{text_of(part, chance)}" for key, part in value]
        text = "{" + ",".join(parts) + "}"
    else:
        text = "[" + ",".join(text_of(part, chance) for part in value) + "]"
    return white() + text + white()


def spots(value):
    """Each place of a value in a list or an object: the list or the pair that holds it, and where."""
    found = []
    for at, part in enumerate(value):
        holder, place = (part, 1) if isinstance(value, Pairs) else (value, at)
        found.append((holder, place))
        if isinstance(holder[place], list):
            found += spots(holder[place])
    return found


class TextEditor:
    """Edits one scene text by chance."""

    def __init__(self, chance, text):
        self.chance, self.tree = chance, tree_of(text)

    def spot(self, wanted):
        """A place whose value is wanted, or None."""
        found = [(holder, at) for holder, at in spots(self.tree) if wanted(holder[at])]
        return self.chance.choice(found) if found else None

    def replace(self, wanted, make):
        if spot := self.spot(wanted):
            holder, at = spot
            holder[at] = make(holder[at])

    def number(self):
        self.replace(lambda value: isinstance(value, Word), self.other_word)

    def other_word(self, word):
        """Another number: one at the end of a range, one beside it, or one that stands elsewhere."""
        how = self.chance.randrange(4)
        if how == 0 and word.lstrip("-").isdigit():
            return Word(int(word) + self.chance.choice([-1, 1]))
        if how == 1:
            holder, at = self.spot(lambda value: isinstance(value, Word))
            return holder[at]
        return Word(self.chance.choice(NUMBERS + ["true", "false", "null"]))

    def string(self):
        self.replace(lambda value: isinstance(value, str) and not isinstance(value, Word), lambda _: self.chance.choice(STRINGS))

    def same_sort(self):
        """A value becomes another one of its sort that stands elsewhere."""
        if spot := self.spot(lambda value: True):
            holder, at = spot
            other, place = self.spot(lambda value: type(value) is type(holder[at]))
            holder[at] = tree_of(text_of(other[place]))

    def value(self):
        self.replace(lambda value: True, lambda _: self.chance.choice([[], Pairs(), Word("null"), "", Word("0"), [Word("0")]]))

    def items(self):
        """Items of a list are swapped, copied or removed."""
        spot = self.spot(lambda value: type(value) is list and value)
        if not spot:
            return
        items = spot[0][spot[1]]
        at, other = self.chance.randrange(len(items)), self.chance.randrange(len(items))
        how = self.chance.randrange(3)
        if how == 0:
            items[at], items[other] = items[other], items[at]
        elif how == 1:
            items.insert(other, tree_of(text_of(items[at])))
        else:
            del items[at]

    def keys(self):
        """A key is dropped, doubled, renamed or added, or all are shuffled."""
        objects = [self.tree] + [holder[at] for holder, at in spots(self.tree) if isinstance(holder[at], Pairs)]
        pairs = self.chance.choice([it for it in objects if it] or [Pairs([["", Word("0")]])])
        at, how = self.chance.randrange(len(pairs)), self.chance.randrange(6)
        if how == 0:
            del pairs[at]
        elif how == 1:
            pairs.insert(self.chance.randrange(len(pairs) + 1), [pairs[at][0], tree_of(text_of(self.chance.choice(pairs)[1]))])
        elif how == 2:
            pairs[at][0] = self.chance.choice(KEYS)
        elif how == 3:
            pairs.append([self.chance.choice(KEYS), Word("0")])
        else:
            self.chance.shuffle(pairs)

    def nest(self):
        """A value is put deep into lists, about as deep as a text may nest."""
        depth = self.chance.choice([1, 2, 100, 120, 121, 122, 123, 124, 125, 126, 127, 128, 129])
        self.replace(lambda value: True, lambda value: tree_of("[" * depth + text_of(value) + "]" * depth))

    def later(self):
        """The tick rises, which keeps a world valid; without a past it is then a good text."""
        for pair in self.tree:
            if pair[0] == "tick":
                pair[1] = Word(self.chance.choice([2**32, 2**63, 2**64 - 2, 2**64 - 1]))
            elif pair[0] in ("undo", "redo") and self.chance.randrange(2):
                pair[1] = []

    def older(self):
        """A generation becomes another one, mostly the last, wherever the entity is named."""
        generations = next((pair[1] for pair in self.tree if pair[0] == "generations"), None)
        if not isinstance(generations, list) or not generations:
            return
        index = self.chance.randrange(len(generations))
        old, new = f"{index}v{generations[index]}", self.chance.choice(["2", "4294967294", "4294967295", "4294967295"])
        generations[index] = Word(new)
        for holder, at in spots(self.tree):
            if holder[at] == old:
                holder[at] = f"{index}v{new}"

    def renamed(self):
        """A kind or a resource gets another name, wherever it stands."""
        names = [value for holder, at in spots(self.tree) if (value := holder[at]) in NAMES and not isinstance(value, Word)]
        old, new = self.chance.choice(names or [""]), self.chance.choice(NAMES + SHAPES)
        for holder, at in spots(self.tree):
            if type(holder[at]) is str and holder[at] == old:
                holder[at] = new

    def free(self):
        """The free list is shuffled, which keeps a world valid."""
        for pair in self.tree:
            if pair[0] == "free" and isinstance(pair[1], list):
                self.chance.shuffle(pair[1])

    def edited(self):
        """The text after a few edits. Each LF of it is white space, also where a byte was changed: then there is none."""
        for _ in range(self.chance.choice([0, 1, 1, 1, 1, 2, 3])):
            self.chance.choices([edit for edit, _ in EDITS], [weight for _, weight in EDITS])[0](self)
        with_white = self.chance if self.chance.randrange(4) == 0 else None
        text = text_of(self.tree, with_white).encode("utf-8", "surrogatepass")
        for _ in range(self.chance.choice([0] * 12 + [1, 1, 2])):
            text = with_bytes_changed(self.chance, text.replace(b"\n", b" "))
        return text[: self.chance.randrange(len(text) + 1)] if self.chance.randrange(60) == 0 else text


EDITS = [
    (TextEditor.number, 30), (TextEditor.string, 10), (TextEditor.same_sort, 12), (TextEditor.value, 4), (TextEditor.items, 16),
    (TextEditor.keys, 16), (TextEditor.nest, 2), (TextEditor.later, 8), (TextEditor.older, 12), (TextEditor.free, 4),
    (TextEditor.renamed, 4),
]  # fmt: skip
