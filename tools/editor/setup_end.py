"""Which line ends the setup. Before that one a tab says who it is, since to say so ends the setup too."""
from commands import SETUP
from line_requests import word_of
from played_scene import Trouble
from questions import answer_word
from shell import played_alone

NO_END = ("bad", "nothing")


def place_of_end(program, kinds, lines):
    """The place of the line that ends a setup which has these kinds, or None. A bad line doesn't, and a shell without
    a store says which lines are bad."""
    if all(word_of(line) in SETUP for line in lines):
        return None
    known = [f"kind {name} {shape}" for name, shape in kinds]
    answers = played_alone(program, [*known, *lines])[len(known) :]
    if len(answers) != len(lines):
        raise Trouble("the program can't say which line ends the setup")
    for place, (line, answer) in enumerate(zip(lines, answers)):
        if word_of(line) not in SETUP and answer_word(answer) not in NO_END:
            return place
    return None
