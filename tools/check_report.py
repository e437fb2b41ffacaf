"""Reads what `rt check` says of the functions that it doesn't prove: at which goal each fails, and whether that goal is
false or only the text of its proof names what is gone."""
import re
from typing import NamedTuple

VERDICT = re.compile(r"fn (\S+): (.*)")
OWN_FAILURE = ("not proved", "no proof: expected")
OPEN_GOALS = re.compile(r"note: src/\S+: it is not proved .*?\(((?:`[^`]+`(?:, )?)+)\)(.*)")
SEARCHED = re.compile(r"did not prove (.*)")
IN_A_PROOF = re.compile(r"(?:\./)?proofs/(\S+)\.antt:\d+:\d+: error: (?:`([^`]+)`: )?(.*)")
NAME_IS_GONE = re.compile(r"has no field|is not in scope|has no `|has no name|was not admitted")
GONE_GOAL = re.compile(r"`goal\.([^`]+)`: module .* has no `")
FOLLOWS = re.compile(r"which was rejected, (?:was|were) not checked")
PATH = re.compile(r"`Rattle\.[^`]*\.")
FALSE_SOMEWHERE = "allow values at which this goal is false"


class Failure(NamedTuple):
    """A goal that fails, and what `rt check` says of it."""

    goal: str
    said: str
    in_proof: bool

    def names_what_is_gone(self):
        return self.in_proof and bool(NAME_IS_GONE.search(self.said))

    def rank(self):
        """First the goals that are known to be false, then clauses, then what else the type and the calls ask."""
        return (FALSE_SOMEWHERE not in self.said, not self.goal.startswith("returns"), "-requires" in self.goal)


class Refusal(NamedTuple):
    """A function that isn't proved, and the goals at which it fails."""

    function: str
    failures: list

    def false_goals(self):
        """The goals that fail, but for one whose answer is lost with a name: the search alone has to prove it."""
        lost = {stem(name[1]) for fail in self.failures if (name := GONE_GOAL.search(fail.said))}
        standing = [fail for fail in self.failures if not fail.names_what_is_gone()]
        return sorted((fail for fail in standing if stem(fail.goal) not in lost), key=Failure.rank)

    def is_by_a_gone_name(self):
        return bool(self.failures) and not self.false_goals()

    def words(self):
        """The function and the clause or obligation that fails, and the name that is gone where only that fails."""
        gone = [fail for fail in self.failures if fail.names_what_is_gone()]
        goals = self.false_goals() or gone
        of_type = re.search(r"\b[A-Z].*", self.function)
        name = of_type[0] if of_type else self.function.split("::")[-1]
        why = f": {PATH.sub('`', gone[0].said)[:120]}" if self.is_by_a_gone_name() else ""
        return f"{name}, {in_words(goals[0].goal)}{why}" if goals else name


def stem(goal):
    """What a goal is about, without the way to it and its number."""
    if goal.startswith("returns"):
        _, named, clause = goal.partition("-clause-")
        return f"clause-{clause}" if named else "returns"
    return re.sub(r"-(?:then|else|in|\d+)\b.*", "", goal)


def in_words(goal):
    """A clause, an invariant or what a call requires, as a reader of the code knows it."""
    about = stem(goal)
    if about.startswith("clause-"):
        return "clause " + about.removeprefix("clause-")
    if about == "returns":
        return "its ensures"
    if about.startswith("invariant_of-"):
        return "the invariant of " + about.removeprefix("invariant_of-")
    callee, required, _ = about.partition("-requires")
    return f"what {callee} requires" if required else f"goal {goal}"


def quoted(text):
    return re.findall(r"`([^`]+)`", text)


def verdicts(report):
    """What the check says of each function; nothing where the crate doesn't compile."""
    return dict(match.groups() for match in map(VERDICT.match, report.splitlines()) if match)


def refusals(report):
    """The functions that fail on their own account, not for what they call."""
    found, open_goals, in_proofs = {}, [], {}
    for line in report.splitlines():
        if said := OPEN_GOALS.match(line):
            open_goals += [Failure(goal, said[2], False) for goal in quoted(said[1])]
        elif (error := IN_A_PROOF.match(line)) and not FOLLOWS.search(error[3]):
            failure = Failure(error[2] or "of its use lines", error[3], True)
            in_proofs.setdefault(error[1].rpartition("/")[0], []).append(failure)
        elif verdict := VERDICT.match(line):
            if verdict[2].startswith(OWN_FAILURE):
                found[verdict[1]] = open_goals or searched(verdict[2])
            open_goals = []
    return [refusal(name, goals, in_proofs) for name, goals in found.items()]


def searched(verdict):
    """The goals that a verdict names. A loop whose invariant isn't found by its name has lost it."""
    said = SEARCHED.search(verdict)
    if said:
        return [Failure(goal, "", False) for goal in quoted(said[1])]
    return [] if verdict.startswith("not proved") else [Failure(verdict, "has no `invariant`", True)]


def refusal(name, open_goals, in_proofs):
    """A function's refusal, with the errors of its proof files, or of the lemmas where it has none of its own."""
    own = in_proofs.get("/".join(name.split("::")[1:]), [])
    lemmas = [] if own or open_goals else [fail for fails in in_proofs.values() for fail in fails]
    return Refusal(name, open_goals + (own or lemmas))
