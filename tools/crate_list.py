"""What crates.txt says: the crates of this repository, and what each stands on."""
from pathlib import Path

TOP = Path(__file__).resolve().parent.parent


def listed_in(file):
    """What a file in the form of crates.txt lists: crates by name, each with all that it names, of this repository and of
    the toolchain."""
    named = {}
    for line in file.read_text().splitlines():
        if line.strip() and not line.startswith("#"):
            name, _, others = line.partition(":")
            named[name.split()[0]] = others.split()
    return named


def listed(top=TOP):
    """The same of the crates of a repository."""
    return listed_in(top / "crates.txt")


def crates():
    """The crates by name, each with those of this repository that it names."""
    named = listed()
    return {name: [other for other in others if other in named] for name, others in named.items()}


def with_all_below(names, top=TOP):
    """The crates named, and all that they stand on."""
    named, wanted, left = listed(top), set(), list(names)
    while left:
        name = left.pop()
        if name not in wanted:
            wanted.add(name)
            left.extend(other for other in named[name] if other in named)
    return wanted


def lists_only(names):
    """The text of a crates.txt that has only these crates."""
    lines = (TOP / "crates.txt").read_text().splitlines()
    return "".join(f"{line}\n" for line in lines if line.partition(":")[0].split(" ")[0] in names)
