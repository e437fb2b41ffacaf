#!/usr/bin/env -S python3 -B
"""Finds what doesn't run on the oldest Python that README.md names.

    tools/python_version.py [INTERPRETER]

Every Python file is parsed by the grammar of that version, and so is what shell scripts hand to python3; none uses a
name of the standard library that came later, as far as LATER knows them; and tools/needs asks for the same version. An
interpreter of that version, where one is given, compiles all, and imports what is no script. The last line counts the
texts, and the status is 0 only where all are good.
"""
import ast
import os
import re
import subprocess
import sys
from pathlib import Path

TOP = Path(__file__).resolve().parents[1]
# With which version names of modules, functions, methods and keywords came.
LATER = {
    (3, 9): "removeprefix removesuffix cache is_relative_to randbytes unparse to_thread graphlib zoneinfo",
    (3, 10): "zip(strict) pairwise bit_count aiter anext hardlink_to get_annotations TypeAlias ParamSpec TypeGuard",
    (3, 11): "tomllib StrEnum ExceptionGroup TaskGroup file_digest add_note assert_never Self LiteralString",
    (3, 12): "batched override",
}
IMPORT = "import runpy, sys; sys.path[:0] = sys.argv[2:]; runpy.run_path(sys.argv[1])"


def stated():
    """The version that README.md names, and the one that tools/needs asks for."""
    told = re.search(r"Python (\d+)\.(\d+) or later", (TOP / "README.md").read_text())
    asked = re.search(r"version_info < \((\d+), (\d+)\)", (TOP / "tools" / "needs").read_text())
    return tuple(tuple(map(int, found.groups())) if found else None for found in (told, asked))


def files():
    """The files of the repository, but for what is built."""
    for folder, below, names in os.walk(TOP):
        below[:] = sorted(name for name in below if name not in {".git", "out", "target"})
        yield from (Path(folder) / name for name in sorted(names))


def is_script(path):
    """Whether a file begins with the line that lets it run."""
    with path.open("rb") as file:
        return file.read(2) == b"#!"


def sources():
    """The texts in Python: each with its name and its file."""
    for path in files():
        name = str(path.relative_to(TOP))
        if path.suffix == ".py":
            yield name, path, path.read_text()
        elif path.suffix in {"", ".sh"} and is_script(path):
            text = path.read_text()
            if "python3" in text.split("\n", 1)[0]:
                yield name, path, text
            for found in re.finditer(r"python3 [^\n]*<<\s*'(\w+)'\n(.*?)\n\1\n", text, re.DOTALL):
                yield f"{name}, {found[1]}", path, found[2]


def names_of(tree):
    """The names that a text uses."""
    for node in ast.walk(tree):
        if isinstance(node, ast.Attribute):
            yield node.attr
        elif isinstance(node, ast.Name):
            yield node.id
        elif isinstance(node, ast.alias):
            yield from node.name.split(".")
        elif isinstance(node, ast.Call) and isinstance(node.func, ast.Name):
            yield from (f"{node.func.id}({word.arg})" for word in node.keywords)


def types_joined(tree):
    """Whether annotations that are evaluated join types by |, which came with 3.10."""
    if any(isinstance(node, ast.ImportFrom) and node.module == "__future__" for node in tree.body):
        return False
    given = (getattr(node, part, None) for node in ast.walk(tree) for part in ("annotation", "returns"))
    return any(isinstance(node, ast.BinOp) for each in given if each for node in ast.walk(each))


def faults_of(text, version):
    """What a version doesn't run in a text."""
    try:
        tree = ast.parse(text, feature_version=version)
    except SyntaxError as error:
        return [f"line {error.lineno}: {error.msg}"]
    used = set(names_of(tree)) | ({"types joined by |"} if types_joined(tree) else set())
    later = {name: came for came, names in LATER.items() for name in names.split() if came > version}
    later.update({"types joined by |": (3, 10)} if version < (3, 10) else {})
    return [f"{name} came with {came[0]}.{came[1]}" for name, came in later.items() if name in used]


def faults_by(interpreter, path, text):
    """What an interpreter doesn't compile, or import, in a file."""
    words = [interpreter, "-B", "-c", "import sys; compile(sys.stdin.read(), 'text', 'exec')"]
    if path.suffix == ".py" and not is_script(path):
        # What is in a package imports the rest of it by the package's name.
        folder = path.parent.parent if (path.parent / "__init__.py").exists() else path.parent
        words = [interpreter, "-B", "-c", IMPORT, str(path), str(folder), str(TOP / "tools")]
    done = subprocess.run(words, input=text, stdout=subprocess.PIPE, stderr=subprocess.PIPE, text=True, check=False)
    return [] if done.returncode == 0 else [done.stderr.strip().split("\n")[-1]]


def faults(interpreter=None):
    """All that is found, and how many texts there are."""
    version, asked = stated()
    found = [] if version and version == asked else [f"README.md names {version}, and tools/needs asks for {asked}"]
    if not version:
        return found, 0
    texts = list(sources())
    for name, path, text in texts:
        wrong = faults_of(text, version) + (faults_by(interpreter, path, text) if interpreter else [])
        found += [f"{name}: {fault}" for fault in wrong]
    return found, len(texts)


def main():
    found, count = faults(*sys.argv[1:2])
    for fault in found:
        print(fault, file=sys.stderr)
    print(f"Python: {count} texts, {len(found)} faults")
    return 1 if found else 0


if __name__ == "__main__":
    sys.exit(main())
