"""Builds the package `scene` by the standard library alone, so that pip installs it without a network.

pyproject.toml names this module as the build backend. pip calls `build_wheel` for `pip install` (PEP 517) and
`build_editable` for `pip install -e` (PEP 660); `build_sdist` makes an archive of the sources, of which the same wheel
can be built. Nothing is compiled, and no file of the sources is written. The same sources give the same bytes.
"""
from __future__ import annotations

import base64
import gzip
import hashlib
import io
import os
import re
import tarfile
import zipfile
from pathlib import Path
from typing import Any, Dict, List, Mapping, Optional

HERE = Path(__file__).resolve().parent.parent
TAG = "py3-none-any"
LICENSE = "LICENSE"
# The time of each file in an archive: the first one that a zip can tell.
MOMENT = (1980, 1, 1, 0, 0, 0)
READABLE = 0o100644  # a file that its owner writes and all read

Settings = Optional[Mapping[str, Any]]


class Project:
    """What the table [project] of pyproject.toml says. (Python has a reader of such files only from 3.11 on.)"""

    def __init__(self) -> None:
        text = (HERE / "pyproject.toml").read_text(encoding="utf-8")
        table = text.partition("\n[project]\n")[2].partition("\n[")[0]
        self.texts: Dict[str, str] = dict(re.findall(r'^([\w-]+) = (?:{ text = )?"(.*)"(?: })?$', table, re.MULTILINE))
        self.classifiers: List[str] = re.findall(r'^    "(.*)",$', table, re.MULTILINE)
        self.stem = f"{self.texts['name'].replace('-', '_')}-{self.texts['version']}"

    def metadata(self) -> bytes:
        """The file METADATA of a wheel, which is PKG-INFO in an archive of the sources."""
        lines = [
            "Metadata-Version: 2.1",
            f"Name: {self.texts['name']}",
            f"Version: {self.texts['version']}",
            f"Summary: {self.texts['description']}",
            f"License: {self.texts['license']}",
            f"License-File: {LICENSE}",
            *(f"Classifier: {name}" for name in self.classifiers),
            f"Requires-Python: {self.texts['requires-python']}",
        ]
        return "".join(f"{line}\n" for line in lines).encode()

    def kind_of_wheel(self) -> bytes:
        """The file WHEEL."""
        maker = f"{Path(__file__).stem} ({self.texts['version']})"
        return f"Wheel-Version: 1.0\nGenerator: {maker}\nRoot-Is-Purelib: true\nTag: {TAG}\n".encode()


def package_files() -> Dict[str, bytes]:
    """The files of the package by their names in a wheel."""
    found = [path for path in sorted((HERE / "scene").iterdir()) if path.suffix == ".py" or path.name == "py.typed"]
    return {f"scene/{path.name}": path.read_bytes() for path in found}


def record_line(name: str, content: bytes) -> str:
    """The line of RECORD about a file."""
    digest = base64.urlsafe_b64encode(hashlib.sha256(content).digest()).decode().rstrip("=")
    return f"{name},sha256={digest},{len(content)}\n"


def write_wheel(folder: str, files: Mapping[str, bytes]) -> str:
    """Writes a wheel of files and what describes them, and gives its name."""
    project = Project()
    about = f"{project.stem}.dist-info"
    described = {
        **files,
        f"{about}/METADATA": project.metadata(),
        f"{about}/WHEEL": project.kind_of_wheel(),
        f"{about}/{LICENSE}": (HERE / LICENSE).read_bytes(),
    }
    record = f"{about}/RECORD"
    lines = [*(record_line(*one) for one in described.items()), f"{record},,\n"]
    name = f"{project.stem}-{TAG}.whl"
    with zipfile.ZipFile(Path(folder) / name, "w", zipfile.ZIP_DEFLATED) as wheel:
        for path, content in {**described, record: "".join(lines).encode()}.items():
            entry = zipfile.ZipInfo(path, MOMENT)
            entry.external_attr = READABLE << 16
            entry.compress_type = zipfile.ZIP_DEFLATED
            wheel.writestr(entry, content)
    return name


def build_wheel(
    wheel_directory: str, config_settings: Settings = None, metadata_directory: Optional[str] = None
) -> str:
    """Writes the wheel of the package."""
    return write_wheel(wheel_directory, package_files())


def build_editable(
    wheel_directory: str, config_settings: Settings = None, metadata_directory: Optional[str] = None
) -> str:
    """Writes a wheel by which the package is imported from here, and with it what lies beside it."""
    stem = Project().stem.partition("-")[0]
    return write_wheel(wheel_directory, {f"__editable__.{stem}.pth": os.fsencode(HERE) + b"\n"})


def build_sdist(sdist_directory: str, config_settings: Settings = None) -> str:
    """Writes an archive of the sources, of which a wheel can be built."""
    project = Project()
    own = ["pyproject.toml", f"backend/{Path(__file__).name}", LICENSE]
    files = {name: (HERE / name).read_bytes() for name in own}
    name = f"{project.stem}.tar.gz"
    # (the head of the archive has neither a time nor a file's name)
    with (Path(sdist_directory) / name).open("wb") as file, gzip.GzipFile("", "wb", mtime=0, fileobj=file) as packed:
        with tarfile.open(fileobj=packed, mode="w", format=tarfile.PAX_FORMAT) as archive:
            for path, content in {"PKG-INFO": project.metadata(), **files, **package_files()}.items():
                entry = tarfile.TarInfo(f"{project.stem}/{path}")
                entry.size = len(content)
                archive.addfile(entry, io.BytesIO(content))
    return name
