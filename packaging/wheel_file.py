"""A wheel, written directly: a zip with the package's files and its metadata."""

import base64
import hashlib
import time
import tomllib
import zipfile
from pathlib import Path
from typing import Any, Dict, List, Tuple

TAG = "py3-none-manylinux_2_34_x86_64"
FIRST = 315532800  # the first second that a zip can tell, in 1980


def name(version: str) -> str:
    """The file's name."""
    return f"geesefuton-{version}-{TAG}.whl"


def _metadata(project: Dict[str, Any], version: str, readme: str) -> str:
    lines = ["Metadata-Version: 2.1", f"Name: {project['name']}", f"Version: {version}",
             f"Summary: {project['description']}",
             f"Requires-Python: {project['requires-python']}", "License: MIT",
             "License-File: LICENSE", "Description-Content-Type: text/markdown"]
    lines += [f"Author: {each['name']}" for each in project.get("authors", [])]
    lines += [f"Classifier: {each}" for each in project.get("classifiers", [])]
    for extra, needs in sorted(project.get("optional-dependencies", {}).items()):
        lines.append(f"Provides-Extra: {extra}")
        lines += [f'Requires-Dist: {need}; extra == "{extra}"' for need in needs]
    return "\n".join(lines) + "\n\n" + readme


def _entry_points(project: Dict[str, Any]) -> str:
    scripts = sorted(project.get("scripts", {}).items())
    return "[console_scripts]\n" + "".join(f"{word} = {place}\n" for word, place in scripts)


def _digest(data: bytes) -> str:
    packed = base64.urlsafe_b64encode(hashlib.sha256(data).digest()).rstrip(b"=")
    return "sha256=" + packed.decode()


def write(file: Path, version: str, epoch: int, files: Dict[str, Tuple[bytes, bool]],
          project_file: Path, readme: str, licence: bytes) -> None:
    """Writes the wheel.

    Args:
        file: Where it goes.
        version: Its version.
        epoch: The time that its files have, in seconds since 1970.
        files: The files of the package by their paths: bytes, and whether each can be executed.
        project_file: The package's pyproject.toml.
        readme: The description.
        licence: The licence's text.
    """
    project = tomllib.loads(project_file.read_text(encoding="utf-8"))["project"]
    info = f"geesefuton-{version}.dist-info"
    wheel = f"Wheel-Version: 1.0\nGenerator: geesefuton\nRoot-Is-Purelib: false\nTag: {TAG}\n"
    whole = {**files,
             f"{info}/METADATA": (_metadata(project, version, readme).encode(), False),
             f"{info}/WHEEL": (wheel.encode(), False),
             f"{info}/entry_points.txt": (_entry_points(project).encode(), False),
             f"{info}/LICENSE": (licence, False)}
    rows: List[str] = [f"{path},{_digest(data)},{len(data)}"
                       for path, (data, _) in sorted(whole.items())]
    whole[f"{info}/RECORD"] = ("\n".join([*rows, f"{info}/RECORD,,", ""]).encode(), False)
    date = _date(epoch)
    with zipfile.ZipFile(file, "w", zipfile.ZIP_DEFLATED, compresslevel=9) as zipped:
        for path, (data, can_run) in sorted(whole.items()):
            entry = zipfile.ZipInfo(path, date)
            entry.compress_type = zipfile.ZIP_DEFLATED
            entry.create_system = 3  # Unix, whose permissions follow
            entry.external_attr = (0o100755 if can_run else 0o100644) << 16
            zipped.writestr(entry, data)


def _date(epoch: int) -> Tuple[int, int, int, int, int, int]:
    moment = time.gmtime(max(epoch, FIRST))
    return (moment.tm_year, moment.tm_mon, moment.tm_mday, moment.tm_hour, moment.tm_min,
            moment.tm_sec)
