"""The provenance of results: the settings and files that decide whether they can be compared. Each
row has its settings as a text, and the first digits of the SHA-256 of its agent's files."""

import fnmatch
import hashlib
import os
import platform
import subprocess
import sys
from dataclasses import dataclass, field
from functools import lru_cache
from importlib import metadata
from pathlib import Path
from typing import Any, Dict, Iterable, Iterator, List, Mapping, Optional, Sequence, Tuple
from urllib.parse import quote

from geesefuton.experiments.agent_host import imports_of
from geesefuton.experiments.entrants import PACKAGE, Entrant, EntrantError

MOST_FILES, MOST_BYTES = 2000, 1 << 30  # of an agent
# A folder that has one of these files has none of an agent.
NOT_OURS = ("run.json", "secret", "payoffs.csv", "pyvenv.cfg", "quotes.csv")


def digest_of(file: Path) -> str:
    """The SHA-256 of a file, in hexadecimal digits."""
    return hashlib.sha256(file.read_bytes()).hexdigest()


def digest_of_all(files: Mapping[str, str]) -> str:
    """One digest of many, by name."""
    text = "".join(f"{digest}  {name}\n" for name, digest in sorted(files.items()))
    return hashlib.sha256(text.encode("utf-8", "surrogateescape")).hexdigest()


def package_digest() -> str:
    """The digest of the package's files."""
    top = PACKAGE / "geesefuton"
    files = (file for file in top.rglob("*") if file.suffix in (".py", ".css", ".html"))
    return digest_of_all({str(file.relative_to(top)): digest_of(file) for file in files})


@dataclass(frozen=True)
class Agent:
    """What an agent is: its name, its command, and what decides how it plays."""

    name: str  # its name in results
    command: str  # as it was given
    # the words of its command but for the Python that runs it, files by their names alone
    words: Sequence[str]
    files: Mapping[str, str]  # the digests of its files, by their names
    # the versions of the installed libraries that its Python files import
    libraries: Mapping[str, str] = field(default_factory=dict)

    @property
    def digest(self) -> str:
        """One digest of its words, files and libraries."""
        return digest_of_all({**self.files, "": "\0".join(self.words),
                              **{f"library {name}": each for name, each in self.libraries.items()}})


def agent_of(entrant: Entrant, patterns: Sequence[str] = (),
             without: Optional[Path] = None) -> Agent:
    """What an agent is.

    Its files are those of the folder of the first file that its command names, and of the folders
    below, but for hidden files and folders of something else (`NOT_OURS`). Further files that its
    command names, after a `=`, too, and the program that runs it belong to it by themselves, and a
    folder with what is in it.

    Args:
        patterns: If there are any, the files of its folder are those whose names match one.
        without: A file that is written, which is not an agent's.

    Raises EntrantError where they are too many for an agent."""
    words = [word for word in entrant.words if word != sys.executable]
    named = {word: Path(word.rpartition("=")[2]) for word in words if word.rpartition("=")[2]}
    named = {word: path for word, path in named.items() if path.exists()}
    by_name = set() if "/" in entrant.command.split()[0] else {entrant.words[0]}  # such as `java`
    files: Dict[str, Path] = {}
    folder = None
    for word, path in named.items():
        if folder is None and path.is_file() and word not in by_name:
            folder, written = path.resolve().parent, without and without.resolve()
            files.update({str(file.relative_to(folder)): file for file in _within(folder)
                          if file != written and (not patterns or any(
                              fnmatch.fnmatch(file.name, each) for each in patterns))})
    for path in named.values():
        if path.is_dir():
            files.update({f"{path.name}/{file.relative_to(path)}": file for file in _within(path)})
        elif path.resolve() not in files.values():
            files[str(path) if path.name in files else path.name] = path.resolve()
    if len(files) > MOST_FILES or sum(file.stat().st_size for file in files.values()) > MOST_BYTES:
        raise EntrantError(f"{entrant.name}: its folder {folder} has more than {MOST_FILES} files, "
                           "or a gigabyte: give it a folder of its own, or name its files by "
                           "--files '*.py'")
    imported = {name.split(".")[0] for file in files.values() if file.suffix == ".py"
                for name in imports_of(file)}
    libraries = sorted(each for name in imported for each in _installed().get(name, ()))
    return Agent(entrant.name, entrant.command,
                 ["".join([*word.rpartition("=")[:2], named[word].name]) if word in named else word
                  for word in words],
                 {name: digest_of(file) for name, file in sorted(files.items())},
                 dict(libraries))


def _within(folder: Path, top: Optional[Path] = None) -> Iterator[Path]:
    """The files of a folder, and of those below, that may be an agent's, with links to files, but
    not to folders, that are there. A link that leads out of the folder is refused, unread."""
    top = top or folder.resolve()
    for file in sorted(folder.iterdir()):
        if file.name[0] == "." or file.name == "__pycache__":
            continue
        if file.is_symlink() and top not in (file.resolve(), *file.resolve().parents):
            raise EntrantError(f"the link {file} leads out of its folder: put a copy there")
        if file.is_file():
            yield file
        elif (file.is_dir() and not file.is_symlink()
              and not any((file / name).exists() for name in NOT_OURS)):
            yield from _within(file, top)


@lru_cache(maxsize=1)
def _installed() -> Dict[str, List[Tuple[str, str]]]:
    """The names and versions of the installed libraries, by what is imported of them."""
    found: Dict[str, List[Tuple[str, str]]] = {}
    for each in metadata.distributions():
        name = each.metadata["Name"] or ""
        for top in (each.read_text("top_level.txt") or name.replace("-", "_")).split():
            found.setdefault(top, []).append((name, each.version))
    return found


def names_text(names: Sequence[str]) -> str:
    """The names of agents in their order, each as in an address."""
    return "+".join(quote(name, safe="") for name in names)


def settings_text(settings: Mapping[str, object]) -> str:
    """Settings as one text, such as `turns=40 rooms=16`. No value has a space."""
    return " ".join(f"{name}={value}" for name, value in settings.items())


def read_settings(text: str) -> Dict[str, str]:
    """The settings of a text."""
    pairs = (word.partition("=") for word in text.split(" ") if word)
    return {name: value for name, _, value in pairs}


def unlike(ours: Mapping[str, object], theirs: Mapping[str, object]) -> List[str]:
    """What differs in their settings from ours, each in a few words."""
    names: Iterable[str] = dict.fromkeys([*ours, *theirs])
    return [f"{name} is {theirs.get(name, 'not set')}, not {ours.get(name, 'set')}"
            for name in names if str(ours.get(name)) != str(theirs.get(name))]


def commit() -> str:
    """The commit of the clone that the package stands in, with `-dirty` if its files are others by
    now; "" if there is none."""
    try:
        return subprocess.check_output(
            ["git", "-C", str(PACKAGE), "describe", "--always", "--dirty", "--abbrev=40",
             "--exclude=*"], stdin=subprocess.DEVNULL, stderr=subprocess.DEVNULL, timeout=20,
            text=True, errors="replace").strip()
    except (OSError, subprocess.SubprocessError):
        return ""


def machine() -> Dict[str, Any]:
    """The machine that plays: its name, system, Python, processors and load."""
    return {"host": platform.node(), "system": platform.platform(),
            "python": platform.python_version(), "processors": os.cpu_count(),
            "load": [round(load, 2) for load in os.getloadavg()]}
