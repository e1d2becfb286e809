"""The agents of a tournament: their commands and names."""

import os
import re
import shlex
import shutil
import sys
from collections import Counter
from dataclasses import dataclass, replace
from pathlib import Path
from string import ascii_lowercase
from typing import Dict, List, Optional, Sequence, Tuple

from geesefuton.program import CommandError

SHOWN = ("PATH", "LANG", "LC_ALL", "LC_CTYPE", "TZ")  # variables for agents that are kept apart
PACKAGE = Path(__file__).resolve().parents[2]  # the folder that the package is imported from
MISSING = {"NA", "N/A", "NULL", "null", "None", "nan", "NaN", "n/a", "<NA>"}  # as tables are read


class EntrantError(CommandError):
    """A command that cannot be run."""


@dataclass(frozen=True)
class Entrant:
    """An agent that takes part."""

    command: str  # as it was given: a Python file, a program, or a command in quotes
    words: Tuple[str, ...]  # the words that run it, before HOST PORT WORD
    name: str  # its name in results
    root: str  # the beginning of its seat words


def read_entrant(command: str) -> Entrant:
    """Reads an agent's command. Raises EntrantError where it is no command, or its program is not
    there."""
    try:
        words = _words(command)
    except ValueError as fault:
        raise EntrantError(f"{command}: {str(fault).lower()}") from None
    if not words:
        raise EntrantError("an agent is a file or a command, not an empty word")
    first = words[0]
    if first.endswith(".py"):
        if not Path(first).is_file():
            raise EntrantError(f"there is no file {first}")
        run = [sys.executable, os.path.abspath(first)]
    else:
        found = shutil.which(first)
        if found is None and Path(first).is_file():
            raise EntrantError(f"{first} is not executable: chmod +x it, or give a command that "
                               f"runs it, such as 'java -jar {first}'")
        if found is None:
            raise EntrantError(f"there is no program {first}")
        run = [os.path.abspath(found)]
    files = [word for word in words[1:] if Path(word).is_file()]  # as in `java -jar mine.jar -x 5`
    stem = Path(first if first.endswith(".py") else (files or words)[-1]).stem
    root = re.sub("[^a-z0-9]", "", stem.lower())[:12] or "agent"
    if not command.isprintable():
        raise EntrantError(f"{command!r} has characters that cannot be printed in a table")
    return Entrant(command, tuple(run + words[1:]), stem, root)


def _words(command: str) -> List[str]:
    """The words of a command. The name of a file is one, even with a space in it."""
    return [command] if os.path.isfile(command) else shlex.split(command)


def _variant(entrant: Entrant, is_by_folder: Optional[bool]) -> str:
    """The name of a Python file's agent, or of the file's folder, with the words after the file; by
    None, or for another agent, its command."""
    first, *words = _words(entrant.command)
    if is_by_folder is None or not first.endswith(".py"):
        return entrant.command
    name = is_by_folder and Path(first).resolve().parent.name or entrant.name
    return " ".join([name, *words])


def read_entrants(commands: Sequence[str]) -> List[Entrant]:
    """Reads the agents' commands. Different agents of one name get the words after their file added
    to it, then the names of their folders instead, and last their commands. Raises EntrantError
    where one cannot be run, or a table would not read its name as a name."""
    entrants = [read_entrant(command) for command in commands]
    different = {entrant.command: entrant for entrant in entrants}  # one may be given twice
    names = {command: entrant.name for command, entrant in different.items()}
    for is_by_folder in (False, True, None):
        counts = Counter(names.values())
        names = {command: _variant(different[command], is_by_folder) if counts[name] > 1 else name
                 for command, name in names.items()}
    roots: Dict[str, List[str]] = {}
    for entrant in different.values():
        roots.setdefault(entrant.root, []).append(entrant.command)
    apart = []
    for entrant in entrants:
        alike = roots[entrant.root]
        root = entrant.root + (str(alike.index(entrant.command) + 1) if len(alike) > 1 else "")
        name = names[entrant.command]
        if name in MISSING or name[:1] in "=+-@":
            how = "missing" if name in MISSING else "a formula"
            raise EntrantError(f"an agent called {name} reads as {how} in a table: rename it")
        apart.append(replace(entrant, name=name, root=root))
    return apart


def refuse_twins(entrants: Sequence[Entrant]) -> None:
    """Raises EntrantError where two agents have the same name, or are run by the same words."""
    seen: Dict[Tuple[str, ...], str] = {}
    for entrant in entrants:
        for key in (entrant.words, (entrant.name,)):
            if key in seen:
                raise EntrantError(f"{seen[key]} and {entrant.command} are the same agent: name "
                                   "each once (--against fills the other seats)")
        seen.update({entrant.words: entrant.command, (entrant.name,): entrant.command})


def seat_words(entrants: Sequence[Entrant]) -> List[str]:
    """Different words for the seats of a game: an agent's root, with a letter from its second
    seat on, the next one that makes no other agent's word."""
    taken = {entrant.root for entrant in entrants}
    words: List[str] = []
    for entrant in entrants:
        word = entrant.root
        if word in words:
            others = (word + letter for letter in ascii_lowercase[1:])
            word = next(other for other in others if other not in taken)
        taken.add(word)
        words.append(word)
    return words


def environment(tac: str, folder: Path, is_apart: bool = False) -> Dict[str, str]:
    """The variables of an agent's process, by which it finds the package, the program and a folder
    for temporary files. One that is kept apart has few others."""
    path = os.pathsep.join(filter(None, [str(PACKAGE), os.environ.get("PYTHONPATH")]))
    others = {name: os.environ[name] for name in SHOWN if name in os.environ} if is_apart \
        else dict(os.environ)
    return {**others, **({"HOME": str(folder)} if is_apart else {}), "PYTHONUNBUFFERED": "1",
            "PYTHONPATH": path, "TAC": tac, "TMPDIR": str(folder)}
