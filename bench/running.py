"""What the benches share: runs with their processor time, what they need, errors in one line."""

import resource
import shutil
import subprocess
import sys
import time
from pathlib import Path
from typing import List, NamedTuple, Sequence, Union

sys.path.insert(0, str(Path(__file__).resolve().parent.parent / "python"))

from geesefuton.arguments import Parser, whole  # noqa: E402, F401
from geesefuton.processes import command  # noqa: E402, F401
from geesefuton.program import ProgramError  # noqa: E402

Word = Union[str, Path]


class Ran(NamedTuple):
    """What a run printed, and its time on a processor and by the clock, in seconds."""

    text: str
    processor: float
    wall: float


def run(words: Sequence[Word], allowed: Sequence[int] = (0,)) -> Ran:
    """Runs a process, and gives its output with its times.

    Raises:
        ProgramError: It could not be run, or ended with another status than those allowed.
    """
    before, start = resource.getrusage(resource.RUSAGE_CHILDREN), time.monotonic()
    try:
        done = subprocess.run([str(word) for word in words], stdin=subprocess.DEVNULL,
                              stdout=subprocess.PIPE, check=False)
    except OSError as fault:
        raise ProgramError(f"{words[0]}: {fault.strerror}") from None
    wall, after = time.monotonic() - start, resource.getrusage(resource.RUSAGE_CHILDREN)
    text = done.stdout.decode("ascii", "replace")
    if done.returncode not in allowed:
        told = " ".join(map(str, words))[:120]
        raise ProgramError(f"`{told}` ended with exit status {done.returncode}: "
                           f"{text[:60].strip()}")
    spent = after.ru_utime + after.ru_stime - before.ru_utime - before.ru_stime
    return Ran(text, spent, wall)


def file_of(name: str) -> str:
    """The file of the program, for any folder.

    Raises:
        ProgramError: There is no such program.
    """
    found = shutil.which(name)
    if found is None:
        raise ProgramError(f"there is no program {name}")
    return str(Path(found).absolute())


def need(*names: str) -> None:
    """Sees that programs are installed.

    Raises:
        ProgramError: One of them is not.
    """
    missing = [name for name in names if shutil.which(name) is None]
    if missing:
        raise ProgramError(f"not installed, and needed: {', '.join(missing)}")


def read_account(file: Word) -> "tuple[List[int], List[List[int]]]":
    """The holdings and the clients of an account file.

    Raises:
        OSError: It cannot be read.
        ProgramError: It is no account file.
    """
    lines = [line.split() for line in Path(file).read_text(errors="replace").splitlines()
             if line and not line.startswith("#")]
    try:
        holdings = [int(word) for word in lines[1][1:]]
        clients = [[int(word) for word in line[2:]] for line in lines[2:10]]
        if lines[0] != ["account"] or len(holdings) != 28 or \
                [len(client) for client in clients] != [6] * 8:
            raise ValueError
    except (IndexError, ValueError):
        raise ProgramError(f"{file} is no account file") from None
    return holdings, clients
