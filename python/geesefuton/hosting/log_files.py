"""Where the log of a game goes: to the chosen output and to a file beside the journal, so that a
full disk or a pipe whose reader has gone does not lose it; if both fail, to the folder of temporary
files."""

from __future__ import annotations

import os
import tempfile
from dataclasses import dataclass
from pathlib import Path
from typing import BinaryIO, Optional, Union

from geesefuton.processes import Output, why

Target = Union[BinaryIO, Path, None]


@dataclass(frozen=True)
class Kept:
    """What became of a log."""

    fault: Optional[str]  # why the output took no more, in a few words; None if it has all
    file: Optional[Path]  # a file that has the whole log, if there is one


def free_name(file: Path) -> Path:
    """The file, or if that is there already, one beside it with a number in its name."""
    name, number = file, 1
    while os.path.lexists(name):
        number += 1
        name = file.with_name(f"{file.stem}-{number}{file.suffix}")
    return name


def keep(log: bytes, target: Target, beside: Optional[Path]) -> Kept:
    """Writes a log to its output, if there is one, and a copy beside it. Where the copy's file is
    there already another name is taken, and if it is the output itself there is no copy. If an
    output that is no path takes no more, and no copy could be made, a new file is made where
    temporary files stand.
    """
    copy = None if beside is None or _is_same(target, beside) else free_name(beside)
    if copy is not None and _write(log, copy) is not None:
        copy.unlink(missing_ok=True)
        copy = None
    fault = "it is closed" if target is None else _write(log, target)
    if isinstance(target, Path):
        return Kept(fault, copy if fault else target)
    return Kept(fault, _keep_elsewhere(log) if fault and copy is None else copy)


def _keep_elsewhere(log: bytes) -> Optional[Path]:
    """Writes a log where temporary files stand; None if that takes no more either."""
    try:
        number, name = tempfile.mkstemp(".log", "tac-")
    except OSError:
        return None
    os.close(number)
    if _write(log, Path(name)) is None:
        return Path(name)
    os.remove(name)
    return None


def _write(log: bytes, target: Union[BinaryIO, Path]) -> Optional[str]:
    """Writes a log, and gives the fault if there is one."""
    try:
        output = Output(target if isinstance(target, Path) else target.fileno())
    except OSError:  # a stream in memory
        assert not isinstance(target, Path)
        try:
            target.write(log)
            target.flush()
        except OSError as fault:
            return why(fault)
        return None
    output.write(log)
    output.close()
    return output.fault


def _is_same(target: Target, file: Path) -> bool:
    try:
        known = os.stat(target if isinstance(target, Path) else target.fileno()) if target else None
        return known is not None and os.path.samestat(known, os.stat(file))
    except OSError:
        return False
