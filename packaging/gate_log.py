"""The log of a gate: its commit, its outcome, and its minutes."""

import re
from pathlib import Path
from typing import Dict, Optional, Sequence

from geesefuton.program import CommandError

HOW = "(git rev-parse HEAD; time rt ci) > LOG 2>&1"  # makes such a log
FACTS = ("gate", "gate-minutes", "gate-work")  # what a release says of its gate
UNTOLD = dict.fromkeys(FACTS, "not told")


class GateError(CommandError):
    """A log that is not that of a gate which passed at the commit."""


def _last(pattern: str, lines: Sequence[str]) -> Optional["re.Match[str]"]:
    """The last line that has a form as a whole; None if there is none."""
    found = [match for line in lines for match in [re.fullmatch(pattern, line)] if match]
    return found[-1] if found else None


def _seconds(name: str, lines: Sequence[str]) -> Optional[float]:
    """A time that the shell's `time` or POSIX's `time -p` told, in seconds; None if there is
    none."""
    found = _last(rf"{name}\s+(?:(\d+)m)?(\d+(?:[.,]\d+)?)s?", lines)
    if found is None:
        return None
    return 60 * int(found[1] or 0) + float(found[2].replace(",", "."))


def _minutes(lines: Sequence[str]) -> Optional[str]:
    """The minutes that a log tells, by the clock and of processors; None if it tells none."""
    wall, user, system = (_seconds(name, lines) for name in ("real", "user", "sys"))
    if wall is None or user is None or system is None:
        return None
    return minutes_text(wall / 60, (user + system) / 60)


def minutes_text(wall: float, processors: float) -> str:
    """How long a gate took.

    Args:
        wall: Minutes by the clock.
        processors: Minutes of all processors.
    """
    return f"{wall:.1f} by the clock, {processors:.1f} of processors"


def read(file: Path, commit: str, minutes: Optional[str] = None) -> Dict[str, str]:
    """What a log says, by the names of FACTS.

    Args:
        file: The log. Only the last run in it counts.
        commit: The commit that it has to name, in 40 digits.
        minutes: How long the gate took; None if the log tells it.

    Raises:
        GateError: It cannot be read, names no commit or another, did not pass, or has no minutes.
    """
    try:
        lines = [line.strip() for line in file.read_text(errors="replace").split("\n")]
    except OSError as fault:
        raise GateError(f"{file}: {fault.strerror}; make it by {HOW}") from None
    starts = [at for at, line in enumerate(lines) if re.fullmatch("[0-9a-f]{40}", line)]
    if not starts:
        raise GateError(f"{file} names no commit; make it by {HOW}")
    if lines[starts[-1]] != commit:
        raise GateError(f"{file} is of commit {lines[starts[-1]]}, but this clone is at {commit}")
    lines = lines[starts[-1] + 1:]
    last = _last(r"\d+ passed, \d+ failed.*", lines)
    if not last or not re.fullmatch(r"\d+ passed, 0 failed", last[0]):
        raise GateError(f"{file}: the gate did not pass: "
                        f"{last[0][:100] if last else 'it has no last line'}")
    work = _last(r"rt: ok; (.*)", lines)
    minutes = minutes or _minutes(lines)
    if minutes is None:
        raise GateError(f"{file} has no minutes; make it by {HOW}, or give --minutes WALL "
                        "PROCESSORS")
    return {"gate": last[0], "gate-minutes": minutes,
            "gate-work": work[1] if work else UNTOLD["gate-work"]}
