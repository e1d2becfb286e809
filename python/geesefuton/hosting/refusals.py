"""Counts what happens again and again, by who does it, so that a flood is told in a few lines."""

from __future__ import annotations

from dataclasses import dataclass
from typing import Dict, List, Optional

AGAIN = 10.0  # seconds in which somebody is told of a few times
MOST_ADDRESSES = 50  # that are counted each by itself
OTHERS = "other addresses"


@dataclass
class _Count:
    """What somebody has done in a while: what was told, what was not, and the last of that."""

    since: float
    told: int = 0
    count: int = 0
    last: str = ""


class Refusals:
    """What was refused, by address, or what else happens again and again.

    Args:
        few: How often somebody is told of at once in a while.
        more: What is told of the rest: how many, who, and the last.
    """

    def __init__(self, few: int = 1,
                 more: str = "{} more links from {} took no seat; the last: {}") -> None:
        self._few, self._more = few, more
        self._counts: Dict[str, _Count] = {}

    def add(self, at: float, source: str, text: str) -> Optional[str]:
        """Counts what somebody did at a time in seconds. Gives the text that is to be told of it
        now; None if `due` tells it later."""
        if source not in self._counts and len(self._counts) >= MOST_ADDRESSES:
            source = OTHERS
        known = self._counts.setdefault(source, _Count(at))
        if known.told < self._few:
            known.told += 1
            return text
        known.count, known.last = known.count + 1, text
        return None

    def due(self, at: float) -> List[str]:
        """What is to be told of those whose time has come. Others are kept no longer."""
        told = []
        for source, known in list(self._counts.items()):
            if 0 <= at - known.since < AGAIN:
                continue
            del self._counts[source]
            if known.count:
                told.append(known.last if known.count == 1 else
                            self._more.format(known.count, source, known.last))
                self._counts[source] = _Count(at, self._few)
        return told
