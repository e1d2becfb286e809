"""The time of a game, as far as quotes show it: docs/PROTOCOL.md, "How an agent knows the time"."""

from __future__ import annotations

from typing import NamedTuple, Optional

from geesefuton.records.games import TICKS
from geesefuton.records.rules import MINUTE


class Mark(NamedTuple):
    """A moment at which a tick came, in seconds, and the tick."""

    moment: float
    tick: int


class GameClock:
    """The tick of a game. Flights change their prices at each tick, a known number of seconds after
    the last one, and each closing of a hotel tells the tick exactly."""

    def __init__(self, pace: float) -> None:
        self.tick = 0  # the last one that was seen
        self.pace = pace  # the seconds from tick to tick
        self.is_exact = False  # whether `tick` is known, and is not just the least that it can be
        self._mark: Optional[Mark] = None

    def begin(self, now: float, closed: int, is_fresh: bool) -> None:
        """The first look at the quotes shows so many hotel nights closed. The welcome came `now`,
        and if it is fresh the game began with it."""
        self.tick, self.is_exact = MINUTE * closed, is_fresh
        self._mark = Mark(now, 0) if is_fresh else None

    def move(self, now: float) -> None:
        """The flights have new prices."""
        mark = self._mark or Mark(now, self.tick + 1)
        self._mark = mark
        self.tick = max(self.tick + 1, mark.tick + round((now - mark.moment) / self.pace))

    def close(self, now: float, closed: int) -> None:
        """A hotel night has closed: so many are closed now, which tells the tick."""
        mark, tick = self._mark or Mark(now, self.tick), MINUTE * closed
        if not self.is_exact:
            self._mark = Mark(mark.moment, mark.tick + tick - self.tick)
        self.tick, self.is_exact = tick, True

    def now(self, now: float) -> Mark:
        """The tick at a moment, and when it came. A tick that is due but was not seen yet counts,
        and the one after it does not."""
        if self._mark is None:
            return Mark(now, self.tick)
        due = self._mark.tick + int((now - self._mark.moment) / self.pace)
        tick = min(max(self.tick, due), self.tick + 1, TICKS)
        return Mark(self._mark.moment + (tick - self._mark.tick) * self.pace, tick)
