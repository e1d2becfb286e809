"""The hotel nights of a running game, from the calls that its journal has.

Each call is worked through once, when it arrives. A position without a call is taken for the
clock's once the clock may have called. If a late reply shows that the position was an agent's, that
night is worked through again.
"""

from __future__ import annotations

from dataclasses import dataclass
from typing import Dict, List, Optional

from geesefuton.hosting.journal import Exchange, JournalReader
from geesefuton.records.books import NightBook
from geesefuton.records.games import HOTELS, TICKS
from geesefuton.records.replies import read_points

STEP = 0.1  # ticks; of prices that are nearer to one another only the last is kept

PriceSteps = List[List[float]]  # ticks, and the dollars from then on


@dataclass(frozen=True)
class Night:
    """A hotel night until a tick."""

    published: PriceSteps
    asks: PriceSteps
    closed: Optional[List[int]]  # once it is closed the tick, the price and the rooms sold


class Nights:
    """The hotel nights of a game that has begun."""

    def __init__(self, reader: JournalReader) -> None:
        self._nights = {good: _RunningNight(reader, good) for good in HOTELS}
        self._known = 0  # calls

    def follow(self, reader: JournalReader) -> None:
        """Works through what the journal has got since the last time."""
        for call in reader.calls[self._known:]:
            night = self._nights.get(call.asked.good)
            if call.asked.keyword != "quote" and night:
                night.place(call)
        self._known = len(reader.calls)
        for night in self._nights.values():
            night.go_on(reader.tick)

    def now(self) -> List[Night]:
        """The nights 8 to 15 as they are now."""
        return [night.now() for night in self._nights.values()]


class _RunningNight:
    """A hotel night while its calls come in."""

    def __init__(self, reader: JournalReader, good: int) -> None:
        assert reader.game is not None and reader.schedule is not None
        self._hotel, self._live = reader.game.hotels[good - HOTELS.start], reader.game.live
        self._ticks, self._pace = reader.schedule.ticks[good], reader.pace
        self._calls: Dict[int, Exchange] = {}  # by position
        self._start()

    def place(self, call: Exchange) -> None:
        """Adds a call that has a position."""
        assert call.at is not None
        self._calls[call.at] = call
        if call.at < self._position:  # it had been taken for the clock's
            self._start()

    def go_on(self, tick: int) -> None:
        """Works through the calls that follow, if the clock has called until a tick."""
        while self._closed is None:
            call = self._calls.get(self._position)
            if call is not None:
                self._take(call)
            elif self._ticks[self._clocks] <= tick:
                self._publish(self._ticks[self._clocks])
            else:
                return
            self._position += 1

    def now(self) -> Night:
        """The night as it is now."""
        return Night(self._published[:], self._asks[:], self._closed)

    def _start(self) -> None:
        """Begins with the first position."""
        self._book, self._ask = NightBook(self._hotel.rooms, False), 0
        self._published: PriceSteps = [[0, 0]]
        self._asks: PriceSteps = [[0, 0]]
        self._closed: Optional[List[int]] = None
        self._position, self._clocks, self._last = 0, 0, 0.0

    def _take(self, call: Exchange) -> None:
        """The next entry is an agent's."""
        if call.reply is None or " taken " not in call.reply:
            return
        self._book.bid(call.agent, read_points(call.asked.text.split(" ", 2)[2]))
        self._ask = self._book.ask()
        self._last = tick_of(call, self._pace, self._last)
        _note(self._asks, self._last, self._ask)
        if self._live:
            _note(self._published, self._last, self._ask)

    def _publish(self, tick: int) -> None:
        """The next entry is the clock's."""
        self._clocks, self._last = self._clocks + 1, max(self._last, float(tick))
        self._published.append([tick, self._ask])
        if tick == self._hotel.closes:
            self._closed = [tick, self._ask, self._book.sold()]


def tick_of(call: Exchange, pace: int, least: float) -> float:
    """The tick, with a fraction, of an entry that is not before another, by its reply's time."""
    return round(max(least, min(float(TICKS), call.time / pace)), 2)


def _note(path: PriceSteps, tick: float, dollars: int) -> None:
    """Adds a price from a tick on, if it is another one."""
    if dollars == path[-1][1]:
        return
    if len(path) > 1 and tick - path[-1][0] < STEP:
        tick = path.pop()[0]
    path.append([tick, dollars])
