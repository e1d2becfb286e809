"""The rules of prices: what a flight costs after a tick, and when the clock calls an auction.

The rules of `tac` are proved in its crates. This is the same in Python, for pages and reports.
"""

from functools import lru_cache
from typing import Iterator, List, Sequence, Tuple

from geesefuton.records.games import FLIGHTS, HOTELS, TICKS, Flight, Game

LOWEST, HIGHEST = 150, 800  # dollars of a flight
PENALTY = 200  # dollars for each ticket that an agent owes at the end
MINUTE = 6  # ticks from one call of the clock in a hotel to the next


@lru_cache(maxsize=None)
def _moves(bound: int) -> Tuple[Tuple[int, ...], Tuple[int, ...]]:
    """For each tick from 1 by how many dollars at least the price of a flight of a bound may move,
    and how many moves there are."""
    lows, counts = [], []
    for tick in range(1, TICKS + 1):
        limit = 10 + tick * (bound - 10) // TICKS
        low, high = (-10, limit) if limit > 0 else (limit, 10) if limit < 0 else (-10, 10)
        lows.append(low)
        counts.append(high - low + 1)
    return tuple(lows), tuple(counts)


def _path(bound: int, price: int, tick: int, draws: Sequence[int]) -> Iterator[int]:
    """The prices after each update from a tick on, by its draws."""
    lows, counts = _moves(bound)
    for low, count, draw in zip(lows[tick - 1:], counts[tick - 1:], draws):
        price += low + draw % count
        price = LOWEST if price < LOWEST else HIGHEST if price > HIGHEST else price
        yield price


def next_price(flight: Flight, price: int, tick: int, draw: int) -> int:
    """The price of a flight in dollars after the update of a tick with a draw."""
    return next(_path(flight.bound, price, tick, (draw,)))


def prices_of(flight: Flight) -> List[int]:
    """A flight's prices in dollars, before the first tick and after each of the ticks 1 to 53."""
    return [flight.first, *_path(flight.bound, flight.first, 1, flight.draws)]


def clock_ticks(game: Game, good: int) -> List[int]:
    """The ticks at which the clock calls an auction."""
    if good in HOTELS:
        return list(range(MINUTE, game.hotels[good - HOTELS.start].closes + 1, MINUTE))
    return list(range(1, TICKS + 1)) if good in FLIGHTS else [TICKS]
