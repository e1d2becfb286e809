"""The observations and actions of a game in steps, as spaces of `gymnasium`, which this module
needs: `pip install 'geesefuton[learn]'`.

All that an observation has are whole numbers, so that `gymnasium.spaces.flatten` makes one array of
them. An action is a list of lines of at most 512 bytes; one that is no request is answered
`no syntax`.
"""

from typing import Any

import numpy as np
from gymnasium import spaces

from geesefuton.records.dialects import MOST_LINE
from geesefuton.records.games import CLIENTS, GOODS, TICKS

MOST_DOLLARS = 10_001  # of a quote
MOST_UNITS = 1 << 20  # that an agent holds, or owes
MOST_CASH = 1 << 31  # dollars that it has, or owes
MOST_WISH = 200  # of the six numbers of a client
LETTERS = "".join(map(chr, range(32, 127)))


class Lists(spaces.Sequence):  # type: ignore[misc]
    """Any number of values of one space, as a list or a tuple."""

    def contains(self, x: Any) -> bool:
        return bool(super().contains(tuple(x) if isinstance(x, list) else x))


class Numbers(spaces.Box):  # type: ignore[misc]
    """Whole numbers between two bounds, as an array or as tuples or lists of this shape."""

    def __init__(self, low: int, high: int, *shape: int) -> None:
        super().__init__(low, high, shape, np.int64)

    def contains(self, x: Any) -> bool:
        try:
            return bool(super().contains(np.asarray(x)))
        except ValueError:  # it has no shape
            return False


def action_space() -> spaces.Space:
    """The space of an agent's actions."""
    return Lists(spaces.Text(MOST_LINE, min_length=0, charset=LETTERS))


def observation_space(rounds: int) -> spaces.Space:
    """The space of an agent's observations, in games of so many rounds a tick."""
    return spaces.Dict({
        "tick": Numbers(0, TICKS),
        "round": Numbers(0, rounds - 1),
        "quotes": Numbers(0, MOST_DOLLARS, len(GOODS), 3),
        "holdings": Numbers(-MOST_UNITS, MOST_UNITS, len(GOODS)),
        "cash": Numbers(-MOST_CASH, MOST_CASH),
        "clients": Numbers(0, MOST_WISH, CLIENTS, 6)})
