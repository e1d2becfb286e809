"""The order in which the seats take their turns, so that no seat gains by its place.

Of equal bids the earlier one wins, so the seat that asks first has an advantage. Each turn begins
one seat later than the one before it, and so does the first turn after each tick. A hotel closes at
each sixth tick, and six is even, so the first turn after such a tick begins one seat later again:
otherwise only every other seat would ever be first before a closing. In whichever turn between two
ticks an agent acts, over the first 48 ticks each seat is first in it six times, and once among the
turns before the eight closings.

The first turns, which come once in a game, may matter most. So the seat that is first there changes
from game to game, but is the same in all games of a deal.
"""

import hashlib
from typing import List

from geesefuton.records.games import SEATS

CLOSING = 6  # ticks from one closing of a hotel to the next


def first_seat(text: str) -> int:
    """The seat that is asked first in a game, as if it were drawn from its canonical text, whose
    line of words does not count."""
    lines = [line for line in text.split("\n") if not line.startswith("words ")]
    return hashlib.sha256("\n".join(lines).encode("ascii")).digest()[0] % SEATS


def order_of_turn(tick: int, turn: int, first: int = 0) -> List[int]:
    """The eight seats in the order in which they are asked.

    Args:
        tick: How many ticks have come, 0 to 54.
        turn: Which of the turns since then it is, from 0.
        first: The seat that is asked first in the game.
    """
    start = first + tick + tick // CLOSING + turn
    return [(start + place) % SEATS for place in range(SEATS)]
