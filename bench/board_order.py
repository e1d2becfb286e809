#!/usr/bin/env python3
"""Measures how well a live page's order during a game agrees with the final one.

    geesefuton tournament --turns 10 --games 20 --out runs/1 planner.py baseline.py
    bench/board_order.py runs/1/games [--tick 36]

It reads the games and logs of a folder, as a tournament keeps them. For each game it orders
the seats by what their best plans are worth at the prices of the tick; as the page does, on which
those who have bought nothing come last; and by what they would score if nobody did anything more.
It writes for each order the mean rank correlation (Spearman's) with the final scores over all
games, and how many agents without a flight and a room stand above one with a whole trip.
"""

import math
import sys
from pathlib import Path
from typing import List, NamedTuple, Sequence

TOP = Path(__file__).resolve().parent.parent
sys.path.insert(0, str(TOP / "python"))

from geesefuton.arguments import Parser, whole  # noqa: E402
from geesefuton.hosting.projection import is_empty, plan_of  # noqa: E402
from geesefuton.processes import command, tell  # noqa: E402
from geesefuton.records.best_plans import best_plan, parts_of  # noqa: E402
from geesefuton.records.books import Books  # noqa: E402
from geesefuton.records.games import GOODS, SEATS, TICKS, Game, read_game  # noqa: E402
from geesefuton.records.logs import read_log  # noqa: E402
from geesefuton.records.ticks import entries_by_tick, ticks_by_log  # noqa: E402


ORDERS = ("plans", "the page", "nothing more")
BEHIND = 1e6  # dollars, by which those who have bought nothing are behind


class Agreement(NamedTuple):
    """Of one game and one order: its rank correlation with that of the final scores, and how many
    agents that have bought nothing stand above one with a whole trip."""

    correlation: float
    empty_above: int


def ranks(values: Sequence[float]) -> List[float]:
    """The ranks of values; equal ones share their mean."""
    return [sum(other < value for other in values) + (values.count(value) + 1) / 2
            for value in values]


def correlation(one: Sequence[float], other: Sequence[float]) -> float:
    """Spearman's; 0 if all values of one are equal."""
    mean = (len(one) + 1) / 2
    first, second = ([rank - mean for rank in ranks(values)] for values in (one, other))
    scale = math.sqrt(sum(x * x for x in first) * sum(y * y for y in second))
    return sum(x * y for x, y in zip(first, second)) / scale if scale else 0.0


def has_trip(accounts: Books, seat: int) -> bool:
    """Whether a seat has all goods of a trip."""
    packages = accounts.plan(seat).packages
    return any(own and not lacking for own, lacking in parts_of(packages, accounts.holdings[seat]))


def agreements(game: Game, text: bytes, tick: int) -> List[Agreement]:
    """How well the orders at a tick agree with the final one."""
    log, accounts, seats = read_log(text), Books(game), range(SEATS)
    for entries in entries_by_tick(ticks_by_log(game, log), log)[:tick + 1]:
        for good, _, entry in entries:
            accounts.take(good, entry)
    plans = [plan_of(accounts, seat)[0] for seat in seats]
    empty = [is_empty(accounts, seat) for seat in seats]
    whole = [has_trip(accounts, seat) for seat in seats]
    end = accounts.at_the_end()
    final = [score.score for score in log.scores]
    orders = [plans, [plan - BEHIND * is_last for plan, is_last in zip(plans, empty)],
              [end.cash[seat] + best_plan(game.clients[seat], end.holdings[seat],
                                          [None] * len(GOODS)).value for seat in seats]]
    return [Agreement(correlation(order, final), sum(empty[seat] and any(
        whole[other] and order[seat] > order[other] for other in seats) for seat in seats))
        for order in orders]


def main() -> int:
    """Measures."""
    parser = Parser("board_order", __doc__)
    parser.add_argument("folder", type=Path)
    parser.add_argument("--tick", type=whole(0, TICKS), default=36)
    given = parser.parse_args()
    made = [agreements(read_game(file.read_text()), file.with_suffix(".log").read_bytes(),
                       given.tick)
            for file in sorted(given.folder.glob("*.game")) if file.with_suffix(".log").exists()]
    if not made:
        tell(f"board_order: {given.folder} has no games with logs")
        return 1
    print(f"games {len(made)} tick {given.tick}")
    for name, each in zip(ORDERS, zip(*made)):
        values = [one.correlation for one in each]
        print(f"{name}: mean correlation {sum(values) / len(values):.3f}, least {min(values):.3f}, "
              f"{sum(one.empty_above for one in each)} agents without goods above a whole trip")
    return 0


if __name__ == "__main__":
    sys.exit(command("board_order", main))
