#!/usr/bin/env python3
"""Relearns the tables of baseline.py: how much hotel nights rise from a quote to the closing.

Eight baselines play each other in games in steps, half of them with 16 rooms a night and half with
3 to 6 and live quotes. After each round of games the tables become the means of all rises so far,
for use in the next round. It prints the tables in the form of baseline.py, with the error of each
entry: two standard errors over games. All draws come from the seed.
"""

from __future__ import annotations

import argparse
import math
import random
import sys
import time
from collections import defaultdict
from typing import Dict, List, Sequence, Tuple

import baseline

from geesefuton.arguments import whole
from geesefuton.learning.rivals import maker_of, played
from geesefuton.processes import command
from geesefuton.records.drawing import MOST_SEED, drawn_rooms, made_game
from geesefuton.records.games import Game

Entry = Tuple[str, int, int]  # a table, its row, and how many nights have closed
TABLES = "PLENTY", "SCARCE"
FEW = 3, 6  # rooms of a night, at least and at most


def rises(game: Game, quotes: Sequence[Sequence[int]], few: bool) -> Dict[Entry, List[int]]:
    """The rises, in dollars, to the closings of a game.

    Args:
        game: The game.
        quotes: The prices of the eight hotel nights, before the first tick and after each.
        few: Whether the game has few rooms.
    """
    seen = defaultdict(list)
    for tick, prices in enumerate(quotes):
        for place, (quote, hotel) in enumerate(zip(prices, game.hotels)):
            # Where rooms are scarce, the first bids tell so, and only then the table is used.
            if tick < hotel.closes and (quote or not few):
                row = 2 * (place >= 4) + (place % 4 in (1, 2))
                rise = quotes[-1][place] - quote
                seen["SCARCE" if few else "PLENTY", row, tick // 6].append(rise)
    return seen


def quotes_of(game: Game, seed: int) -> List[List[int]]:
    """The prices of the hotel nights in a game of eight baselines, as `rises` takes them."""
    quotes = [[0] * 8]
    for market in played(game, dict.fromkeys(range(8), maker_of("baseline")), seed):
        quotes.append([ask for _, ask, _ in market.books.boards[8:16]])
    return quotes


class Learner:
    """What was seen so far: the sum and the number of rises, of each entry in each game."""

    def __init__(self) -> None:
        self.games: Dict[Entry, List[Tuple[int, int]]] = defaultdict(list)

    def add(self, found: Dict[Entry, List[int]]) -> None:
        """Takes the rises of a game."""
        for entry, seen in found.items():
            self.games[entry].append((sum(seen), len(seen)))

    def mean(self, entry: Entry) -> float:
        """The mean rise, in dollars."""
        games = self.games[entry]
        return sum(total for total, _ in games) / sum(count for _, count in games)

    def error(self, entry: Entry) -> float:
        """Two standard errors of the mean, in dollars; infinite if one game alone has the entry."""
        games, mean = self.games[entry], self.mean(entry)
        squares = sum((total - count * mean) ** 2 for total, count in games)
        spread = (squares * len(games) / max(1, len(games) - 1)) ** 0.5
        return 2 * spread / sum(count for _, count in games) if len(games) > 1 else math.inf

    def install(self) -> None:
        """Puts the means into the tables of the agents that play in this process."""
        for (table, row, closed) in self.games:
            getattr(baseline, table)[row][closed] = round(self.mean((table, row, closed)))


def tables(errors: Dict[Entry, float]) -> str:
    """The tables as they stand in baseline.py, each row followed by its errors."""
    lines = []
    for table in TABLES:
        for number, row in enumerate(getattr(baseline, table)):
            told = " ".join(f"{errors.get((table, number, closed), math.nan):.0f}"
                            for closed in range(8))
            lines.append(f"{table}[{number}] = {row}  # errors {told}")
    return "\n".join(lines)


def main() -> int:
    parser = argparse.ArgumentParser(description=__doc__,
                                     formatter_class=argparse.RawDescriptionHelpFormatter)
    parser.add_argument("--rounds", type=whole(1), default=24,
                        help="rounds of games (default: 24)")
    parser.add_argument("--games", type=whole(2), default=12,
                        help="games a round (default: 12)")
    parser.add_argument("--more", type=whole(0), default=3,
                        help="further rounds, to see which entries still move (default: 3)")
    parser.add_argument("--seed", type=whole(0), default=1,
                        help="seed of all draws (default: 1)")
    given = parser.parse_args()
    source, learner, begun = random.Random(given.seed), Learner(), time.monotonic()
    then: Dict[Entry, Tuple[float, float]] = {}
    for count in range(1, given.rounds + given.more + 1):
        for number in range(given.games):
            seed, few = source.randrange(MOST_SEED + 1), number % 2 == 1
            game = made_game(seed)
            if few:
                game = game.with_rooms(drawn_rooms(seed, *FEW), True)
            learner.add(rises(game, quotes_of(game, seed), few))
        learner.install()
        print(f"round {count} after {time.monotonic() - begun:.0f} s", file=sys.stderr, flush=True)
        if count == given.rounds:
            then = {entry: (learner.mean(entry), learner.error(entry)) for entry in learner.games}
    print(tables({entry: learner.error(entry) for entry in learner.games}))
    moved = [entry for entry, (mean, error) in then.items()
             if abs(learner.mean(entry) - mean) > max(error, 1)]
    print(f"{given.more} more rounds moved {len(moved)} of {len(then)} entries by more than their "
          "error and a dollar:", *moved or ["none"], flush=True)
    return 0


if __name__ == "__main__":
    sys.exit(command("learn_baseline.py", main))
