#!/usr/bin/env python3
"""What a seat's place costs in games in turns, by the folder of a run of eight agents of one kind.

    geesefuton tournament --turns 40 --games 64 --seed 8001 --out runs/1 planner.py
    bench/seat_slope.py runs/1

A score is taken less what the seat's luck tells of it within its game, by least squares. The slope
of a game is that of these scores over the places of its seats, in dollars a place. The output has
the mean slope with its standard error over games, by the numbers of the seats, and by their places
behind the seat that is asked first in the game; and the mean of each place.
"""

import math
import sys
from pathlib import Path
from statistics import mean, stdev
from typing import Callable, List, NamedTuple, Sequence

from running import Parser, command

from geesefuton.experiments.joining import read_source
from geesefuton.experiments.results import Row
from geesefuton.experiments.runs import GAMES, games_of
from geesefuton.processes import tell
from geesefuton.records.games import SEATS
from geesefuton.records.order import first_seat


class Game(NamedTuple):
    """A game: the rows of its seats, and the seat that is asked first."""

    rows: Sequence[Row]
    first: int


def centred(values: Sequence[float]) -> List[float]:
    """Values less their mean."""
    middle = mean(values)
    return [value - middle for value in values]


def product(one: Sequence[float], other: Sequence[float]) -> float:
    """The sum of products."""
    return sum(x * y for x, y in zip(one, other))


def adjusted(games: Sequence[Game], place: Callable[[Game, int], int]) -> List[List[float]]:
    """For each game the scores of its places, less their mean and what luck tells of them."""
    scores, lucks, places = [], [], []
    for game in games:
        order = sorted(range(SEATS), key=lambda seat: place(game, seat))
        scores.append(centred([game.rows[seat].score for seat in order]))
        lucks.append(centred([game.rows[seat].luck for seat in order]))
        places.append(centred(range(SEATS)))

    def sums(one: List[List[float]], other: List[List[float]]) -> float:
        return sum(map(product, one, other))

    # Least squares of scores by luck and place within games: luck's part of it.
    whole = sums(lucks, lucks) * sums(places, places) - sums(lucks, places) ** 2
    part = (sums(scores, lucks) * sums(places, places)
            - sums(scores, places) * sums(lucks, places)) / whole
    return [[score - part * luck for score, luck in zip(*each)] for each in zip(scores, lucks)]


def main() -> int:
    """Measures."""
    parser = Parser("seat_slope", __doc__ or "")
    parser.add_argument("folder", type=Path)
    given = parser.parse_args()
    source = read_source(given.folder)
    for text in source.told:
        tell(f"seat_slope: {text}")
    games = []
    for rows in games_of(source.rows):
        file = given.folder / GAMES / f"{rows[0].game_name}.game"
        games.append(Game(rows, first_seat(file.read_text("ascii"))))
    print(f"{len(games)} games of {games[0].rows[0].agent}")
    ways = {"by number": lambda game, seat: seat,
            "behind the first": lambda game, seat: (seat - game.first) % SEATS}
    scale = centred(range(SEATS))
    for name, place in ways.items():
        scores = adjusted(games, place)
        slopes = [product(scale, each) / product(scale, scale) for each in scores]
        print(f"{name}: {mean(slopes):.1f} +- {stdev(slopes) / math.sqrt(len(games)):.1f} "
              "dollars a place; of each place "
              + ", ".join(f"{mean(each):.0f} +- {stdev(each) / math.sqrt(len(games)):.0f}"
                          for each in zip(*scores)))
    return 0


if __name__ == "__main__":
    sys.exit(command("seat_slope", main))
