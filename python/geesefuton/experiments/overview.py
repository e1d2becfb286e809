"""The figures of the games of a run, and the best trips of many clients who share goods, by a
program in whole numbers. They need the extra `study`, and are found by as many processes as the
machine has processors.

A client has at most one stay, which is a hotel and two days. It has at most one ticket of each
type, and at most one for each night of its stay. Goods that are not held are bought.
"""

import os
import pickle
import subprocess
import sys
from functools import lru_cache
from itertools import groupby
from pathlib import Path
from typing import Any, List, NamedTuple, Optional, Sequence, Tuple

import numpy as np
import pandas as pd
from scipy.optimize import Bounds, LinearConstraint, milp
from scipy.sparse import coo_matrix

from geesefuton.experiments.entrants import PACKAGE
from geesefuton.experiments.joining import read_source
from geesefuton.experiments.results import Row
from geesefuton.experiments.runs import KeptGame, games_of, read_games
from geesefuton.processes import Children
from geesefuton.records.games import (FLIGHTS, GOODS, HOTELS, PACKAGES, TICKETS, Client, Game,
                                      ticket)
from geesefuton.records.logs import gains_of
from geesefuton.records.rules import PENALTY
from geesefuton.records.ticks import boards_by_tick

Frame = Any  # of pandas
FEW = 8  # deals for each process, at least
SECONDS = 20.0  # that a search takes at most
STAYS = [package for package in PACKAGES if not any(package.nights)]
SEATED = [(kind, night) for kind in range(3) for night in range(1, 5)]  # a ticket's type and night
CHOICES = len(STAYS) + len(SEATED)  # of a client
PROGRAM = "from geesefuton.experiments.overview import work; work()"
PARTS = ["trips", "flights", "rooms", "tickets", "penalties"]  # of a score, which is their sum
# For each seat of a game the parts of its score, and by how much it is less than its best plan at
# the game's closing prices; and what the 64 clients have, where seats cost the flights' first
# prices, the most that is known that they might have, and a bound that is never passed.
SEAT_COLUMNS = ["deal", "agent", *PARTS, "score", "distance"]
GAME_COLUMNS = ["agents", "had", "best", "bound"]
Figures = Tuple[List[Sequence[object]], Sequence[object]]  # of a game: rows of both tables


class Optimum(NamedTuple):
    """What clients might have at most, in dollars."""

    value: int  # the most that is known
    bound: int  # what is never passed


@lru_cache(maxsize=4)
def _rules(clients: int) -> Tuple[object, List[float]]:
    """What choices may go together: a matrix with a column for each choice of each client, and then
    for the units bought of each good, and the upper limits of its rows, the goods' last."""
    entries: List[Tuple[int, int, int]] = []
    limits: List[float] = []

    def row(parts: Sequence[Tuple[int, int]], limit: float) -> None:
        entries.extend((len(limits), column, factor) for column, factor in parts)
        limits.append(limit)

    stay = list(enumerate(STAYS))
    seats = list(enumerate(SEATED, len(STAYS)))
    for first in range(0, clients * CHOICES, CHOICES):
        row([(first + place, 1) for place, _ in stay], 1.0)
        for kind in range(3):
            row([(first + place, 1) for place, seat in seats if seat[0] == kind], 1.0)
        for night in range(1, 5):
            row([*((first + place, 1) for place, seat in seats if seat[1] == night),
                 *((first + place, -1) for place, package in stay
                   if package.arrive <= night < package.depart)], 0.0)
    for good in GOODS:
        users = [place for place, package in stay if good in package.goods()]
        users += [place for place, seat in seats if ticket(*seat) == good]
        row([*((client * CHOICES + place, 1) for client in range(clients) for place in users),
             (clients * CHOICES + good, -1)], 0.0)
    rows, columns, factors = zip(*entries)
    shape = (len(limits), clients * CHOICES + len(GOODS))
    return coo_matrix((factors, (rows, columns)), shape=shape).tocsr(), limits


def best_allocation(clients: Sequence[Client], held: Sequence[int],
                    prices: Sequence[Optional[int]]) -> Optimum:
    """The worth of the best trips of clients who share everything, less what is bought for them.
    `held` has their units of the 28 goods, and `prices` what a unit more of each costs in dollars;
    None if there is none to be had."""
    rules, limits = _rules(len(clients))
    worths = [[*map(client.worth, STAYS), *(client.values[kind] for kind, _ in SEATED)]
              for client in clients]
    costs = [0 if price is None else price for price in prices]
    most = [0 if price is None else len(clients) for price in prices]
    choices = len(clients) * CHOICES
    found = milp(np.concatenate([-np.ravel(worths), costs]),
                 constraints=LinearConstraint(rules, -np.inf, [*limits[:-len(GOODS)], *held]),
                 integrality=np.concatenate([np.ones(choices), np.zeros(len(GOODS))]),
                 bounds=Bounds(0, np.concatenate([np.ones(choices), most])),
                 options={"mip_rel_gap": 0.0, "presolve": False, "time_limit": SECONDS})
    bound = sum(max(0, *map(client.worth, PACKAGES)) for client in clients) \
        if found.mip_dual_bound is None else int(1e-6 - found.mip_dual_bound)
    return Optimum(0 if found.x is None else round(-found.fun), bound)


class Overview(NamedTuple):
    """The figures of all games of a run, in dollars."""

    seats: Frame  # has SEAT_COLUMNS
    games: Frame  # has GAME_COLUMNS

    @property
    def order(self) -> List[str]:
        """The agents, the one with the greatest mean score first."""
        means = self.seats.groupby("agent").score.mean()
        return list(means.sort_values(ascending=False, kind="stable").index)


def overview_of(games: Sequence[Figures]) -> Overview:
    """The figures of games together."""
    return Overview(pd.DataFrame([seat for seats, _ in games for seat in seats],
                                 columns=SEAT_COLUMNS),
                    pd.DataFrame([game for _, game in games], columns=GAME_COLUMNS))


def figures_of(kept: KeptGame, best: Optimum) -> Figures:
    """The figures of a game, with the optimum of its deal."""
    game, log, deal = kept.game, kept.log, kept.rows[0].deal
    boards = boards_by_tick(game, log, kept.ticks)[-1]
    closing: List[Optional[int]] = [boards[good][1] for good in range(HOTELS.stop)]
    for good in TICKETS:
        trades = [trade for entry in log.histories[good] for trade in entry.trades]
        count = sum(trade.units for trade in trades)
        closing.append(round(sum(trade.units * trade.price for trade in trades) / count)
                       if count else None)
    seats: List[Sequence[object]] = []
    for agent, clients, endow, score, gains in zip(kept.agents, game.clients, game.endow,
                                                   log.scores, gains_of(log)):
        plan = best_allocation(clients, [0] * TICKETS.start + list(endow), closing)
        seats.append((deal, agent, score.best, *gains, -PENALTY * score.short, score.score,
                      plan.value - score.score))
    had = sum(score.best - PENALTY * score.short for score in log.scores)
    had -= sum(trade.units * game.flights[good].first for good in FLIGHTS
               for entry in log.histories[good] for trade in entry.trades)
    return seats, (table_of(kept.agents), had, *best)


def optimum(game: Game) -> Optimum:
    """What the 64 clients of a game might have at most, if they shared all rooms and all tickets
    that there are and bought seats at the flights' first prices."""
    clients = [client for clients in game.clients for client in clients]
    held = [0] * len(FLIGHTS) + list(game.rooms) + list(map(sum, zip(*game.endow)))
    prices: List[Optional[int]] = [flight.first for flight in game.flights]
    return best_allocation(clients, held, prices + [None] * (len(GOODS) - len(FLIGHTS)))


def table_of(agents: Sequence[str]) -> str:
    """The agents of a game, each with its number of seats, such as `4 planner, 4 trader`."""
    return ", ".join(f"{agents.count(agent)} {agent}" for agent in sorted(set(agents)))


def gathered(folder: Path, rows: Sequence[Row]) -> Tuple[Overview, List[str]]:
    """The figures of the games of a run, and what could not be read, each in a line."""
    parts = max(1, min(os.cpu_count() or 1, len({row.deal for row in rows}) // FEW))
    with Children() as children:
        path = os.pathsep.join(filter(None, [str(PACKAGE), os.environ.get("PYTHONPATH")]))
        workers = [children.start(
            [sys.executable, "-c", PROGRAM, str(folder), str(part), str(parts)],
            stdin=subprocess.DEVNULL, stdout=subprocess.PIPE,
            env={**os.environ, "PYTHONPATH": path, "OPENBLAS_NUM_THREADS": "1"})
            for part in range(1, parts)]
        figures, told = _figures(folder, rows, 0, parts)
        for worker in workers:
            assert worker.stdout is not None
            with worker.stdout:
                try:
                    more, lines = pickle.load(worker.stdout)
                except EOFError:
                    more, lines = [], [f"{folder}: a process that read its games has failed"]
            figures, told = figures + more, told + lines
    return overview_of(figures), told


def work() -> None:
    """What a further process does: it writes its part of the figures to standard output."""
    folder, part, parts = Path(sys.argv[1]), int(sys.argv[2]), int(sys.argv[3])
    sys.stdout.buffer.write(pickle.dumps(
        _figures(folder, read_source(folder).rows, part, parts)))


def _figures(folder: Path, rows: Sequence[Row], part: int, parts: int
             ) -> Tuple[List[Figures], List[str]]:
    """The figures of a part of the deals, and what could not be read."""
    figures: List[Figures] = []
    told: List[str] = []
    deals = [list(games) for _, games in groupby(games_of(rows), lambda game: game[0].deal)]
    for games in deals[part::parts]:
        best = None
        for kept in read_games(folder, [row for game in games for row in game], told):
            best = best or optimum(kept.game)
            figures.append(figures_of(kept, best))
    return figures, told
