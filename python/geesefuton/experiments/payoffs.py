"""The payoffs of strategies in games of eight seats. It needs the extra `study`.

A strategy's payoff is the mean over its seats of the score less what the same seat had more than
the mean in the games in which all have one strategy, where each rival's strategy counts by its
share. A single seat that leaves a profile of one strategy is thus compared with itself.
"""

import math
from collections import Counter, defaultdict
from statistics import fmean
from typing import Any, Dict, Iterable, List, Optional, Sequence, Set, Tuple

import numpy as np

from geesefuton.experiments.comparisons import Estimate, estimate
from geesefuton.experiments.reduction import (Counts, counts_of, needed_profiles, profile_of,
                                              text_of_profile, with_one)
from geesefuton.experiments.results import Outcome, Row
from geesefuton.records.games import SEATS
from geesefuton.records.tables import csv_of


class Payoffs:
    """What each strategy had in each profile, by deals.

    Attributes:
        players: How many there are in the game, full or reduced.
        mixed: How many of the strategies, the first, rivals have; 0 is given for all.
        profiles: Those that are needed.
        deals: The deals whose needed profiles were all scored.
        incomplete: Those with only some.
        failed: How many seats of each strategy did not play to the end.

    Args:
        rows: Of whole games; those of other strategies are left out.
    """

    def __init__(self, names: Sequence[str], players: int, rows: Iterable[Row],
                 mixed: int = 0) -> None:
        self.names, self.players, self.mixed = names, players, mixed or len(names)
        self.profiles = needed_profiles(len(names), players, mixed)
        by_game: Dict[object, List[Row]] = defaultdict(list)
        for row in rows:
            by_game[row.game].append(row)
        self._games: Dict[Tuple[str, Counts], List[Row]] = {}
        self.failed: Counter[str] = Counter()
        played: Dict[str, Set[Counts]] = defaultdict(set)
        for game in by_game.values():
            counts = Counter(row.agent for row in game)
            profile = tuple(counts[name] for name in names)
            if sum(profile) == SEATS:
                self._games[game[0].deal, profile] = sorted(game, key=lambda row: row.seat)
                played[game[0].deal].add(profile)
                self.failed.update(row.agent for row in game if row.end is not Outcome.PLAYED)
        self.deals = [deal for deal in played if played[deal].issuperset(self.profiles)]
        self.incomplete = [deal for deal in played if deal not in set(self.deals)]
        self._luck = {deal: np.array([self._luck_of(deal, place) for place in range(len(names))])
                      for deal in played}

    def _luck_of(self, deal: str, strategy: int) -> List[float]:
        """How much more each seat has than the mean where all have a strategy; NaN where that was
        not played."""
        profile = with_one([0] * len(self.names), strategy)
        rows = self._games.get((deal, tuple(SEATS * count for count in profile)))
        if rows is None:
            return [math.nan] * SEATS
        mean = fmean(row.score for row in rows)
        return [row.score - mean for row in rows]

    def _mean(self, deal: str, profile: Counts, strategy: int) -> float:
        return fmean(row.score for row in self._games[deal, profile]
                     if row.agent == self.names[strategy])

    def _by_seat(self, deal: str, profile: Counts, strategy: int) -> float:
        """A strategy's payoff in a game by its seats; NaN where that cannot be told."""
        rivals = np.array(profile) - np.eye(len(profile))[strategy]
        luck = rivals[rivals > 0] @ self._luck[deal][rivals > 0] / (SEATS - 1)
        return fmean(row.score - float(luck[row.seat]) for row in self._games[deal, profile]
                     if row.agent == self.names[strategy])

    def samples(self) -> Any:
        """The payoffs of each deal, as `equilibria` takes them."""
        fill = (0,) * (len(self.names) - self.mixed)
        return np.array([[[self._by_seat(deal, profile_of(strategy, rivals + fill), strategy)
                           for rivals in counts_of(self.players - 1, self.mixed)]
                          for strategy in range(len(self.names))] for deal in self.deals])

    def estimates(self) -> List[List[Optional[Estimate]]]:
        """For each profile the mean score of each strategy over deals; None where nobody plays
        it."""
        return [[estimate([self._mean(deal, profile, strategy) for deal in self.deals])
                 if count else None
                 for strategy, count in enumerate(profile)] for profile in self.profiles]

    def as_csv(self) -> str:
        """Every game that was scored: a line for each strategy in it."""
        lines = [[deal, text_of_profile(profile), self.names[strategy], count,
                  *("" if math.isnan(value) else f"{value:.10g}" for value in
                    (self._mean(deal, profile, strategy), self._by_seat(deal, profile, strategy)))]
                 for deal, profile in self._games
                 for strategy, count in enumerate(profile) if count]
        return csv_of([["deal", "profile", "strategy", "seats", "payoff", "by_seat"], *lines])
