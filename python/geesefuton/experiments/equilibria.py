"""Symmetric equilibria of symmetric games, from payoffs alone. It needs the extra `study`.

A mixture gives each strategy a share. Its regret is the most that a player would gain by a single
strategy while the others draw from the mixture; a mixture without regret is a symmetric
equilibrium. Each symmetric game has one.

Payoffs come deal by deal: a sample is the payoffs of one deal, for each strategy a payoff against
each of `counts_of(players - 1, mixed)`, where rivals have only the first `mixed` strategies.
"""

import math
import random
from collections import Counter
from dataclasses import dataclass
from functools import lru_cache
from itertools import combinations
from statistics import NormalDist
from typing import Any, List, Sequence, Tuple

import numpy as np

from geesefuton.experiments.comparisons import Estimate, estimate, student_quantile
from geesefuton.experiments.reduction import counts_of, with_one

Array = Any  # of numpy, whose old versions have no types
Mixture = Tuple[float, ...]

STARTS = 60  # mixtures for each strategy of a support, from which its equilibria are searched
NEWTON_STEPS = 30
FAR = 0.5  # how far outside of 0 to 1 a share may be on the way
MOST_REGRET = 1e-7  # of an equilibrium, as a part of the spread of the payoffs
TINY = 1e-9  # what is added where an equation has no single solution, beside payoffs of 0 to 1
APART = 1e-4  # equilibria that are closer count as one
NEAR = 0.1  # how far an equilibrium of other deals may be to count as the same
RESAMPLES, AT_ONCE = 300, 50
KNOWN = 0.95  # the part of resamples from which on an equilibrium is called known


class _Shape:
    """The choices of rivals."""

    def __init__(self, rivals: int, strategies: int) -> None:
        choices = counts_of(rivals, strategies)
        self.counts = np.array(choices)  # for each choice how many of them have each strategy
        self.orders = np.array([math.factorial(rivals) / math.prod(map(math.factorial, counts))
                                for counts in choices])  # in how many orders they can choose so
        # For each strategy and each choice of one rival less the number of the choice in which one
        # more has that strategy.
        self.raised = [[choices.index(with_one(counts, strategy))
                        for counts in counts_of(rivals - 1, strategies)]
                       for strategy in range(strategies)] if rivals else []

    def chances(self, mixtures: Array) -> Array:
        """How likely rivals that draw from a mixture, or from each of many, make each choice."""
        powers = np.asarray(mixtures)[..., None] ** np.arange(self.counts.max() + 1)
        return self.orders * math.prod(powers[..., place, column]
                                       for place, column in enumerate(self.counts.T))


_shape = lru_cache(maxsize=64)(_Shape)


class SymmetricGame:
    """A symmetric game, or many of the same size.

    Args:
        players: How many there are, 2 or more.
        payoffs: For each game and strategy its payoff beside each choice of the rivals, as
            `counts_of` has them.
        mixed: How many of the strategies, the first, the rivals have; 0 for all.
    """

    def __init__(self, players: int, payoffs: Array, mixed: int = 0) -> None:
        self.players, self.payoffs = players, np.asarray(payoffs, dtype=float)
        self.mixed = mixed or self.payoffs.shape[-2]
        self.shape, self._fewer = (_shape(players - less, self.mixed) for less in (1, 2))

    def values(self, mixtures: Array) -> Array:
        """The payoff that each strategy has in the mean while the others draw from a mixture, or
        from each of many, which are rows."""
        return self.shape.chances(mixtures) @ np.swapaxes(self.payoffs, -1, -2)

    def slopes(self, mixtures: Array) -> Array:
        """By how much the payoff of each strategy rises with the share of each."""
        raised = self.payoffs[..., self.shape.raised]
        rows = raised.reshape(*raised.shape[:-3], -1, raised.shape[-1])
        slopes = (self.players - 1) * self._fewer.chances(mixtures) @ np.swapaxes(rows, -1, -2)
        return slopes.reshape(*slopes.shape[:-1], *raised.shape[-3:-1])

    def regrets(self, mixtures: Array) -> Array:
        """The regrets of mixtures."""
        values = self.values(mixtures)
        return values.max(axis=-1) - (values[..., :self.mixed] * mixtures).sum(axis=-1)

    def among(self, support: List[int]) -> "SymmetricGame":
        """The game in which everybody has only these strategies."""
        inside = self.shape.counts[:, support].sum(axis=1) == self.players - 1
        return SymmetricGame(self.players, self.payoffs[..., support, :][..., inside])


def _odds(gaps: Array) -> Array:
    """The roots above 0 of a polynomial, padded by NaN."""
    roots = np.roots(gaps / (abs(gaps).max() or 1.0))
    roots = roots.real[(abs(roots.imag) < 1e-6 * abs(roots)) & (roots.real > 0.0)]
    return np.pad(roots, (0, len(gaps) - 1 - len(roots)), constant_values=np.nan)


def _starts(game: SymmetricGame) -> Array:
    """Mixtures of all strategies, each a row, from which those are searched in which all do equally
    well."""
    if game.players == 2:  # the equations are linear, and one step leads to their solution
        starts = np.ones((1, game.mixed))
    elif game.mixed == 2:  # the strategies' odds are the roots of a polynomial
        gaps = (game.payoffs[:, 0] - game.payoffs[:, 1]) * game.shape.orders
        odds = np.array(list(map(_odds, gaps)))
        starts = np.stack([odds, np.ones_like(odds)], axis=-1)
    else:
        source = random.Random(1)
        starts = np.array([[source.expovariate(1.0) for _ in range(game.mixed)]
                           for _ in range(STARTS * game.mixed)])
    starts = starts / starts.sum(axis=-1, keepdims=True)
    return np.zeros((len(game.payoffs), 1, 1)) + starts


def _balanced(game: SymmetricGame) -> Array:
    """Mixtures in which all strategies do equally well, by Newton's method from many, for each of
    many games; NaN in place of those that leave the simplex."""
    mixtures = _starts(game)
    for _ in range(NEWTON_STEPS):
        rows = np.insert(np.diff(game.slopes(mixtures), axis=-2), 0, 1.0, axis=-2)
        wrong = np.insert(-np.diff(game.values(mixtures), axis=-1), 0, 0.0, axis=-1)
        try:
            steps = np.linalg.solve(rows, wrong[..., None])[..., 0]
        except np.linalg.LinAlgError:  # one of them has no single solution
            steps = np.linalg.solve(rows + TINY * np.eye(game.mixed), wrong[..., None])[..., 0]
        mixtures = mixtures + steps
        mixtures[(abs(mixtures - 0.5) > 0.5 + FAR).any(axis=-1)] = np.nan
        if not (abs(steps) > 1e-12).any():
            break
    mixtures[(mixtures < -1e-9).any(axis=-1)] = np.nan
    mixtures = mixtures.clip(0.0)
    return mixtures / mixtures.sum(axis=-1, keepdims=True)


def distance(first: Sequence[float], other: Sequence[float]) -> float:
    """How much of their shares two mixtures have otherwise, from 0 to 1."""
    return sum(abs(one - two) for one, two in zip(first, other)) / 2.0


def equilibria(games: SymmetricGame) -> List[List[Mixture]]:
    """Symmetric equilibria of many games, for each those with most of the first strategy first.

    For each set of strategies it searches the mixtures of them in which they do equally well, and
    takes those without regret. For two players, and for sets of one or two strategies, that finds
    all, if there are finitely many; otherwise it begins at many random mixtures, and may miss one.
    """
    found: List[List[Mixture]] = [[] for _ in games.payoffs]
    least, spread = games.payoffs.min(axis=(1, 2)), np.ptp(games.payoffs, axis=(1, 2))
    parts = (games.payoffs - least[:, None, None]) / np.where(spread, spread, 1.0)[:, None, None]
    games = SymmetricGame(games.players, parts, games.mixed)
    for size in range(1, games.mixed + 1):
        for chosen in combinations(range(games.mixed), size):
            support = list(chosen)
            inner = _balanced(games.among(support)) if size > 1 else np.ones((len(found), 1, 1))
            mixtures = np.zeros((*inner.shape[:2], games.mixed))
            mixtures[..., support] = inner
            are_good = games.regrets(mixtures) <= MOST_REGRET
            for place, (each, is_good) in enumerate(zip(mixtures, are_good)):
                for shares in each[is_good].tolist():
                    if all(distance(shares, other) > APART for other in found[place]):
                        found[place].append(tuple(shares))
    return [sorted(each, reverse=True) for each in found]


def gains(players: int, samples: Array, mixture: Sequence[float]) -> List[Estimate]:
    """What a player gains by each single strategy while the others draw from a mixture, in the mean
    over deals, with the interval of paired differences."""
    values = SymmetricGame(players, samples, len(mixture)).values(mixture)
    by_deal = values - (values[:, :len(mixture)] @ mixture)[:, None]
    return [estimate(column) for column in by_deal.T.tolist()]


def resampled(samples: Array, count: int) -> Array:
    """Payoffs as other deals might have given them: means over deals that are drawn from these
    again. These lie too close together, and the more so the fewer deals there are. So each one's
    distance from the mean of all is widened until a payoff scatters as wide as its interval by
    Student's t."""
    size, source = len(samples), random.Random(1)
    wider = math.sqrt(size / (size - 1)) * student_quantile(size - 1) / NormalDist().inv_cdf(0.975)
    drawn = [Counter(source.choices(range(size), k=size)) for _ in range(count)]
    parts = np.array([[counts[place] / size for place in range(size)] for counts in drawn])
    centre = samples.mean(axis=0)
    return centre + wider * (np.tensordot(parts, samples, 1) - centre)


@dataclass(frozen=True)
class Equilibrium:
    """A symmetric equilibrium of the mean payoffs."""

    mixture: Mixture  # the shares of the strategies that rivals have
    gains: List[Estimate]  # what a player gains by each strategy, with its interval
    times: int  # in how many resamples there is an equilibrium near to it
    # whether there are no others arbitrarily near, as where two strategies are alike
    is_single: bool


@dataclass(frozen=True)
class Findings:
    """What payoffs tell of symmetric equilibria."""

    # those of the mean payoffs; none where the search found none, though there is one
    equilibria: List[Equilibrium]
    resamples: int  # how many resamples there were; 0 with a single deal
    others: int  # in how many of them there is one that is near to none of these, or none

    @property
    def are_known(self) -> bool:
        """Whether other deals would most likely give the same equilibria and no others."""
        least = KNOWN * self.resamples
        return (self.resamples > 0 and len(self.equilibria) > 0
                and self.resamples - self.others >= least
                and all(each.is_single and each.times >= least for each in self.equilibria))


def find(players: int, samples: Array, mixed: int = 0, resamples: int = RESAMPLES) -> Findings:
    """What the payoffs of one or more deals tell of symmetric equilibria, where rivals have the
    first `mixed` strategies; 0 for all."""
    samples = np.asarray(samples, dtype=float)
    mean = SymmetricGame(players, samples.mean(axis=0)[None], mixed)
    mixtures, again = equilibria(mean)[0], list[List[Mixture]]()
    drawn = resampled(samples, resamples) if len(samples) > 1 else samples[:0]
    for part in range(0, len(drawn), AT_ONCE):
        again += equilibria(SymmetricGame(players, drawn[part:part + AT_ONCE], mixed))
    others = sum(not found or any(_is_apart(mixture, mixtures) for mixture in found)
                 for found in again)
    return Findings(
        [Equilibrium(mixture, gains(players, samples, mixture),
                     sum(not _is_apart(mixture, found) for found in again),
                     _is_single(mean, mixture)) for mixture in mixtures],
        len(again), others)


def _is_apart(mixture: Mixture, others: Sequence[Mixture]) -> bool:
    return all(distance(mixture, other) > NEAR for other in others)


def _is_single(game: SymmetricGame, mixture: Mixture) -> bool:
    """Whether all strategies do worse than those of an equilibrium that it does not have."""
    values = game.values(mixture)[0]
    as_good = values >= values.max() - MOST_REGRET * np.ptp(game.payoffs)
    return int(as_good.sum()) == sum(share > 0.0 for share in mixture)

