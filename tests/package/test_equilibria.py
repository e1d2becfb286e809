"""Payoffs of profiles of strategies, their reduction to fewer players, and their equilibria."""

import csv
import io
import math
import random
import unittest
from dataclasses import replace
from itertools import combinations, product
from typing import Any, Dict, List, Sequence, Tuple
from unittest import mock

from geesefuton.experiments.comparisons import missing_libraries
from geesefuton.experiments.reduction import (counts_of, needed_profiles, profile_of,
                                              text_of_profile)
from geesefuton.experiments.results import Outcome, Row
from tests.package.helpers import needs_study

if not missing_libraries("these tests"):
    import numpy as np

    from geesefuton.experiments.equilibria import (RESAMPLES, SymmetricGame, distance, equilibria,
                                                   find, gains, resampled)
    from geesefuton.experiments.payoffs import Payoffs

Mixture = Tuple[float, ...]


def of_two(*payoffs: Sequence[float]) -> List[Mixture]:
    """The equilibria of a game of two players, with a row of payoffs for each strategy."""
    return equilibria(SymmetricGame(2, [payoffs]))[0]


def enumerated(payoffs: Sequence[Sequence[float]]) -> List[Mixture]:
    """The same by linear equations for each support."""
    found, rows = [], np.array(payoffs)
    for size in range(1, len(rows) + 1):
        for support in combinations(range(len(rows)), size):
            equal = np.block([[rows[np.ix_(support, support)], -np.ones((size, 1))],
                              [np.ones((1, size)), np.zeros((1, 1))]])
            shares = np.linalg.solve(equal, [0.0] * size + [1.0])
            mixture = np.zeros(len(rows))
            mixture[list(support)] = shares[:size]
            if mixture.min() >= 0.0 and (rows @ mixture).max() <= shares[size] + 1e-9:
                found.append(tuple(mixture))
    return found


def scattered(means: Sequence[Sequence[float]], spread: float, deals: int,
              seed: int) -> List[List[List[float]]]:
    """Payoffs of deals about their means."""
    source = random.Random(seed)
    return [[[source.gauss(mean, spread) for mean in row] for row in means] for _ in range(deals)]


@needs_study
class Games(unittest.TestCase):
    def agree(self, found: Sequence[Mixture], due: Sequence[Sequence[float]]) -> None:
        self.assertEqual(len(found), len(due), found)
        for mixture, shares in zip(found, due):
            for share, other in zip(mixture, shares):
                self.assertAlmostEqual(share, other, places=6)

    def test_values_are_those_of_drawn_rivals(self) -> None:
        # Beside two rivals of which each has the first strategy with probability 1/4: both have it
        # with 1/16, one with 6/16, none with 9/16. With a share of x the first strategy has
        # 16 x^2 + 64 x (1 - x) + 48 (1 - x)^2.
        game = SymmetricGame(3, [[16.0, 32.0, 48.0], [0.0, 16.0, 0.0]])
        values = game.values((0.25, 0.75))
        self.assertAlmostEqual(values[0], 1.0 + 12.0 + 27.0)
        self.assertAlmostEqual(values[1], 6.0)
        self.assertAlmostEqual(game.regrets(np.array([0.25, 0.75])), 40.0 - (10.0 + 4.5))
        for place in range(2):  # slopes are those of small steps
            step = np.eye(2)[place] * 1e-6
            near = (game.values(np.array([0.25, 0.75]) + step) - values) / 1e-6
            np.testing.assert_allclose(game.slopes(np.array([0.25, 0.75]))[:, place], near,
                                       atol=1e-3)

    def test_games_of_textbooks_at_each_level_of_payoffs(self) -> None:
        """Only differences count, also where they are small beside the payoffs."""
        cases: List[Any] = [
            # Rock, paper, scissors: the equilibrium repels, is circled, and attracts.
            *(([[0, -1, win], [win, 0, -1], [-1, win, 0]], [[1 / 3] * 3])
              for win in (0.5, 1.0, 2.0)),
            # To dare gives 7 (1 - x), to give way 2 x + 6 (1 - x), where x of the others dare.
            ([[0, 7], [2, 6]], [[1 / 3, 2 / 3]]),
            # A strategy is dominated.
            ([[3, 0], [5, 1]], [[0, 1]]), ([[3, 0, 2], [5, 1, 4], [1, 0, 0]], [[0, 1, 0]]),
            # Two ways to agree, and the mixture that repels.
            ([[2, 0], [0, 1]], [[1, 0], [1 / 3, 2 / 3], [0, 1]])]
        for payoffs, due in cases:
            for level in (0.0, -4000.0, 4000.0, 1e6):
                self.agree(of_two(*([level + value for value in row] for row in payoffs)), due)

    def test_more_players(self) -> None:
        # Eight choose one of two roads, and a player has 7 less the number of others on its road.
        alone = [[float(7 - counts[road]) for counts in counts_of(7, 2)] for road in range(2)]
        self.agree(equilibria(SymmetricGame(8, [alone]))[0], [[0.5, 0.5]])
        # Of those on the second road each has 1 less: 7 (1 - 2 x) + 1 = 0.
        taxed = [alone[0], [value - 1.0 for value in alone[1]]]
        self.agree(equilibria(SymmetricGame(8, [taxed]))[0], [[4 / 7, 3 / 7]])
        # Somebody has to volunteer at a cost of 1 for a gain of 3 each: among 8, nobody else does
        # with probability 1/3, so the others' share is the seventh root of 1/3.
        volunteers = [[2.0] * 8, [0.0 if counts[0] == 0 else 3.0 for counts in counts_of(7, 2)]]
        rest = (1 / 3) ** (1 / 7)
        self.agree(equilibria(SymmetricGame(8, [volunteers]))[0], [[1 - rest, rest]])

    def test_random_games_of_two_have_all_that_an_enumeration_finds(self) -> None:
        source = random.Random(3)
        for size, count in ((2, 100), (3, 334), (4, 333), (5, 333)):
            games = [[[source.gauss(0.0, 1.0) for _ in range(size)] for _ in range(size)]
                     for _ in range(count)]
            for game, found in zip(games, equilibria(SymmetricGame(2, games))):
                self.agree(found, sorted(enumerated(game), reverse=True))

    def test_each_random_game_of_more_has_one_and_none_has_regret(self) -> None:
        source = random.Random(4)
        for players, strategies in ((4, 3), (8, 2), (8, 3)):
            games = SymmetricGame(players, [[[source.gauss(0.0, 1.0) for _ in counts_of(
                players - 1, strategies)] for _ in range(strategies)] for _ in range(10)])
            for payoffs, found in zip(games.payoffs, equilibria(games)):
                self.assertGreater(len(found), 0)
                for mixture in found:
                    self.assertLess(SymmetricGame(players, payoffs).regrets(np.array(mixture)),
                                    1e-6)

    def test_several_that_attract_and_repel_are_all_found(self) -> None:
        # Of eight players each gains 1 by each other on its road: each road alone, and all mixtures
        # of equal shares of some of them.
        roads = [[float(counts[road]) for counts in counts_of(7, 3)] for road in range(3)]
        found = equilibria(SymmetricGame(8, [roads]))[0]
        self.agree(found, sorted(([share / sum(shares) for share in shares] for shares in
                                  product((0, 1), repeat=3) if any(shares)), reverse=True))

    def test_rivals_that_have_some_strategies_alone(self) -> None:
        # The second strategy is best beside the first, and nobody else has it.
        for gain, due in ((3.0, []), (0.0, [(1.0,)])):
            self.assertEqual(equilibria(SymmetricGame(2, [[[1.0], [gain]]], 1)), [due])

    def test_payoffs_that_are_all_alike(self) -> None:
        self.assertIn((1.0, 0.0), of_two([5, 5], [5, 5]))

    def test_distances(self) -> None:
        self.assertEqual(distance((1.0, 0.0), (0.0, 1.0)), 1.0)
        self.assertAlmostEqual(distance((0.5, 0.3, 0.2), (0.4, 0.3, 0.3)), 0.1)


@needs_study
class Deals(unittest.TestCase):
    APART = scattered([[4000, 4000], [2000, 2000]], 300.0, 8, 1)

    def test_gains_are_paired_by_deals(self) -> None:
        # The second strategy has 10 more beside the first in each of three deals but for 10 +- 1.
        samples = [[[100.0, 0.0], [109.0, 0.0]], [[300.0, 0.0], [310.0, 0.0]],
                   [[200.0, 0.0], [211.0, 0.0]]]
        own, other = gains(2, np.array(samples), (1.0, 0.0))
        self.assertEqual((own.mean, own.half), (0.0, 0.0))
        self.assertAlmostEqual(other.mean, 10.0)
        self.assertAlmostEqual(other.half or 0.0, 4.30265 / math.sqrt(3), places=4)

    def test_resamples_scatter_as_wide_as_students_intervals(self) -> None:
        for deals in (2, 3, 8, 30):
            samples = scattered([[0.0]], 1.0, deals, 5)
            values = [sample[0][0] for sample in samples]
            mean = sum(values) / deals
            error = math.sqrt(sum((value - mean) ** 2 for value in values) / (deals - 1) / deals)
            drawn = resampled(np.array(samples), 2000)[:, 0, 0]
            spread = math.sqrt(sum((value - mean) ** 2 for value in drawn) / 2000)
            bound = {2: 12.7062, 3: 4.3027, 8: 2.3646, 30: 2.0452}[deals] / 1.95996
            self.assertAlmostEqual(spread / (bound * error), 1.0, delta=0.07)

    def test_a_large_difference_is_known_from_few_deals(self) -> None:
        found = find(2, self.APART)
        self.assertEqual([(each.mixture, each.times) for each in found.equilibria],
                         [((1.0, 0.0), RESAMPLES)])
        self.assertEqual((found.others, found.resamples), (0, RESAMPLES))
        self.assertTrue(found.are_known)

    def test_a_single_deal_tells_nothing(self) -> None:
        found = find(2, scattered([[4000, 4000], [2000, 2000]], 300.0, 1, 1))
        self.assertEqual((found.resamples, found.are_known), (0, False))
        self.assertIsNone(found.equilibria[0].gains[1].half)

    def test_nothing_is_known_of_strategies_that_are_alike(self) -> None:
        """Of 30 studies of two strategies without a difference at most two find one."""
        known = 0
        for seed in range(30):
            found = find(2, scattered([[4000, 4000], [4000, 4000]], 300.0, (2, 4, 8)[seed % 3],
                                      seed), resamples=20)
            known += found.are_known
        self.assertLessEqual(known, 2)

    def test_nothing_is_known_of_payoffs_that_are_exactly_alike(self) -> None:
        for samples in ([[[0.0, 0.0], [0.0, 0.0]]] * 4, [[[5.0, 1.0], [5.0, 1.0]]] * 4):
            found = find(2, samples, resamples=20)
            self.assertFalse(found.are_known)
            self.assertFalse(all(each.is_single for each in found.equilibria))

    def test_nothing_is_known_where_no_equilibrium_was_found(self) -> None:
        with mock.patch("geesefuton.experiments.equilibria.equilibria",
                        side_effect=lambda games: [[] for _ in games.payoffs]):
            found = find(2, self.APART, resamples=20)
        self.assertEqual((found.equilibria, found.are_known, found.others), ([], False, 20))

    def test_the_same_payoffs_give_the_same_findings(self) -> None:
        samples = scattered([[1, 2], [2, 1]], 1.0, 4, 2)
        self.assertEqual(find(2, samples, resamples=20), find(2, samples, resamples=20))


def rows_of(games: Dict[Tuple[str, int], str], scores: Dict[Tuple[str, int, str], int]
            ) -> List[Row]:
    """Rows of games, each with its agents' letters by seat; an agent's seats are 10 below and above
    its score in turn, so that its mean over an even number of seats is the score."""
    return [Row(deal, rotation, seat, agent,
                scores[deal, rotation, agent] + (0 if line.count(agent) % 2 else
                                                 10 if line[:seat].count(agent) % 2 else -10),
                Outcome.PLAYED, 0)
            for (deal, rotation), line in games.items() for seat, agent in enumerate(line)]


class Reduction(unittest.TestCase):
    def test_rivals_stand_for_seven_seats(self) -> None:
        self.assertEqual(profile_of(1, (3, 4)), (3, 5))
        self.assertEqual(profile_of(0, (0, 1, 0)), (1, 7, 0))

    def test_choices_are_counted(self) -> None:
        self.assertEqual(counts_of(2, 2), [(2, 0), (1, 1), (0, 2)])
        self.assertEqual(len(counts_of(7, 3)), 36)
        self.assertTrue(all(sum(counts) == 7 for counts in counts_of(7, 3)))

    def test_profiles_that_are_due(self) -> None:
        for players, due in ((2, [8, 7, 1, 0]),
                             (8, [8, 7, 6, 5, 4, 3, 2, 1, 0])):
            few, more = needed_profiles(2, players), needed_profiles(3, players)
            self.assertEqual(few, [(most, 8 - most) for most in due])
            # Another strategy changes no number.
            self.assertEqual([(*profile, 0) for profile in few], more[:len(few)])
        self.assertEqual([[len(needed_profiles(count, players)) for count in (2, 3, 4)]
                          for players in (2, 8)], [[4, 9, 16], [9, 45, 165]])
        self.assertEqual(text_of_profile((7, 1)), "7+1")

    def test_rivals_may_have_some_strategies_alone(self) -> None:
        self.assertEqual(needed_profiles(3, 2, 1), [(8, 0, 0), (7, 1, 0), (7, 0, 1)])
        self.assertEqual(set(needed_profiles(3, 8, 2)), {
            profile for profile in needed_profiles(3, 8) if profile[2] <= 1})


@needs_study
class Tables(unittest.TestCase):
    def setUp(self) -> None:
        lines = ["aaaaaaaa", "aaabaaaa", "bbbbbbba", "bbbbbbbb"]
        self.games = {(deal, rotation): line for deal in ("5", "6")
                      for rotation, line in enumerate(lines)}
        self.scores = {(deal, rotation, agent): score + more for deal, more in (("5", 0), ("6", 40))
                       for rotation, agent, score in ((0, "a", 100), (1, "a", 110), (1, "b", 220),
                                                      (2, "a", 310), (2, "b", 420), (3, "b", 440))}
        self.payoffs = Payoffs(["a", "b"], 2, rows_of(self.games, self.scores))

    def without(self, *lost: object) -> "Payoffs":
        """The payoffs without a game."""
        games = {game: line for game, line in self.games.items() if game != lost}
        return Payoffs(["a", "b"], 2, rows_of(games, self.scores))

    def test_payoffs_come_from_the_profiles_that_have_one_seat(self) -> None:
        # The seat that leaves its profile, 3 or 7, has 10 more than the mean where all are alike.
        self.assertEqual(self.payoffs.samples().tolist(), [[[100, 300], [210, 440]],
                                                           [[140, 340], [250, 480]]])
        means = [[value and value.mean for value in row] for row in self.payoffs.estimates()]
        self.assertEqual(means, [[120, None], [130, 240], [330, 440], [None, 460]])

    def test_a_deal_counts_if_every_profile_was_scored(self) -> None:
        payoffs = self.without("5", 2)
        self.assertEqual((payoffs.deals, payoffs.incomplete), (["6"], ["5"]))
        self.assertEqual(payoffs.samples().tolist(), [[[140, 340], [250, 480]]])

    def test_as_csv(self) -> None:
        lines = list(csv.reader(self.payoffs.as_csv().splitlines()))
        self.assertEqual(lines[:4], [["deal", "profile", "strategy", "seats", "payoff", "by_seat"],
                                     ["5", "8+0", "a", "8", "100", "100"],
                                     ["5", "7+1", "a", "7", "110", "111.4285714"],
                                     ["5", "7+1", "b", "1", "220", "210"]])
        self.assertEqual(len(lines), 13)
        first = self.without("5", 0).as_csv().split("\n")[1:3]
        self.assertEqual(first, ["5,7+1,a,7,110,", "5,7+1,b,1,220,"])

    def test_strange_names(self) -> None:
        names = ["a,b", 'x\u2028"']
        rows = [replace(row, agent=names["ab".index(row.agent)])
                for row in rows_of(self.games, self.scores)]
        payoffs = Payoffs(names, 2, rows)
        cells = list(csv.reader(io.StringIO(payoffs.as_csv(), newline="")))
        self.assertEqual({line[2] for line in cells[1:]}, set(names))

    def test_a_seat_that_leaves_its_profile_is_compared_with_itself(self) -> None:
        """Seats differ by 400 dollars, games by 50, and a deviator gains 100: by seats the interval
        of its gain is less than half as wide."""
        source, rows = random.Random(1), []
        for deal in range(24):
            luck = [source.gauss(0.0, 400.0) for _ in range(8)]
            for number, line in enumerate(("a" * 8, "b" + "a" * 7, "b" * 7 + "a", "b" * 8)):
                for place, agent in enumerate(line):
                    seat = (place + deal) % 8
                    gain = 100.0 if agent == "b" else 0.0
                    rows.append(Row(str(deal), number, seat, agent, round(
                        2000.0 + luck[seat] + gain + source.gauss(0.0, 50.0)), Outcome.PLAYED, 0))
        payoffs = Payoffs(["a", "b"], 2, rows)
        alone, one = payoffs.estimates()[:2]
        assert alone[0] is not None and one[1] is not None and one[1].half is not None
        gain = gains(2, payoffs.samples(), (1.0, 0.0))[1]
        assert gain.half is not None
        self.assertAlmostEqual(gain.mean, 100.0, delta=2 * gain.half)
        self.assertLess(gain.half, one[1].half / 2)

    def test_a_game_that_is_alike_for_all_strategies_has_a_mixture_of_equal_shares(self) -> None:
        """Payoffs fall with the number of rivals who have the same strategy."""
        rows = []
        for deal in "12":
            for number, profile in enumerate(needed_profiles(3, 8)):
                seats = [place for place, count in enumerate(profile) for _ in range(count)]
                rows += [Row(deal, number, seat, "abc"[place],
                             1000 - 10 * (profile[place] - 1) ** 2, Outcome.PLAYED, 0)
                         for seat, place in enumerate(seats)]
        found = find(8, Payoffs(list("abc"), 8, rows).samples(), resamples=1)
        self.assertEqual(len(found.equilibria), 1)
        for share in found.equilibria[0].mixture:
            self.assertAlmostEqual(share, 1 / 3, places=6)
