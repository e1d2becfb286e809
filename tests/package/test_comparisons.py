import itertools
import math
import random
import unittest
from typing import List, Optional, Sequence, Tuple

from geesefuton.experiments.comparisons import (Estimate, adjusted, bonferroni_halves,
                                                deals_to_detect, estimate, groups_of, holm,
                                                missing_libraries, power, signed_rank_p,
                                                student_outside, student_p, student_quantile)
from tests.package.helpers import needs_study

if not missing_libraries("these tests"):
    import numpy as np

# Bounds of Student's t for 95 %, from printed tables.
TABLE = [(1, 12.7062), (2, 4.3027), (3, 3.1824), (4, 2.7764), (5, 2.5706), (9, 2.2622),
         (10, 2.2281), (19, 2.0930), (30, 2.0423), (60, 2.0003), (120, 1.9799), (1000, 1.9623)]


class Means(unittest.TestCase):
    def test_bounds_are_those_of_tables(self) -> None:
        for freedom, bound in TABLE:
            self.assertAlmostEqual(student_quantile(freedom), bound, delta=5.1e-5)
        self.assertAlmostEqual(student_quantile(4, 0.99), 4.6041, delta=5.1e-5)
        self.assertAlmostEqual(student_quantile(7, 0.5), 0.7111, delta=5.1e-5)

    def test_probabilities_by_hand(self) -> None:
        # With one degree of freedom 1 - 2 atan(t) / pi, with two 1 - t / sqrt(2 + t t).
        for bound in (0.0, 0.3, 1.0, 20.0):
            self.assertAlmostEqual(student_outside(1, bound), 1 - 2 * math.atan(bound) / math.pi)
            self.assertAlmostEqual(student_outside(2, bound), 1 - bound / math.sqrt(2 + bound ** 2))

    def test_an_interval_by_hand(self) -> None:
        # Mean 4, sum of squares 8, variance 8 / 2 = 4, error sqrt(4 / 3), bound 4.3027.
        got = estimate([2.0, 4.0, 6.0])
        self.assertEqual((got.mean, got.count), (4.0, 3))
        self.assertAlmostEqual(got.half or 0.0, 4.30265 * math.sqrt(4 / 3), places=4)
        self.assertEqual(estimate([7.0]), Estimate(7.0, None, 1))
        self.assertEqual(estimate([3.0] * 4), Estimate(3.0, 0.0, 4))


class Several(unittest.TestCase):
    def test_probabilities_belong_to_the_bounds(self) -> None:
        for freedom, bound in TABLE[1:8]:  # a mean at exactly its bound
            value = Estimate(bound, bound, freedom + 1)
            self.assertAlmostEqual(student_p(value) or 0.0, 0.05, delta=1e-4)
            below = student_p(Estimate(-bound, bound, freedom + 1))
            self.assertAlmostEqual(below or 0.0, 0.05, delta=1e-4)
        self.assertEqual(student_p(Estimate(0.0, 3.0, 5)), 1.0)
        self.assertIsNone(student_p(Estimate(7.0, None, 1)))
        self.assertEqual((student_p(estimate([3.0] * 4)), student_p(estimate([0.0] * 4))),
                         (0.0, 1.0))

    def test_holm_by_hand(self) -> None:
        # The least of three counts three times, the next twice, and none less than one before it.
        self.assertEqual(holm([0.04, None, 0.01, 0.02]), [0.04, None, 0.03, 0.04])
        self.assertEqual(holm([0.03, 0.01, 0.03]), [0.06, 0.03, 0.06])
        self.assertEqual(holm([0.9, 0.8, None]), [1.0, 1.0, None])
        self.assertEqual(holm([None]), [None])

    def test_intervals_for_all_by_hand(self) -> None:
        value = Estimate(7.0, student_quantile(4), 5)
        halves = bonferroni_halves([value, None, value, Estimate(5.0, None, 1), value])
        self.assertEqual((halves[1], halves[3]), (None, None))
        for place in (0, 2, 4):
            self.assertAlmostEqual(halves[place] or 0.0, student_quantile(4, 1.0 - 0.05 / 3))
        self.assertAlmostEqual(bonferroni_halves([value])[0] or 0.0, value.half or -1.0)
        self.assertEqual(bonferroni_halves([Estimate(5.0, None, 1)]), [None])

    def test_differences_by_chance_are_told_in_few_of_many_experiments(self) -> None:
        """Ten comparisons without a difference, 400 times: at least one is told in 2 to 8 %."""
        source, told = random.Random(3), 0
        for _ in range(400):
            values = [estimate([source.gauss(0.0, 1.0) for _ in range(8)]) for _ in range(10)]
            told += min(chance or 0.0 for chance in holm(list(map(student_p, values)))) <= 0.05
        self.assertTrue(8 <= told <= 32, told)

    def test_groups_that_are_not_separated(self) -> None:
        def groups(count: int, *apart: Tuple[int, int]) -> List[List[int]]:
            return groups_of(count, set(map(frozenset, apart)))

        self.assertEqual(groups(3), [[0, 1, 2]])
        self.assertEqual(groups(3, (0, 1), (0, 2), (1, 2)), [[0], [1], [2]])
        self.assertEqual(groups(4, (0, 3), (0, 2)), [[0, 1], [1, 2, 3]])
        self.assertEqual(groups(3, (0, 1)), [[0, 2], [1, 2]])
        self.assertEqual(groups(0), [])


def chance(values: Sequence[float]) -> float:
    found = signed_rank_p(values)
    assert found is not None
    return found


def by_all_signs(values: Sequence[float]) -> float:
    """The probability by its definition. A size that several share has the mean of their ranks."""
    sizes = sorted(map(abs, values))
    ranks = [sum(place for place, other in enumerate(sizes, 1) if other == abs(value))
             / sizes.count(abs(value)) for value in values]
    seen = abs(sum(math.copysign(rank, value) for rank, value in zip(ranks, values)))
    sums = [abs(sum(rank * sign for rank, sign in zip(ranks, signs)))
            for signs in itertools.product((1, -1), repeat=len(values))]
    return sum(one >= seen for one in sums) / len(sums)


class SignedRanks(unittest.TestCase):
    def test_it_is_that_of_all_signs(self) -> None:
        source = random.Random(1)
        for count in range(1, 11):
            for _ in range(5):
                values = [source.gauss(0.5, 1.0) for _ in range(count)]
                self.assertAlmostEqual(chance(values), by_all_signs(values), places=12)
                shared = [value for value in map(round, values) if value]
                if shared:
                    self.assertAlmostEqual(chance(shared), by_all_signs(shared), places=12)

    def test_equal_sizes_share_their_ranks_and_zeros_are_left_out(self) -> None:
        # Ranks 1, 2.5, 2.5, 4: sums below of at most 1 have the ways 0 and 1, of 16.
        self.assertAlmostEqual(chance([-1.0, 2.0, 2.0, 3.0]), 4 / 16)
        self.assertAlmostEqual(chance([0.0, -1.0, 2.0, 0.0, 2.0, 3.0]), 4 / 16)
        self.assertAlmostEqual(chance([1.0, -1.0]), 1.0)
        self.assertIsNone(signed_rank_p([0.0, 0.0]))
        self.assertIsNone(signed_rank_p([]))

    def test_many_values_by_the_formula_of_textbooks(self) -> None:
        # n (n + 1) / 4 and n (n + 1) (2 n + 1) / 24, less (t^3 - t) / 48 for each t that share a
        # size, and half a rank for continuity.
        source = random.Random(3)
        for is_shared in (False, True):
            values = [source.gauss(0.1, 1.0) for _ in range(60)]
            values = [round(value, 1) or 0.1 for value in values] if is_shared else values
            sizes = [abs(value) for value in values]
            ranks = [sum(other < size for other in sizes) + (sizes.count(size) + 1) / 2
                     for size in sizes]
            above = sum(rank for rank, value in zip(ranks, values) if value > 0)
            shared = sum(count ** 3 - count for count in map(sizes.count, set(sizes)))
            deviation = math.sqrt(60 * 61 * 121 / 24 - shared / 48)
            far = (abs(above - 60 * 61 / 4) - 0.5) / deviation
            self.assertAlmostEqual(chance(values), math.erfc(far / math.sqrt(2)), places=12)


@needs_study
class Adjustment(unittest.TestCase):
    def agree(self, got: Optional[Estimate], mean: float, half: float, places: int = 6) -> None:
        assert got is not None and got.half is not None
        self.assertAlmostEqual(got.mean, mean)
        self.assertAlmostEqual(got.half, half, places)

    def test_an_interval_by_hand(self) -> None:
        # y = 1, 3, 2, 6 at x = 0, 1, 2, 3: slope 1.4, mean 3; at 1.5 the line has 3, and the
        # residuals 0.1, 0.7, -1.7, 0.9 have the squares 4.2, so the error is sqrt(2.1 / 4).
        for place, mean, square in ((1.5, 3.0, 2.1 / 4), (3.0, 5.1, 2.1 * (1 / 4 + 2.25 / 5))):
            self.agree(adjusted([1.0, 3.0, 2.0, 6.0], [[0.0, 1.0, 2.0, 3.0]], [place]), mean,
                       4.30265 * math.sqrt(square), 4)

    def test_points_on_a_plane_are_adjusted_along_it(self) -> None:
        source = random.Random(4)
        x, y = ([source.gauss(0.0, 1.0) for _ in range(12)] for _ in range(2))
        z = [2.0 * a - 3.0 * b for a, b in zip(x, y)]
        values = [5.0 + 2.0 * a - 3.0 * b for a, b in zip(x, y)]
        for covariates, at in (([x, y], [1.0, 1.0]), ([y, x], [1.0, 1.0]),
                               ([x, y, z], [1.0, 1.0, -1.0]), ([z], [-1.0]),
                               ([[7.0] * 12, x, y], [7.0, 1.0, 1.0])):
            self.agree(adjusted(values, covariates, at), 4.0, 0.0)

    def test_few_units_use_few_covariates(self) -> None:
        source = random.Random(5)
        values, x, y = ([source.gauss(0.0, 1.0) for _ in range(8)] for _ in range(3))
        for count, used in ((3, 1), (7, 1), (8, 2)):
            got = adjusted(values[:count], [x[:count], y[:count], values[:count]], [0.1, 0.2, 9.0])
            due = adjusted(values[:count], [x[:count], y[:count]][:used], [0.1, 0.2][:used])
            assert due is not None and due.half is not None
            self.agree(got, due.mean, due.half, 7)

    def test_nothing_is_told_of_two_values_or_equal_covariates(self) -> None:
        self.assertIsNone(adjusted([1.0, 2.0], [[0.0, 1.0]], [0.5]))
        self.assertIsNone(adjusted([1.0, 2.0, 3.0], [[5.0, 5.0, 5.0]], [5.0]))
        self.assertIsNone(adjusted([1.0, 2.0, 3.0], [], []))
        self.assertIsNotNone(adjusted([1.0, 2.0, 4.0], [[5.0, 5.0, 6.0]], [5.0]))

    def test_they_are_those_of_the_normal_equations(self) -> None:
        draws = np.random.RandomState(7)
        for count in (12, 50):
            drawn = draws.normal([2000, 2, 325], [300, 0.3, 15], (count, 3))
            values, at = drawn @ [1, 50, -3] + draws.normal(0, 300, count), [2153.43, 2.0, 325.0]
            rows = np.column_stack([np.ones(count), drawn])
            slopes = np.linalg.lstsq(rows, values, rcond=None)[0]
            rest, point = values - rows @ slopes, np.array([1.0, *at])
            error = math.sqrt(rest @ rest / (count - 4)
                              * (point @ np.linalg.inv(rows.T @ rows) @ point))
            got = adjusted(values.tolist(), drawn.T.tolist(), at)
            assert got is not None
            self.assertAlmostEqual(got.mean, point @ slopes, places=6)
            self.assertAlmostEqual(got.half or 0.0, student_quantile(count - 4) * error, places=6)


def spread(deviation: float, deals: int) -> Estimate:
    """An estimate from so many deals of that standard deviation."""
    return Estimate(0.0, student_quantile(deals - 1) * deviation / math.sqrt(deals), deals)


@needs_study
class Sizes(unittest.TestCase):
    def test_how_many_values_tell_a_difference(self) -> None:
        # From printed tables of the power of Student's test: a difference of one standard deviation
        # needs 10 pairs, of half of one 34, of a fifth of one 199. So does a pilot of any size
        # whose upper limit of the standard deviation is that one: of the variance it is 7 / 3.822
        # and 24 / 18.062 times what it has, by tables of chi-squared.
        for deals, times in ((8, 7 / 3.822), (25, 24 / 18.062)):
            value = spread(1.0 / math.sqrt(times), deals)
            for difference, count in ((1.0, 10), (0.5, 34), (0.2, 199)):
                found = deals_to_detect(value, difference)
                assert found is not None
                self.assertLessEqual(abs(found - count), 1)
        self.assertIsNone(deals_to_detect(Estimate(7.0, None, 1), 1.0))
        self.assertEqual(deals_to_detect(estimate([3.0] * 4), 1.0), 2)
        self.assertEqual(deals_to_detect(spread(1.0, 8), 1e6), 2)

    def test_small_pilots_seldom_promise_too_much(self) -> None:
        """Of 300 pilots of 8 deals at most 25 % lead to a study with a power below 80 %, and at
        most 10 % to one below 60 %."""
        source, low, lower = random.Random(7), 0, 0
        for _ in range(300):
            found = deals_to_detect(estimate([source.gauss(0.0, 1.0) for _ in range(8)]), 0.25)
            assert found is not None
            low += power(found, 0.25) < 0.8
            lower += power(found, 0.25) < 0.6
        self.assertTrue(40 <= low <= 75, low)
        self.assertLessEqual(lower, 30)
