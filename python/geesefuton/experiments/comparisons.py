"""Means and differences with 95 % intervals, tests, what many comparisons at once show, and, with
the libraries of the extra `study`, adjusted means and how many deals a study needs.

Intervals are Student's: they take values to be independent and approximately normal, as means over
many seats are. Few values make a wide interval. Wilcoxon's signed-rank test assumes that values are
symmetric about their middle, but not that they are normal, so a few outliers weigh no more than
other values. A command that needs the libraries asks first whether they are there.
"""

import functools
import math
from bisect import bisect_left, bisect_right
from dataclasses import dataclass
from importlib.util import find_spec
from statistics import fmean
from typing import FrozenSet, List, Optional, Sequence, Set

LEVEL = 0.95
POWER = 0.8  # how often a difference is to be told that is there
LIBRARIES = ("numpy", "scipy", "pandas")
HOW = ("install them by `apt-get install python3-numpy python3-scipy python3-pandas`, for "
       "/usr/bin/python3, or by `pip install numpy scipy pandas`")
UNITS = 4  # that there have to be for each covariate but the first
FAR = 40.0  # standard errors, by which a difference is told for sure
SURE = 100.0  # the same of few values
MOST_EXACT = 50  # values of Wilcoxon's test; above, the normal distribution is close enough


@dataclass(frozen=True)
class Estimate:
    """A mean with its interval."""

    mean: float  # the estimate
    # half the width of the 95 % interval; None where there are too few values for one
    half: Optional[float]
    count: int  # how many values it comes from


def student_outside(freedom: int, bound: float) -> float:
    """The probability of Student's t at least as far from 0 as a bound, for whole degrees of
    freedom, 1 or more, by its sum."""
    angle, odd = math.atan2(bound, math.sqrt(freedom)), freedom % 2
    square, total = math.cos(angle) ** 2, 0.0
    term = math.cos(angle) if odd else 1.0
    for power in range(odd, freedom - 1, 2):
        total += term
        term *= square * (power + 1) / (power + 2)
    inside = math.sin(angle) * total
    return max(0.0, 1.0 - (2.0 / math.pi * (angle + inside) if odd else inside))


@functools.lru_cache(maxsize=1024)
def student_quantile(freedom: int, level: float = LEVEL) -> float:
    """The bound that Student's t stays within on both sides, with the probability `level`, above 0
    and below 1."""
    low, high = 0.0, 1.0
    while student_outside(freedom, high) > 1.0 - level:
        high *= 2.0
    while high - low > 1e-13 * high:
        middle = (low + high) / 2.0
        if student_outside(freedom, middle) > 1.0 - level:
            low = middle
        else:
            high = middle
    return high


def estimate(values: Sequence[float]) -> Estimate:
    """The mean of one or more values, with its interval from two values on."""
    count, mean = len(values), fmean(values)
    if count < 2:
        return Estimate(mean, None, count)
    variance = math.fsum((value - mean) ** 2 for value in values) / (count - 1)
    half = student_quantile(count - 1) * math.sqrt(variance / count)
    return Estimate(mean, half, count)


def student_p(value: Estimate) -> Optional[float]:
    """The probability by Student's t of a mean at least as far from 0 if the true one is 0, on
    either side; None where there is no interval."""
    if value.half is None:
        return None
    if value.half == 0.0:
        return 1.0 if value.mean == 0.0 else 0.0
    freedom = value.count - 1
    return student_outside(freedom, abs(value.mean) / value.half * student_quantile(freedom))


def holm(chances: Sequence[Optional[float]]) -> List[Optional[float]]:
    """The probabilities of several comparisons, made larger so that all together show a difference
    that is not there, by one below 5 %, in at most 5 % of experiments (Holm)."""
    places = sorted((place for place, chance in enumerate(chances) if chance is not None),
                    key=lambda place: chances[place] or 0.0)
    larger: List[Optional[float]] = [None] * len(chances)
    least = 0.0
    for rank, place in enumerate(places):
        least = max(least, min(1.0, (len(places) - rank) * (chances[place] or 0.0)))
        larger[place] = least
    return larger


def bonferroni_halves(values: Sequence[Optional[Estimate]]) -> List[Optional[float]]:
    """Half the widths of intervals that all together have their true values in at least 95 % of
    experiments (Bonferroni)."""
    count = sum(value is not None and value.half is not None for value in values)
    return [None if value is None or value.half is None else
            value.half * student_quantile(value.count - 1, 1.0 - (1.0 - LEVEL) / count)
            / student_quantile(value.count - 1) for value in values]


def groups_of(count: int, apart: Set[FrozenSet[int]]) -> List[List[int]]:
    """The largest groups of things, numbered from 0, of which no two are apart, in their order."""
    groups = {frozenset(range(count))}
    for pair in apart:
        split = {group - {one} for group in groups for one in (pair if pair <= group else [-1])}
        groups = {group for group in split if not any(group < other for other in split)}
    return sorted(sorted(group) for group in groups if group)


def signed_rank_p(values: Sequence[float]) -> Optional[float]:
    """The probability, of both sides, of rank sums at least as far apart if the values lie about 0;
    None where no value differs from 0. Values of 0 are left out, and equal sizes share the mean of
    their ranks. Up to `MOST_EXACT` values it is exact; for more it is by the normal distribution,
    corrected for shared ranks and for continuity."""
    values = [value for value in values if value != 0.0]
    if not values:
        return None
    sizes = sorted(abs(value) for value in values)
    ranks = [bisect_left(sizes, abs(value)) + 1 + bisect_right(sizes, abs(value))  # doubled
             for value in values]
    above = sum(rank for rank, value in zip(ranks, values) if value > 0.0)
    if len(values) > MOST_EXACT:
        deviation = math.sqrt(sum(rank * rank for rank in ranks)) / 2.0
        far = max(0.0, abs(above - sum(ranks) / 2.0) - 1.0)  # half a rank, doubled
        return math.erfc(far / deviation / math.sqrt(2.0))
    ways = [1]  # in how many ways of the signs the ranks above 0 have each sum
    for rank in ranks:
        ways = [without + with_it for without, with_it in
                zip(ways + [0] * rank, [0] * rank + ways)]
    least = min(above, len(ways) - 1 - above)
    return min(1.0, 2 * sum(ways[:least + 1]) / sum(ways))


def missing_libraries(what: str) -> str:
    """Why something cannot be had, and how to get it, in a line; "" if all libraries are there."""
    absent = [name for name in LIBRARIES if find_spec(name) is None]
    return f"{what} need {' and '.join(absent)}: {HOW}" if absent else ""


def adjusted(values: Sequence[float], covariates: Sequence[Sequence[float]],
             at: Sequence[float]) -> Optional[Estimate]:
    """What the mean of the values of units, such as deals, would be if covariates, the most telling
    first, were as given, by a plane of least squares; None for fewer than three values, or where no
    covariate is left. One that is the same in all units, or a sum of multiples of those before it,
    is left out, and so are the last ones where there are fewer than four units for each."""
    import numpy as np
    count = len(values)
    if count < 3:
        return None
    columns, point = np.ones((count, 1)), [1.0]
    for covariate, place in zip(covariates, at):
        more = np.column_stack([columns, covariate])
        if np.linalg.matrix_rank(more) > len(point) and len(point) <= max(1, count // UNITS):
            columns, point = more, [*point, place]
    if len(point) == 1:
        return None
    directions, triangle = np.linalg.qr(columns)
    slopes = np.linalg.solve(triangle, directions.T @ values)
    rest = np.asarray(values) - columns @ slopes
    freedom = count - len(point)
    error = np.sqrt(rest @ rest / freedom) * np.linalg.norm(np.linalg.solve(triangle.T, point))
    return Estimate(float(slopes @ point), float(student_quantile(freedom) * error), count)


def power(deals: float, errors: float) -> float:
    """How often the 95 % interval of a mean of values excludes 0, where the true mean is so many
    standard deviations of a value."""
    import numpy as np
    from scipy import stats
    shift, bound = errors * math.sqrt(deals), stats.t.isf((1.0 - LEVEL) / 2.0, deals - 1)
    if shift > FAR * bound:
        return 1.0
    with np.errstate(all="ignore"):  # scipy may warn of numbers that it handles
        return float(stats.ncf.sf(bound * bound, 1, deals - 1, shift * shift))


def deals_to_detect(value: Estimate, difference: float) -> Optional[int]:
    """How many values it takes to tell a true difference, above 0, in 80 % of experiments; None
    where the estimate has no interval. The spread of few values may by chance be far too small, so
    it is taken at the upper limit that is above the true variance for 80 % of pilots."""
    if value.half is None:
        return None
    from scipy import optimize, stats
    freedom = value.count - 1
    variance = (value.half / student_quantile(freedom)) ** 2 * value.count
    limit = math.sqrt(variance * freedom / stats.chi2.ppf(1.0 - POWER, freedom))
    if limit == 0.0 or power(2, difference / limit) >= POWER:
        return 2
    least: float = optimize.brentq(lambda deals: power(deals, difference / limit) - POWER, 2,
                                   2.0 + (SURE * limit / difference) ** 2, xtol=1e-6)
    return math.ceil(least)
