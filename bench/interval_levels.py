#!/usr/bin/env python3
"""How often a summary's 95 % intervals have what they should: simulated tournaments, no games.

    bench/interval_levels.py [--experiments 1000] [--deals 2 4 8 16]

Two agents play each deal twice with swapped seats. A score is its agent's mean, plus what its
seat's luck and nights and the deal's first prices add, plus a part of the deal and one of the seat
alone, with tails as long as those of Student's t with 5 degrees of freedom. The true values are
known, so the intervals of means and differences, plain and adjusted, can be counted, for

- a tournament,
- `uneven`: some deals lack one of their two games, and others are played by a third agent, too,
- `pool`: two tournaments that seat each agent once or seven times on the same deals.

At 1,000 experiments 93 to 97 % of them should have them; it ends with 1 if one is outside.
"""

import math
import random
import sys
from collections import Counter
from dataclasses import replace
from pathlib import Path
from typing import Dict, List, Optional

TOP = Path(__file__).resolve().parent.parent
sys.path.insert(0, str(TOP / "python"))

from geesefuton.arguments import Parser, whole
from geesefuton.experiments.comparisons import Estimate
from geesefuton.experiments.covariates import MEAN_FIRST_PRICE, MEAN_LUCK, MEAN_NIGHTS
from geesefuton.experiments.joining import Source, pooled
from geesefuton.experiments.results import Kind, Outcome, Row
from geesefuton.experiments.summary import summarize
from geesefuton.processes import command

MEANS = {"a": 4000.0, "b": 3600.0, "c": 3700.0}  # dollars, of draws like those of all made games
LOW, HIGH = 0.93, 0.97


def tailed(source: random.Random) -> float:
    """A number of variance 1 with long tails."""
    return source.gauss(0.0, 1.0) / math.sqrt(source.gammavariate(2.5, 2.0) / 3.0)


class Deals:
    """Deals that are drawn once."""

    def __init__(self, source: random.Random, count: int) -> None:
        self._source = source
        self.deals = []
        for _ in range(count):
            first_price = source.gauss(MEAN_FIRST_PRICE, 15.0)
            of_deal = 200.0 * tailed(source) - 8.0 * (first_price - MEAN_FIRST_PRICE)
            self.deals.append((first_price, of_deal, [
                (source.gauss(MEAN_LUCK, 350.0), source.gauss(MEAN_NIGHTS, 0.35))
                for _ in range(8)]))

    def rows(self, deal: int, rotation: int, lineup: str, settings: str = "") -> List[Row]:
        """The rows of a game, whose agents move on by a seat with each deal and rotation."""
        first_price, of_deal, drawn = self.deals[deal]
        rows = []
        for seat, (luck, nights) in enumerate(drawn):
            agent = lineup[(seat + rotation + deal) % len(lineup)]
            score = (MEANS[agent] + of_deal + (luck - MEAN_LUCK)
                     - 400.0 * (nights - MEAN_NIGHTS) + 500.0 * tailed(self._source))
            rows.append(Row(deal=str(deal), rotation=rotation, seat=seat, agent=agent,
                            score=round(score), end=Outcome.PLAYED, luck=round(luck),
                            kind=Kind.TURNS, nights=nights, first_price=first_price,
                            settings=settings, files=agent))
        return rows


def tournament(source: random.Random, count: int) -> List[Row]:
    """Each deal twice, with swapped seats."""
    deals = Deals(source, count)
    return [row for deal in range(count) for rotation in range(2)
            for row in deals.rows(deal, rotation, "ab")]


def uneven(source: random.Random, count: int) -> List[Row]:
    """A third of the deals more, of which one game each was lost, and a third agent in half."""
    deals = Deals(source, count + count // 3)
    rows = []
    for deal in range(len(deals.deals)):
        for rotation in range(2 if deal < count else 1):
            rows += deals.rows(deal, rotation, "ab")
        if deal < count and deal % 2 and count > 2:
            rows += [replace(row, rotation=2) for row in deals.rows(deal, 0, "c")]
    return rows


def pool(source: random.Random, count: int) -> List[Row]:
    """Two tournaments on the same deals: one `a` among seven `b`, and one `b` among seven `a`."""
    deals = Deals(source, count)
    rows, refused = pooled([Source(name, [
        row for deal in range(count) for row in deals.rows(deal, 0, lineup, f"agents={name}")])
        for name, lineup in (("few", "bbbbbbba"), ("many", "aaaaaaab"))])
    assert not refused, refused
    return rows


def main() -> int:
    parser = Parser("interval_levels", __doc__ or "")
    parser.add_argument("--experiments", type=whole(1), default=1000, metavar="N",
                        help="how many experiments (default: 1000)")
    parser.add_argument("--deals", type=whole(2), nargs="+", default=[2, 4, 8, 16], metavar="N",
                        help="deals of each (default: 2 4 8 16)")
    parser.add_argument("--seed", type=int, default=1, help="seed of the draws (default: 1)")
    given = parser.parse_args()
    source, are_right = random.Random(given.seed), True
    for count in given.deals:
        for play in (tournament, uneven, pool):
            hits: Counter[str] = Counter()
            tries: Dict[str, int] = Counter()

            def look(name: str, value: Optional[Estimate], true: float) -> None:
                if value is not None and value.half is not None:
                    tries[name] += 1
                    hits[name] += abs(value.mean - true) <= value.half

            for _ in range(given.experiments):
                summary = summarize(play(source, count))
                for standing in summary.standings:
                    true = MEANS[standing.agent[0]]
                    look("means", standing.score, true)
                    look("adjusted means", standing.adjusted, true)
                for pair in summary.differences:
                    true = MEANS[pair.first[0]] - MEANS[pair.second[0]]
                    look("differences", pair.score, true)
                    look("adjusted differences", pair.adjusted, true)
            for name, number in sorted(tries.items()):
                share = hits[name] / number
                are_right &= LOW <= share <= HIGH
                print(f"{play.__name__} of {count} deals, {name}: {100 * share:.1f} % of {number}",
                      flush=True)
    return 0 if are_right else 1


if __name__ == "__main__":
    sys.exit(command("interval_levels", main))
