#!/usr/bin/env python3
"""Predicts hotel prices as those of a competitive equilibrium, and shades its bids optimally.

It follows what was published about Walverine, the agent of the University of Michigan: S. Cheng,
E. Leung, K. Lochner, K. O'Malley, D. Reeves, J. Schvartzman, M. Wellman, 'Walverine: A Walrasian
Trading Agent' (2003). It was written from memory of that description, and is not that agent.

Taken from there: a hotel night is predicted to close at the price at which the expected demand of
all 64 clients equals the rooms. The eight own clients are known, and the other 56 have the
distribution from which they are drawn. Prices are found by tatonnement: each moves by its excess
demand, in steps that shrink. Tickets add to a stay what they are expected to bring. A bid is the
room's marginal value, shaded by what the bid would cost the agent's own other rooms.

Left out: its model of other bidders, from which it computed the shading (here that is one number,
GAP); its learned trade of tickets; and its tuning by a game of reduced profiles. Flights,
plans and tickets are those of baseline.py, and so are games with scarce rooms, whose number no line
tells.
"""
from __future__ import annotations

import random
import time
from typing import Dict, List, Tuple

try:
    from link import HOTELS, Link, run
except ModuleNotFoundError:  # a copy elsewhere: the package
    from geesefuton.link import HOTELS, Link, run
from baseline import LAST, STAYS, Baseline, wait

ROOMS, OTHERS = 16, 56  # rooms of a night; clients of the seven other agents
PREMIUMS = (50, 150)  # dollars: from what to what clients value the better hotel
SHOWS = (0, 75, 102, 107, 107)  # dollars that tickets add to a stay of 0, 1, .. nights
# Of tatonnement: its rounds, and the dollars for a room in excess at first, which shrink.
ROUNDS, STEP, SHRINK = 60, 6.0, 0.95
WEIGHT = 0.25  # of the equilibrium's price in a prediction; the rest is that of baseline.py
GAP = 12  # dollars between two bids that stand near the price of a night
MOST = 1000  # dollars of a bid
Prices = Tuple[List[float], List[float]]  # of the four nights of each hotel, Shanties first


def stays_at(prices: Prices, wish: Tuple[int, int], fares: List[float]
             ) -> Tuple[List[float], List[float]]:
    """What each of STAYS is worth to a client that prefers these days, in each hotel, without its
    premium and after all costs."""
    sums = []
    for nights in prices:
        total, each = 0.0, [0.0, 0.0]
        for price in nights:
            total += price
            each.append(total)
        sums.append(each)
    plain = [1000 - 100 * (abs(arrive - wish[0]) + abs(depart - wish[1])) + SHOWS[depart - arrive]
             - fares[arrive - 1] - fares[depart + 2] for arrive, depart in STAYS]
    shanties, towers = ([worth - each[depart] + each[arrive]
                         for worth, (arrive, depart) in zip(plain, STAYS)] for each in sums)
    return shanties, towers


class Demand:
    """The rooms that all clients are expected to want at given prices.

    Args:
        own: The preferred days and the premium of each of the agent's own clients.
        fares: What each flight is expected to cost, in dollars.
    """

    def __init__(self, own: List[Tuple[Tuple[int, int], int]], fares: List[float]) -> None:
        self.fares = fares
        self.premiums: Dict[Tuple[int, int], List[int]] = {wish: [] for wish in STAYS}
        for wish, premium in own:
            self.premiums[wish].append(premium)

    def at(self, prices: Prices) -> List[float]:
        """The rooms of each of the eight nights that are wanted."""
        wanted = [0.0] * 8
        for wish, premiums in self.premiums.items():
            shanties, towers = stays_at(prices, wish, self.fares)
            plain, better = max(shanties), max(towers)
            # A premium above this lets a client stay in Towers.
            least = max(0.0, plain) - better
            low, high = PREMIUMS
            share = min(1.0, max(0.0, (high - least) / (high - low)))
            others = OTHERS / len(STAYS)
            in_towers = others * share + sum(premium > least for premium in premiums)
            self._add(wanted, 4, STAYS[towers.index(better)], in_towers)
            if plain > 0:
                self._add(wanted, 0, STAYS[shanties.index(plain)],
                          others + len(premiums) - in_towers)
        return wanted

    @staticmethod
    def _add(wanted: List[float], first: int, stay: Tuple[int, int], clients: float) -> None:
        for night in range(*stay):
            wanted[first + night - 1] += clients


def equilibrium(demand: Demand, start: List[float]) -> List[float]:
    """The prices of the eight nights at which about as many rooms are wanted as there are."""
    prices, step, totals, count = list(start), STEP, [0.0] * 8, 0
    for number in range(ROUNDS):
        wanted = demand.at((prices[:4], prices[4:]))
        prices = [max(0.0, price + step * (rooms - ROOMS)) for price, rooms in zip(prices, wanted)]
        step *= SHRINK
        if number >= ROUNDS // 2:  # demand jumps, so prices go round the equilibrium: their mean
            totals = [total + price for total, price in zip(totals, prices)]
            count += 1
    return [total / count for total in totals]


class Equilibrium(Baseline):
    """The agent: a baseline with other predictions and other bids for rooms."""

    def __init__(self, link: Link, source: random.Random) -> None:
        super().__init__(link, source)
        self.own = [((client.arrive, client.depart), client.premium) for client in self.clients]
        self.prices, self.forecast_at = [100.0] * 8, -1

    def forecast(self) -> None:
        """Finds the equilibrium at the flights' prices of this tick."""
        if self.forecast_at != self.tick:
            fares = [float(flight.price) for flight in self.flights]
            self.prices = equilibrium(Demand(self.own, fares), self.prices)
            self.forecast_at = self.tick

    def predict(self, good: int) -> float:
        """What an open night is expected to cost, in dollars."""
        learned = super().predict(good)
        if self.scarce:
            return learned
        self.forecast()
        price = WEIGHT * self.prices[good - HOTELS[0]] + (1 - WEIGHT) * learned
        return max(1, self.quotes[good], round(price))  # whole dollars, so that sums are exact

    def bid_for_rooms(self) -> None:
        """Bids for planned rooms, and for those that win, which a new bid may not give up."""
        if self.scarce:
            super().bid_for_rooms()
            return
        for good in sorted(self.open):
            plan, winning, worths = self.plan, self.winning(good), []
            for units in range(max(plan.used[good], winning), -1, -1):
                plan = plan.with_units(good, units)
                worths.append(plan.worth())
            gains = sorted([more - less for more, less in zip(worths, worths[1:])], reverse=True)
            # Where the n-th room's bid is the price, each dollar of it is paid for n rooms.
            bids = [int(min(MOST, gain - GAP * number)) for number, gain in enumerate(gains)]
            self.place(good, [bid for bid in bids if bid >= 1])


def play(link: Link, pause: float) -> None:
    agent, begun, looks = Equilibrium(link, random.Random(random.random())), time.monotonic(), 0
    while agent.act():
        time.sleep(wait(pause, time.monotonic() - begun, looks))
        looks += 1
    print(f"agent {link.agent} has {sum(agent.have[:8])} seats, {sum(agent.have[8:16])} rooms, "
          f"cash {link.cash()}, missed {max(0, LAST - agent.seen)} of {LAST} ticks")


if __name__ == "__main__":
    run(__doc__.splitlines()[0], play)
