#!/usr/bin/env python3
"""Bids for rooms what they are worth on average over sampled closing prices.

It follows what was published about RoxyBot, the agent of Brown University: A. Greenwald, S. Lee,
V. Naroditskiy, 'RoxyBot-06: Stochastic Prediction and Optimization in TAC Travel' (2009), and the
earlier descriptions of marginal utility bidding that it names. It was written from memory of them,
and is not that agent.

Taken from there: prices are not predicted as one number each, but as a sample of scenarios, each
with a closing price for every open hotel night. In each scenario the agent finds its best trips,
and what each room adds to them if all else has the scenario's prices: its marginal utility. It bids
for a room that at least half of the scenarios' trips use, and as much as the room adds on average
over these (sample average approximation).

Left out: the scenarios came from simulated ascending auctions between drawn clients. Here they are
drawn around the rises of baseline.py, as RISE says. Bids for all goods were chosen at once by an
integer program; here rooms are bid for night by night, and flights and tickets are those of
baseline.py, as are games with scarce rooms, whose number no line tells.
"""
from __future__ import annotations

import math
import random
import time
from typing import Dict, List, Sequence, Tuple

try:
    from link import HOTELS, TICKETS, Link, room, run
except ModuleNotFoundError:  # a copy elsewhere: the package
    from geesefuton.link import HOTELS, TICKETS, Link, room, run
from baseline import BUY, KEEP, LAST, NEVER, UNITS, Baseline, Plan, best_shows, wait

SAMPLE = 6  # scenarios
RISE = 2  # how often a drawn rise is the mean of exponential ones: the more, the nearer to the mean
PACE = 0.6  # the part of the latest rise of a quote that is expected to go on each minute
SHADE = 0.6  # the part that it bids of what a room adds beyond its predicted price
MOST = 1000  # dollars of a bid
Worths = Dict[int, List[float]]  # for hotel nights, what the first, second, .. room adds


def added(plan: Plan) -> Worths:
    """What the rooms of each night add to the trips of a plan, at the costs of further units."""
    worths: Worths = {good: [] for good in HOTELS}
    for number, client in enumerate(plan.clients):
        # The prices of what the others leave.
        own = plan.trips[number][1]
        prices = [row[used - (good in own)]
                  for good, (row, used) in enumerate(zip(plan.costs, plan.used))]
        tickets, values = tuple(prices[TICKETS[0]:]), tuple(client.values)
        gains: List[Tuple[float, Sequence[int]]] = [(0.0, ())]
        for (arrive, depart), worth in plan.stays[number]:
            worth += best_shows(values, tickets, (arrive, depart))[0]
            worth -= prices[arrive - 1] + prices[depart + 2]
            for hotel, premium in ((0, 0), (1, client.premium)):
                nights = range(room(hotel, arrive), room(hotel, depart))
                gains.append((worth + premium - sum(prices[nights[0]:nights[-1] + 1]), nights))
        gains.sort(key=lambda gain: -gain[0])
        for good in HOTELS:
            with_it = next((gain for gain, goods in gains if good in goods), -NEVER)
            without = next(gain for gain, goods in gains if good not in goods)
            worths[good].append(max(0.0, with_it + prices[good] - without))
    return {good: sorted(each, reverse=True) for good, each in worths.items()}


class Scenarios(Baseline):
    """The agent: a baseline that bids for rooms by sampled prices."""

    def __init__(self, link: Link, source: random.Random) -> None:
        super().__init__(link, source)
        self.paths: Dict[int, List[int]] = {good: [] for good in HOTELS}  # quotes by closings

    def predict(self, good: int) -> float:
        """What an open night is expected to cost, in dollars: also if its quote goes on as it did
        since the last but one closing, for as many minutes as it is expected to be open."""
        path, minutes = self.paths[good], (len(self.open) + 1) / 2
        rise = (path[-1] - path[-2:-4:-1][-1]) / (min(len(path), 3) - 1) if len(path) > 1 else 0
        return max(super().predict(good), round(self.quotes[good] + PACE * rise * minutes))

    def replan(self) -> None:
        """Plans, after a look at how the quotes moved."""
        for good in self.open:
            if len(self.paths[good]) < 8 - len(self.open):
                self.paths[good].append(self.quotes[good])
        super().replan()

    def drawn(self, good: int) -> float:
        """A closing price of an open night, in dollars."""
        quote = self.quotes[good]
        factor = sum(-math.log(1 - self.source.random()) for _ in range(RISE)) / RISE
        return max(1, round(quote + factor * (self.predict(good) - quote)))

    def scenario(self) -> Plan:
        """The best plan found at drawn prices, from the plan at predicted ones."""
        costs: List[List[float]] = [[0] * self.have[good] + [self.flights[good].price] * UNITS
                                    for good in range(8)]
        for good in HOTELS:
            known = self.winning(good) if good in self.open else self.have[good]
            price = self.drawn(good) if good in self.open else NEVER
            costs.append([0] * known + [price] * UNITS)
        costs += [[KEEP] * self.have[good] + [BUY] * UNITS for good in TICKETS]
        plan = Plan(self.clients, costs)
        for number, trip in enumerate(self.plan.trips):
            plan.put(number, trip)
        return plan.settle(self.source.sample(range(8), 8))

    def bid_for_rooms(self) -> None:
        """Bids for the rooms that the scenarios' plans use, and for those that win."""
        if self.scarce:
            super().bid_for_rooms()
            return
        plans = [self.scenario() for _ in range(SAMPLE)]
        worths = [added(plan) for plan in plans]
        for good in sorted(self.open):
            bids, price = [], self.predict(good)
            for number in range(8):
                sure = [each[good][number] for plan, each in zip(plans, worths)
                        if plan.used[good] > number]
                if 2 * len(sure) < SAMPLE:
                    break
                worth = sum(sure) / len(sure)
                bid = int(min(MOST, worth, price + SHADE * max(0.0, worth - price)))
                bids += [bid] if bid >= 1 else []
            self.place(good, bids)


def play(link: Link, pause: float) -> None:
    agent, begun, looks = Scenarios(link, random.Random(random.random())), time.monotonic(), 0
    while agent.act():
        time.sleep(wait(pause, time.monotonic() - begun, looks))
        looks += 1
    print(f"agent {link.agent} has {sum(agent.have[:8])} seats, {sum(agent.have[8:16])} rooms, "
          f"cash {link.cash()}, missed {max(0, LAST - agent.seen)} of {LAST} ticks")


if __name__ == "__main__":
    run(__doc__.splitlines()[0], play)
