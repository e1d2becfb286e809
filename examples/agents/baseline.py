#!/usr/bin/env python3
"""A baseline that is hard to beat: it plans trips at prices at which hotels will probably close.

A trip needs goods of several auctions, and is worth nothing if one is missing. This agent works
like the better agents of the competition, in six parts, each of which can be replaced.

1. Prediction (`predict`). An open hotel night closes at its quote plus a rise. The tables of rises
   are learned from games of eight such agents, by learn_baseline.py.
2. The plan (`Plan`). Each client in turn takes the trip that gains most given the others' trips,
   until no trip changes. Goods that the agent owns cost nothing.
3. Flights (`Flight`, `buy_seats`). By Bayes' rule a price's moves show how likely each bound of its
   flight is, and so how much it will rise. The agent buys planned seats once it expects a rise.
4. Hotels (`bid_for_rooms`). The n-th room of a night is worth the difference between the best plan
   with n of them and the best with n - 1. The bid lies between the predicted price and that worth.
5. Tickets (`trade`). The gain from one ticket more, and the loss from one less, are found likewise.
   The agent bids below the one and offers above the other, by a margin that shrinks.
6. Time (`round`). Flights move at every tick, and the n-th hotel closes at tick 6n. It plans anew
   after each closing and halfway to the next; if quotes are live, at every second tick.

No line says how many rooms a night has. Once every night has a price, rooms are scarce: then prices
rise by another table, seats wait for their rooms, and a room has to gain LEAST_GAIN: a night's
price is its lowest winning bid, so a lower bid lowers the price of all its rooms.
"""
from __future__ import annotations

import math
import random
import time
from functools import lru_cache
from itertools import accumulate, cycle, islice, product
from typing import Dict, List, Optional, Sequence, Tuple
try:
    from link import (HOTELS, TICKETS, Client, Link, Unanswered, inbound, outbound, room, run,
                      ticket)
except ModuleNotFoundError:  # a copy elsewhere: the package
    from geesefuton.link import *  # noqa: F403

# Rises in dollars, if 0, 1, .. 7 nights have closed, of Shanties' outer (1 and 4) and inner nights
# and Towers' outer and inner ones: if rooms are plenty, and if they are scarce.
PLENTY = ([16, 15, 13, 14, 14, 11, 9, 4], [89, 66, 52, 42, 36, 36, 28, 11],
          [68, 46, 34, 25, 23, 18, 9, 2], [129, 85, 67, 46, 30, 22, 14, 20])
SCARCE = ([58, 33, 26, 24, 16, 11, 6, 3], [24, 14, 12, 10, 8, 5, 3, 1],
          [63, 33, 26, 21, 14, 7, 5, 2], [41, 20, 15, 12, 8, 4, 1, 0])
SCARCE_QUOTE, LEAST_GAIN = 15, 250  # dollars: rooms are scarce once each night was quoted at that
SHADE = 0.25  # the part that it bids of what a room is worth beyond its predicted price
AHEAD, PATIENCE = 12, 10  # a seat waits if it is expected to rise by fewer dollars in 12 ticks
BUY, KEEP = 75, 60  # dollars: what a plan takes a ticket to cost, and one that is left to bring
LEAST_OFFER, MARGINS = 40, (40, 5)  # dollars: for a ticket; what a trade gains at first and last
NEVER, UNITS = 10 ** 6, 17  # the price of what cannot be had; the units of a good that have costs
LAST, BOUNDS = 54, range(-10, 31)  # the tick at which all is over; the bounds of flights
Goods = Tuple[int, ...]
Trip = Tuple[float, Goods]  # what a trip is worth to its client, in dollars, and the goods it uses
HOME: Trip = (0, ())
STAYS = [(arrive, depart) for arrive in range(1, 5) for depart in range(arrive + 1, 6)]
SHOWS = {stay: [tuple(ticket(kind, night) for kind, night in enumerate(nights) if night)
                for nights in product((0, *range(*stay)), repeat=3)
                if len(set(nights) - {0}) == 3 - nights.count(0)] for stay in STAYS}


@lru_cache(1 << 16)
def best_shows(values: Tuple, prices: Tuple, stay: Tuple[int, int]) -> Tuple[float, Goods]:
    """The most that tickets at these prices add to a stay of a client with these values."""
    gains = [values[place // 4] - price for place, price in enumerate(prices)]
    return max([(sum([gains[good - 16] for good in goods]), goods) for goods in SHOWS[stay]])


def span(bound: int, tick: int) -> Tuple[int, int]:
    """From what to what a flight of this bound may move at a tick: docs/GAME.md, "Flights"."""
    most = 10 + tick * (bound - 10) // LAST
    return (-10, most) if most > 0 else (most, 10) if most < 0 else (-10, 10)


DRIFTS = [[0, *accumulate(sum(span(b, tick)) / 2 for tick in range(1, LAST))] for b in BOUNDS]


class Flight:
    """A flight's price, and how likely each of its bounds is after the moves so far."""

    def __init__(self, price: int) -> None:
        self.price, self.odds = price, [1 / len(BOUNDS)] * len(BOUNDS)

    def move(self, price: int, tick: int) -> None:
        """Learns from the price after a tick; no bound is excluded, since a tick may be missed."""
        for place, (low, high) in enumerate(span(bound, tick) for bound in BOUNDS):
            self.odds[place] *= 1 / (high - low + 1) if low <= price - self.price <= high else 0.001
        total, self.price = sum(self.odds), price
        self.odds = [odd / total for odd in self.odds]

    def rising(self, tick: int) -> bool:
        """Whether waiting is expected to cost more than PATIENCE, and to save nothing first."""
        means = [sum([odd * drift[later] for odd, drift in zip(self.odds, DRIFTS)])
                 for later in range(tick, LAST)]
        return means[:AHEAD + 1][-1] - means[0] > PATIENCE and min(means) > means[0] - 2


class Plan:
    """A trip for each client. `costs[good][n]` is what a unit more costs if n are used."""

    def __init__(self, clients: Sequence[Client], costs: List[List[float]]) -> None:
        self.clients, self.costs, self.trips, self.used = clients, costs, [HOME] * 8, [0] * 28
        self.stays = [[(stay, 1000 - 100 * sum(abs(day - wish) for day, wish in zip(
            stay, (client.arrive, client.depart)))) for stay in STAYS] for client in clients]

    def copy(self) -> Plan:
        other = Plan.__new__(Plan)
        other.clients, other.stays, other.costs = self.clients, self.stays, list(self.costs)
        other.trips, other.used = list(self.trips), list(self.used)
        return other

    def worth(self) -> float:
        """What the trips are worth less what their goods cost."""
        costs = [sum(row[:used]) for row, used in zip(self.costs, self.used) if used]
        return sum([value for value, _ in self.trips]) - sum(costs)

    def best(self, number: int, prices: Sequence[float]) -> Tuple[float, Trip]:
        """What a client gains by its best trip at these prices, and that trip."""
        client, gain, goods = self.clients[number], 0, ()
        values, tickets = tuple(client.values), tuple(prices[16:])
        shanties, towers = [[0, 0, *accumulate(prices[at:at + 4])] for at in (8, 12)]
        for (arrive, depart), value in self.stays[number]:
            cheap = shanties[depart] - shanties[arrive]
            better = towers[depart] - towers[arrive] - client.premium
            extra, shows = best_shows(values, tickets, (arrive, depart))
            value += extra - prices[arrive - 1] - prices[depart + 2] - min(cheap, better)
            if value > gain:
                nights = range(room(better <= cheap, arrive), room(better <= cheap, depart))
                gain, goods = value, (inbound(arrive), outbound(depart), *nights, *shows)
        return gain, (gain + sum([prices[good] for good in goods]), goods)

    def put(self, number: int, trip: Trip) -> Trip:
        """Gives a client a trip, and returns the one that it had."""
        old, self.trips[number] = self.trips[number], trip
        for goods, units in ((old[1], -1), (trip[1], 1)):
            for good in goods:
                self.used[good] += units
        return old

    def reply(self, number: int, good: Optional[int] = None, price: float = 0) -> bool:
        """Gives a client its best trip, with a good as if that had the price; tells if it gains."""
        old = self.put(number, HOME)
        prices = [row[used] for row, used in zip(self.costs, self.used)]
        now = old[0] - sum([prices[each] for each in old[1]])
        if good is not None:
            prices[good], now = price, -math.inf
        gain, trip = self.best(number, prices)
        self.put(number, trip if gain > now else old)
        return gain > now

    def settle(self, order: Sequence[int] = range(8)) -> Plan:
        """Lets the clients reply in turn until nobody changes, and returns the plan."""
        still = 0
        for number in islice(cycle(order), 160):
            still = 0 if self.reply(number) else still + 1
            if still == len(order):
                break
        return self

    def with_units(self, good: int, units: int, more: bool = False) -> Plan:
        """The best plan with so many units of a good, for nothing: one does without or gets one."""
        plan, trials = self.copy(), []
        plan.costs[good] = [0] * units + [NEVER] * (UNITS - units)
        for number, (_, goods) in enumerate(plan.trips):
            if good not in goods if more else good in goods and plan.used[good] > units:
                trials.append(plan.copy())
                trials[-1].reply(number, good, -NEVER if more else NEVER)
        trials = sorted(trials, key=Plan.worth)[-2:] or [plan]
        return max([trial.settle() for trial in trials], key=Plan.worth)


class Baseline:
    """What the agent knows of its game, and what it does."""

    def __init__(self, link: Link, source: random.Random) -> None:
        self.link, self.clients, self.source = link, link.clients, source
        self.have = [0] * 16 + list(link.endow)  # units of each good
        self.flights = [Flight(link.quote(good).ask) for good in range(8)]
        self.open, self.quotes = set(HOTELS), dict.fromkeys(HOTELS, 0)
        self.bids: Dict[int, List[int]] = {good: [] for good in HOTELS}  # that stand
        self.scarce, self.tick, self.seen = False, -1, 0  # `seen` counts the ticks it acted in
        self.plan = Plan(self.clients, [[0] * UNITS] * 28)

    def act(self) -> bool:
        """A round. After a lost bid it reads what stands; what it holds is read with each plan."""
        try:
            return self.round()
        except Unanswered:
            for good in sorted(self.open):
                points = self.link.holding(good).points
                self.bids[good] = [price for units, price in points for _ in range(units)]
            return True

    def round(self) -> bool:
        """Acts if a tick has passed, as seats' prices tell, and tells whether the game goes on."""
        boards = [self.link.quote(good) for good in range(8)]
        moved = [board.ask for board in boards] != [flight.price for flight in self.flights]
        if boards[0].closed or self.tick >= 0 and not moved:
            return not boards[0].closed
        self.tick, self.seen = min(self.tick + 1, LAST - 1), self.seen + 1
        for good, flight in enumerate(self.flights):  # the first look may have come between moves
            flight.move(self.link.quote(good).ask, self.tick)
        quotes, hotels = dict(self.quotes), sorted(self.open)
        for good, board in [(good, self.link.quote(good)) for good in hotels]:
            self.quotes[good] = board.ask
            if board.closed:
                self.open.remove(good)
                self.have[good] = self.link.own(good)
        closing, closed = 6 * (8 - len(self.open)), len(self.open) < len(hotels)
        self.tick = min(max(self.tick, closing), closing + 5)
        self.scarce = self.scarce or min(self.quotes.values()) >= SCARCE_QUOTE
        live = self.tick % 2 == 1 and self.quotes != quotes
        if closed or live or self.tick % 6 == 3 or not self.tick:
            self.replan()
            self.bid_for_rooms()
            self.buy_seats()
        if self.tick % 2 == 0 and self.tick:
            self.trade()
        return True

    def predict(self, good: int) -> float:
        """What an open night is expected to cost, in dollars."""
        rises = (SCARCE if self.scarce else PLENTY)[2 * (good >= 12) + (good % 4 in (1, 2))]
        return max(1, self.quotes[good] + rises[8 - len(self.open)])

    def winning(self, good: int) -> int:
        """How many units win at the quote: as good as paid for, since no hotel bid is withdrawn."""
        return sum(bid > self.quotes[good] > 0 for bid in self.bids[good])

    def replan(self) -> None:
        """Takes the best of plans from different starts, one of them the last plan."""
        self.have[:8] = [self.link.own(good) for good in range(8)]
        costs = [[0] * self.have[good] + [self.flights[good].price] * UNITS for good in range(8)]
        for good in HOTELS:
            known = self.winning(good) if good in self.open else self.have[good]
            price = self.predict(good) + LEAST_GAIN * self.scarce if good in self.open else NEVER
            costs.append([0] * known + [price] * UNITS)
        costs += [[KEEP] * self.have[good] + [BUY] * UNITS for good in TICKETS]
        plans = [Plan(self.clients, costs) for _ in range(3)]
        for number, trip in enumerate(self.plan.trips):
            plans[0].put(number, trip)
        self.plan = max([plan.settle(self.source.sample(range(8), 8)) for plan in plans],
                        key=Plan.worth)

    def buy_seats(self) -> None:
        """Buys the planned seats that rise, for scarce rooms once it has these; at last all."""
        sure = [goods for _, goods in self.plan.trips if not (self.scarce and self.open & {*goods})]
        for good, flight in enumerate(self.flights):
            units = sum(good in goods for goods in sure) - self.have[good]
            if units > 0 and (self.tick and flight.rising(self.tick) or not self.open):
                self.link.bid(good, (units, flight.price + 50))

    def bid_for_rooms(self) -> None:
        """Bids for planned rooms, and for those that win, which a new bid may not give up."""
        for good in sorted(self.open):
            plan, least, winning = self.plan, LEAST_GAIN * self.scarce, self.winning(good)
            price, worths = self.predict(good), []
            for units in range(max(plan.used[good], winning), -1, -1):
                plan = plan.with_units(good, units)
                worths.append(plan.worth())
            gains = [more - less - least for more, less in zip(worths, worths[1:])]
            self.place(good, [int(min(gain, price + SHADE * max(0, gain - price), 1000))
                              for gain in gains if gain >= 1])

    def place(self, good: int, bids: List[int]) -> None:
        """Bids for a night's rooms. If that is too low, it raises what has to beat the quote."""
        bids = sorted(bids, reverse=True)
        if not bids or bids == self.bids[good]:
            return
        words = self.link.bid(good, *((1, bid) for bid in bids)).split()
        if words[1:3] == ["no", "belowquote"] and (self.winning(good) or bids[0] > int(words[4])):
            need, beaten = int(words[3]), min(int(words[4]), 10000)
            bids = [max(bid, beaten) for bid in (bids + [0] * need)[:need]] + bids[need:]
            words = self.link.bid(good, *((1, bid) for bid in bids)).split()
        self.bids[good] = bids if words[1] == "taken" else self.bids[good]

    def trade(self) -> None:
        """Bids for one more of each ticket and offers one, at what that changes in these stays."""
        self.have[16:] = [max(0, self.link.own(good)) for good in TICKETS]
        costs = [[0] * have + [NEVER] * UNITS for have in self.have[16:]]
        plan = Plan(self.clients, [[0] * UNITS] * 16 + costs)
        for number, (_, goods) in enumerate(self.plan.trips):
            plan.stays[number] = [(stay, value) for stay, value in plan.stays[number]
                                  if goods[:2] == (inbound(stay[0]), outbound(stay[1]))]
        plan = max([plan.copy().settle(self.source.sample(range(8), 8)) for _ in range(8)],
                   key=Plan.worth)
        margin = MARGINS[0] + (MARGINS[1] - MARGINS[0]) * self.tick / LAST
        for good, have in zip(TICKETS, self.have[16:]):
            more = plan.with_units(good, have + 1, more=True).worth() - plan.worth() - margin
            points = [(1, int(more))] if more >= 1 else []
            if have:
                less = plan.worth() - plan.with_units(good, have - 1).worth() + margin
                price = max(LEAST_OFFER, math.ceil(less))
                points = [point for point in points if point[1] < price] + [(-1, price)]
            if max(0, self.link.own(good)) == have:  # else an offer might sell what is sold by now
                self.link.bid(good, *points) if points else self.link.ask(f"withdraw {good}")


def wait(pause: float, elapsed: float, looks: int) -> float:
    """The seconds to the next look: more once they are many, so that the lines of a link last."""
    return max(pause / 3, elapsed / 500 if looks > 1500 else 0.0)


def play(link: Link, pause: float) -> None:
    agent, begun, looks = Baseline(link, random.Random(random.random())), time.monotonic(), 0
    while agent.act():
        time.sleep(wait(pause, time.monotonic() - begun, looks))
        looks += 1
    print(f"agent {link.agent} planned {sum(trip != HOME for trip in agent.plan.trips)} trips, has "
          f"{sum(agent.have[:8])} seats, {sum(agent.have[8:16])} rooms, cash {link.cash()}, "
          f"missed {max(0, LAST - agent.seen)} of {LAST} ticks")


if __name__ == "__main__":
    run(__doc__.splitlines()[0], play)
