"""The worth of a seat's best plan at given prices: trips for its eight clients from its holdings,
where each further unit has to be bought.

The search is exact if it ends within its limit, and otherwise says by how much it may be wrong.
Held goods are priced between 0 and the cost of a further unit; at such prices each client takes its
best trip by itself, and the sum is an upper bound of every plan. The prices are moved until the
bound is low. Then the search tries all plans that could still be better than the best known one:
each client has few trips left that cost no more than the distance between the two.
"""

from collections import Counter
from dataclasses import dataclass, field
from functools import lru_cache
from itertools import count
from operator import add, itemgetter, sub
from typing import Dict, List, Optional, Sequence, Tuple

from geesefuton.records.games import GOODS, PACKAGES, TICKETS, Client, Package
from geesefuton.records.rules import PENALTY

NEVER = 1751  # dollars, more than any trip is worth: the price of what cannot be had
START = 100  # dollars, at most, at which a unit that is held is priced first
ROUNDS = 120  # in which these prices are moved, at most
EACH = 8  # rounds from one look for better trips to the next
KEPT = 0.5  # how much of its last direction a move keeps
PATIENCE, SHORTER = 5, 0.7  # after so many rounds that did not help moves are shorter
TRIES = 20_000  # plans and parts of plans that are tried, at most
CLOSE = 1e-6  # dollars by which sums of fractions may be wrong

_NOTHING = len(GOODS)  # a good that costs nothing: staying at home is a trip that needs it twice
_TRIPS: Tuple[Optional[Package], ...] = (None, *PACKAGES)
_GOODS: Tuple[Tuple[int, ...], ...] = tuple(
    tuple(trip.goods()) if trip else (_NOTHING, _NOTHING) for trip in _TRIPS)
# Each trip as a stay and its tickets. There are few of both, so costs are added once.
_STAY_OF = [tuple(good for good in goods if good not in TICKETS) for goods in _GOODS]
_TICKETS_OF = [tuple(good for good in goods if good in TICKETS) for goods in _GOODS]
_STAYS, _TICKETS = list(dict.fromkeys(_STAY_OF)), list(dict.fromkeys(_TICKETS_OF))
_stay_of_each = itemgetter(*map(_STAYS.index, _STAY_OF))
_tickets_of_each = itemgetter(*map(_TICKETS.index, _TICKETS_OF))


@dataclass(frozen=True)
class Plan:
    """A plan for a seat."""

    # what its trips are worth, less what is still to be bought and what tickets short cost, in
    # dollars
    value: int
    packages: Tuple[Optional[Package], ...]  # the trip of each client; None for staying at home
    missing: Tuple[int, ...]  # how many units of each good are still to be bought for the trips
    bound: int  # no plan is worth more; `value` where the search was exact
    # those of what is held, by which the bound was found
    prices: Tuple[float, ...] = field(compare=False, repr=False)


@lru_cache(maxsize=1024)
def _worths(client: Client) -> List[int]:
    return [client.worth(trip) for trip in _TRIPS]


def _costs(prices: Sequence[float]) -> List[float]:
    price = [*prices, 0.0].__getitem__
    stays = [sum(map(price, goods)) for goods in _STAYS]
    tickets = [sum(map(price, goods)) for goods in _TICKETS]
    return list(map(add, _stay_of_each(stays), _tickets_of_each(tickets)))


def best_plan(clients: Sequence[Client], held: Sequence[int], prices: Sequence[Optional[int]],
              before: Optional[Plan] = None) -> Plan:
    """The best plan of a seat.

    Args:
        clients: Its clients.
        held: Its units of the 28 goods; tickets may be below 0.
        prices: What a unit more of each good costs in dollars; None if there is none to be had.
        before: A plan of these clients from which the search begins, as one of a moment ago: it
            makes the search faster, and changes no value.
    """
    costs = [NEVER if price is None else min(price, NEVER) for price in prices]
    owed = sum(-held[good] * min(costs[good], PENALTY) for good in TICKETS if held[good] < 0)
    search = _Search(clients, [max(0, units) for units in held], costs)
    if before is not None:
        search.begin(before)
    search.lower_bound()
    is_exact = search.try_all()
    bound = search.best if is_exact else int(search.bound + CLOSE)
    need = search.need(search.trips)
    missing = tuple(max(0, need[good] - search.held[good]) for good in GOODS)
    return Plan(search.best - owed, tuple(_TRIPS[trip] for trip in search.trips), missing,
                bound - owed, tuple(search.prices))


def parts_of(trips: Sequence[Optional[Package]], held: Sequence[int]
             ) -> List[Tuple[List[int], List[int]]]:
    """For each trip its goods that are held, and those that are lacking. What is held goes first to
    the trips that lack least, so that it makes whole ones."""
    goods = [trip.goods() if trip else [] for trip in trips]
    need, free = Counter(good for each in goods for good in each), list(held)
    parts: List[Tuple[List[int], List[int]]] = [([], []) for _ in trips]
    for place in sorted(range(len(trips)), key=lambda place: sum(
            need[good] > held[good] for good in goods[place])):
        for good in goods[place]:
            parts[place][free[good] <= 0].append(good)
            free[good] -= 1
    return parts


class _Search:
    """A search for the best trips.

    Attributes:
        best: What the best trips known are worth, and `trips` what they are.
        bound: No trips are worth more, and `prices` those by which that was found.
    """

    def __init__(self, clients: Sequence[Client], held: Sequence[int],
                 costs: Sequence[int]) -> None:
        self.held, self._costs = held, costs
        self._worths = [_worths(client) for client in clients]
        self._free = [good for good in GOODS if 0 < held[good] < len(clients) and costs[good]]
        self.best, self.trips = 0, [0] * len(clients)
        self.bound = float("inf")
        self.prices: List[float] = [0 if held[good] >= len(clients) else costs[good]
                                  for good in GOODS]
        for good in self._free:
            self.prices[good] = min(START, costs[good])

    def begin(self, plan: Plan) -> None:
        """Begins with an earlier plan."""
        self._improve([_TRIPS.index(trip) for trip in plan.packages])
        for good in self._free:
            self.prices[good] = min(plan.prices[good], self._costs[good])

    def need(self, trips: Sequence[int]) -> List[int]:
        """How many units of each good trips use."""
        need = [0] * (_NOTHING + 1)
        for trip in trips:
            for good in _GOODS[trip]:
                need[good] += 1
        return need

    def lower_bound(self) -> None:
        """Moves the prices of what is held until the bound is low."""
        self._improve([0] * len(self._worths))
        step, helpless, prices, slopes = 1.0, 0, self.prices, dict.fromkeys(self._free, 0.0)
        for number in range(ROUNDS):
            value, trips = self._at(prices)
            helpless += 1
            if value < self.bound - CLOSE:
                self.bound, self.prices, helpless = value, prices, 0
            elif helpless == PATIENCE:
                step, helpless = step * SHORTER, 0
            if number % EACH == 0:
                self._improve(trips)
            if int(self.bound + CLOSE) <= self.best:
                return
            need = self.need(trips)
            slopes = {good: need[good] - self.held[good] + KEPT * slope
                      for good, slope in slopes.items()}
            prices = self._moved(prices, slopes, step * max(1.0, value - self.best))
        self._improve(self._at(self.prices)[1])

    def _moved(self, prices: List[float], slopes: Dict[int, float], gain: float) -> List[float]:
        """Other prices, which along the slopes would gain so much."""
        open_ = {good: slope for good, slope in slopes.items()
                 if (prices[good] < self._costs[good] if slope > 0 else prices[good] > 0)}
        length = sum(slope * slope for slope in open_.values()) or 1.0
        moved = prices[:]
        for good, slope in open_.items():
            moved[good] = min(self._costs[good], max(0.0, prices[good] + gain / length * slope))
        return moved

    def _at(self, prices: Sequence[float]) -> Tuple[float, List[int]]:
        """The bound at these prices, and the trips that the clients take."""
        costs, trips = _costs(prices), []
        value = sum(prices[good] * self.held[good] for good in self._free)
        for worths in self._worths:
            gains = list(map(sub, worths, costs))
            most = max(gains)
            value += most
            trips.append(gains.index(most))
        return value, trips

    def _improve(self, trips: Sequence[int]) -> None:
        """Lets one client after the other take its best trip while the others keep theirs."""
        trips, need = list(trips), self.need(trips)
        value, seen = self._value(trips, need), 0
        for client in count():
            client %= len(trips)
            for good in _GOODS[trips[client]]:
                need[good] -= 1
            gains = list(map(sub, self._worths[client], _costs(
                [0 if need[good] < self.held[good] else self._costs[good] for good in GOODS])))
            old, trips[client] = gains[trips[client]], gains.index(max(gains))
            for good in _GOODS[trips[client]]:
                need[good] += 1
            seen = 0 if gains[trips[client]] > old else seen + 1
            value += int(gains[trips[client]] - old)
            if seen >= len(trips):
                break
        if value > self.best:
            self.best, self.trips = value, trips

    def _value(self, trips: Sequence[int], need: Sequence[int]) -> int:
        worth = sum(worths[trip] for worths, trip in zip(self._worths, trips))
        return worth - sum(self._costs[good] * (need[good] - self.held[good])
                           for good in GOODS if need[good] > self.held[good])

    def try_all(self) -> bool:
        """Tries all trips that may be better than the best known; whether it came to the end."""
        costs = _costs(self.prices)
        room = self.bound - self.best - 1 + CLOSE
        self._choices: List[Tuple[int, List[Tuple[float, int]]]] = []
        for client, worths in enumerate(self._worths):
            gains = list(map(sub, worths, costs))
            most = max(gains)
            self._choices.append((client, sorted(
                (most - gain, trip) for trip, gain in enumerate(gains) if most - gain <= room)))
        self._choices.sort(key=lambda choice: len(choice[1]))
        # What each unit beyond those held costs more than at these prices.
        self._over = {good: self._costs[good] - self.prices[good] for good in self._free}
        self._need, self._tried = [0] * (_NOTHING + 1), [0] * len(self._choices)
        self._tries = 0
        return self._try(0, 0.0)

    def _try(self, place: int, lost: float) -> bool:
        """Tries the clients from a place on, where so much of the bound is lost before."""
        if place == len(self._choices):
            value = self._value(self._tried, self._need)
            if value > self.best:
                self.best, self.trips = value, list(self._tried)
            return True
        client, choices = self._choices[place]
        for slack, trip in choices:
            if self.bound - lost - slack < self.best + 1 - CLOSE:
                break
            self._tries += 1
            if self._tries > TRIES:
                return False
            more = slack
            for good in _GOODS[trip]:
                if good in self._over and self._need[good] >= self.held[good]:
                    more += self._over[good]
                self._need[good] += 1
            self._tried[client] = trip
            left = self._unused(len(self._choices) - place - 1)
            is_done = self.bound - lost - more - left < self.best + 1 - CLOSE \
                or self._try(place + 1, lost + more)
            for good in _GOODS[trip]:
                self._need[good] -= 1
            if not is_done:
                return False
        return True

    def _unused(self, clients: int) -> float:
        """What the bound counts for units that so many further clients can no longer use."""
        return sum(self.prices[good] * max(0, self.held[good] - self._need[good] - clients)
                   for good in self._over)
