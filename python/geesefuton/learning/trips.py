"""Trips at given prices: what a seat still has to buy for its clients, and what the trips are
worth.

The choice is greedy: each client in turn takes the trip that gains most, and goods that the seat
holds and the clients before it did not use cost nothing. So the choice is quick, but often not the
best.
"""

from itertools import accumulate
from typing import List, NamedTuple, Sequence, Tuple

from geesefuton.records.games import GOODS, inbound, outbound, room, ticket

NEVER = 1 << 20  # dollars: the price of what cannot be had
TRIP = 1000  # dollars that a trip on the preferred days is worth
DAY = 100  # dollars less for each day's difference
STAYS = [(arrive, depart) for arrive in range(1, 5) for depart in range(arrive + 1, 6)]
Wishes = Tuple[int, ...]  # arrival, departure, premium, and the values of the ticket types


class Trips(NamedTuple):
    """Trips of a seat's clients."""

    wanted: List[int]  # how many units of each good they use
    worth: int  # what they are worth less what is still to be bought costs, in dollars


def chosen(clients: Sequence[Wishes], prices: Sequence[int], holdings: Sequence[int]) -> Trips:
    """Trips for clients, at a price in dollars for each unit of a good that is not held."""
    left, wanted, worth = list(holdings), [0] * len(GOODS), 0
    for client in clients:
        costs = [0 if units > 0 else price for units, price in zip(left, prices)]
        gain, goods = _trip(client, costs)
        worth += gain
        for good in goods:
            left[good] -= 1
            wanted[good] += 1
    return Trips(wanted, worth)


def _trip(client: Wishes, costs: Sequence[int]) -> Tuple[int, List[int]]:
    """What the best trip of a client gains at these costs, and the goods that it uses."""
    wish_in, wish_out, premium, *values = client
    flown = [TRIP - DAY * (abs(arrive - wish_in) + abs(depart - wish_out))
             - costs[arrive - 1] - costs[depart + 2] for arrive, depart in STAYS]
    best, stay, house = 0, (0, 0), 0
    for hotel in (0, 1):
        first = room(hotel, 1)
        paid = [0, 0, *accumulate(costs[first:first + 4])]  # for the nights before each day
        gains = [gain + premium * hotel + paid[arrive] - paid[depart]
                 for gain, (arrive, depart) in zip(flown, STAYS)]
        if max(gains) > best:
            best, house = max(gains), hotel
            stay = STAYS[gains.index(best)]
    if not best:
        return 0, []
    nights = list(range(*stay))
    goods = [inbound(stay[0]), outbound(stay[1]), *(room(house, night) for night in nights)]
    for kind, value in sorted(enumerate(values), key=lambda each: -each[1]):
        cost, night = min(((costs[ticket(kind, night)], night) for night in nights),
                          default=(NEVER, 0))
        if value > cost:
            best += value - cost
            goods.append(ticket(kind, night))
            nights.remove(night)
    return best, goods
