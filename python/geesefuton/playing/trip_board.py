"""The board of trips of a seat: for each client the trip of the seat's best plan at the prices of
the moment, with each flight and night that is held, bid for, still to be had, or impossible.

A plan counts each room once, in whichever hotel it is, and uses those that are bid for: so what the
seat holds or bids for beyond the plan is of no use to any client. The board also keeps what each
decision of the seat cost: by how much less its plans were worth after it.
"""

from __future__ import annotations

from collections import Counter
from operator import add
from typing import Any, Dict, List, NamedTuple, Optional, Sequence, Tuple

from geesefuton.playing.answers import title_of
from geesefuton.records.best_plans import Plan, best_plan, parts_of
from geesefuton.records.games import FLIGHTS, GOODS, HOTELS, TICKETS, Client, Package

MOST = 3  # decisions that are told
KEPT = 6  # plans that are kept
HELD, BID, OPEN, NONE = range(4)  # what is known of a flight or a night of a trip

Prices = Sequence[Optional[int]]


class Moment(NamedTuple):
    """What a seat knows: its units of the 28 goods, what a unit more of each costs, its cash, the
    best plan with these, and what each auction asks or has closed at."""

    held: Sequence[int]
    prices: Prices
    cash: int
    plan: Plan
    asks: Sequence[int] = ()

    @property
    def worth(self) -> int:
        """What the plan is worth with the cash."""
        return self.cash + self.plan.value


class TripBoard:
    """The board of a seat. Unless it plans, it shows each client on its own days."""

    def __init__(self, has_plan: bool) -> None:
        self._has_plan, self._clients = has_plan, list[Client]()
        self._before: Optional[Moment] = None
        self._costs: List[Tuple[int, str]] = []  # what decisions cost, and sentences that tell it
        self._waited, self._until = 0, 0
        self._plans: Dict[Tuple[Optional[int], ...], Plan] = {}  # the last ones, by what is known

    def follow(self, told: Dict[str, Any]) -> Dict[str, Any]:
        """What the board shows of a seat's state, which is a later one than the last."""
        clients = [Client(arrive, depart, premium, (first, second, third))
                   for arrive, depart, premium, first, second, third in told["clients"]]
        if clients != self._clients:
            self._clients, self._before, self._costs = clients, None, []
            self._waited, self._plans = 0, {}
        held = [units for units, _ in told["goods"]]
        bids = [sum(units for units, price in points if units > 0 and (
            good not in HOTELS or price >= ask)) for good, ((_, points), (_, ask, _))
            in enumerate(zip(told["goods"], told["quotes"]))]
        prices = [_price(good, quote, told["goods"][good][1])
                  for good, quote in enumerate(told["quotes"])]
        now = self._moment(held, prices, told["cash"])._replace(
            asks=[ask for _, ask, _ in told["quotes"]])
        if told["settled"] and self._before != now:
            if self._before is not None:
                self._judge(self._before, now, told["tick"])
            self._before = now
        # Bids for rooms cannot be taken back: so the trips that are shown use what they would win.
        won = [units * (good in HOTELS) for good, units in enumerate(bids)]
        above = [price if price is None else price + (good in HOTELS)  # as a new bid has to be
                 for good, price in enumerate(prices)]
        cost = sum(units * (price or 0) for units, price in zip(won, prices))
        hoped = self._moment(list(map(add, held, won)), above, told["cash"] - cost)
        return self._shown(hoped._replace(held=held, prices=prices), bids)

    def _moment(self, held: Sequence[int], prices: Prices, cash: int) -> Moment:
        key = (*held, *prices)
        if key not in self._plans:
            before = self._before and self._before.plan
            self._plans = dict(list(self._plans.items())[-KEPT:])
            self._plans[key] = best_plan(self._clients, held, prices, before)
        return Moment(held, prices, cash, self._plans[key])

    def _judge(self, before: Moment, now: Moment, tick: int) -> None:
        """Keeps what was lost since the last moment, and by what: by what was bought, at the prices
        of before; by what was won or not, at that of the closing; and by flights that were waited
        for."""
        closed = [good for good in HOTELS if now.prices[good] is None is not before.prices[good]]
        prices = [None if good in closed else price for good, price in enumerate(before.prices)]
        traded = self._moment(now.held, prices, now.cash)
        won = [new - old for old, new in zip(before.held, now.held)]
        if closed:
            first = self._moment(before.held, [now.asks[good] if good in closed else price for
                                               good, price in enumerate(prices)], before.cash)
            self._keep(first.worth - traded.worth, f"Tick {tick}: " + "; ".join(
                f"{title_of(good)} closed at {now.asks[good]}, you won {won[good]} and "
                f"{first.plan.missing[good]} would have been best" for good in closed))
        elif any(won):
            self._keep(before.worth - traded.worth, f"Tick {tick}: you " + ", ".join(
                f"{'bought' if units > 0 else 'sold'} {abs(units)} of {title_of(good)}"
                for good, units in enumerate(won) if units))
        dearer = self._moment(now.held, [*now.prices[:HOTELS.start], *prices[HOTELS.start:]],
                              now.cash)
        if any(traded.plan.missing[good] for good in FLIGHTS) and dearer.worth < traded.worth:
            self._waited, self._until = self._waited + traded.worth - dearer.worth, tick

    def _keep(self, cost: int, text: str) -> None:
        if cost > 0:
            self._costs.append((cost, text))

    def _shown(self, now: Moment, bids: Sequence[int]) -> Dict[str, Any]:
        """The trips, and how many units of each good they use."""
        plans = self._has_plan or not any(price is not None for price in now.prices)
        planned = now.plan.packages if plans else (None,) * len(self._clients)
        need = Counter(good for trip in planned if trip for good in trip.goods())
        free = [units - need[good] for good, units in enumerate(now.held)]
        wishes = [trip or _wish(client, now.prices, free)
                  for client, trip in zip(self._clients, planned)]
        asked, trips = list(bids), list[Dict[str, Any]]()
        for client, trip, wish, (held, _), (spare, _) in zip(
                self._clients, planned, wishes, parts_of(planned, now.held), parts_of(
                    [None if trip else wish for trip, wish in zip(planned, wishes)], free)):
            parts = [_part(good, now.prices[good], good in held + spare, asked)
                     for good in wish.goods()]
            trips.append({
                "planned": trip is not None, "hotel": wish.hotel, "worth": client.worth(wish),
                "cost": sum(price or 0 for _, _, price in parts),
                "parts": [part for part in parts if part[0] not in TICKETS]})
            need.update(() if plans else wish.goods())
        waited = (self._waited, f"Until tick {self._until}: you waited with flights, which became "
                                "dearer or closed")
        costs = sorted([*self._costs, *([waited] if self._waited else [])], reverse=True)
        return {"trips": trips, "need": [need[good] for good in GOODS], "plans": plans,
                "worth": now.worth, "costs": costs[:MOST]}


def _price(good: int, quote: Sequence[Any], points: Sequence[Tuple[int, int]]) -> Optional[int]:
    """What a unit more of a good costs; None if there is none, or none but the seat's own."""
    _, ask, is_closed = quote
    if is_closed or good in TICKETS and (not ask or any(
            units < 0 and price == ask for units, price in points)):
        return None
    return int(ask)


def _wish(client: Client, prices: Prices, free: Sequence[int]) -> Package:
    """A client's trip on its own days, in the hotel where less is impossible, and which is better
    for the price."""
    def loss(trip: Package) -> Tuple[int, int]:
        lacking = [prices[good] for good in trip.goods() if free[good] <= 0]
        return lacking.count(None), sum(filter(None, lacking)) - client.worth(trip)

    return min((Package(hotel, client.arrive, client.depart, (0, 0, 0)) for hotel in (1, 0)),
               key=loss)


def _part(good: int, price: Optional[int], is_held: bool, asked: List[int]
          ) -> Tuple[int, int, Optional[int]]:
    """A good of a trip, what is known of it, and its price. What is bid for is used up."""
    if is_held:
        return good, HELD, None
    if price is not None and asked[good] > 0:
        asked[good] -= 1
        return good, BID, price
    return good, NONE if price is None else OPEN, price
