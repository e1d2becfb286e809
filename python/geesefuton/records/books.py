"""The books of a game: standing units, holdings, payments and boards, by docs/GAME.md.

They follow the admitted calls of a game in steps, so that nobody has to ask for an agent's
holdings, or of a log. The rules of `tac` are proved in its crates; tests check that these books
agree with it.
"""

from __future__ import annotations

import copy
from itertools import repeat
from typing import Any, Dict, List, Optional, Sequence, Set, Tuple, TypeVar, Union

from geesefuton.records.best_plans import Plan, best_plan
from geesefuton.records.games import (AUCTIONS, CLOCK, FLIGHTS, HOTELS, HOUSE, SEATS, TICKETS,
                                      TICKS, Game)
from geesefuton.records.logs import Call, Entry
from geesefuton.records.replies import No, Points
from geesefuton.records.rules import MINUTE, next_price, prices_of

Board = Tuple[int, int, bool]  # the bid, the ask, and whether the auction is closed
Side = Tuple[int, int, int]  # an agent, its units (below 0: sold), and the dollars for each


Kept = TypeVar("Kept", bound="_Book")


class _Book:
    """The state of an auction."""

    def copied(self: Kept) -> Kept:
        """A copy, which later changes of this book do not reach."""
        other = copy.copy(self)
        vars(other).update({name: copy.copy(value) for name, value in vars(self).items()})
        return other


class FlightBook(_Book):
    """A flight: one seller, who takes every bid at the price or above.

    Attributes:
        price: The price now, in dollars.
        prices: Its prices before the first tick and after each of the ticks 1 to 53, in dollars.
        bids: For each agent what stands of its bid, as units and dollars for each.
    """

    def __init__(self, prices: Sequence[int]) -> None:
        self.price, self.prices = prices[0], prices
        self.bids: Dict[int, Points] = {}

    def board(self) -> Tuple[int, int]:
        """The bid and the ask."""
        return 0, self.price

    def bid(self, agent: int, points: Points) -> List[Side]:
        """An agent's bid is admitted, and replaces its earlier one."""
        self.bids[agent] = points
        return self._sell([agent])

    def withdraw(self, agent: int) -> None:
        """What stands of an agent's bid is taken back."""
        self.bids.pop(agent, None)

    def close(self) -> None:
        """Nothing stands any more."""
        self.bids = {}

    def move(self, price: int) -> List[Side]:
        """A price comes, and takes what stands at it or above."""
        self.price = price
        return self._sell(list(self.bids)) if self.bids else []

    def _sell(self, agents: List[int]) -> List[Side]:
        trades = []
        for agent in agents:
            trades += [(agent, units, self.price)
                       for units, price in self.bids[agent] if price >= self.price]
            self.bids[agent] = tuple([point for point in self.bids[agent]
                                      if point[1] < self.price])
            if not self.bids[agent]:
                del self.bids[agent]
        return trades


class NightBook(_Book):
    """A hotel night: an ascending auction of its rooms, all sold at one price.

    Attributes:
        published: The published price in dollars.
        is_closed: Whether it is closed.
        bids: The bid of each agent, as units and dollars for each, the latest last.
    """

    def __init__(self, rooms: int, is_live: bool) -> None:
        self.published, self.is_closed = 0, False
        self._rooms, self._is_live = rooms, is_live
        self.bids: Dict[int, Points] = {}

    def board(self) -> Tuple[int, int]:
        """The bid and the ask."""
        return 0, self.published

    def bid(self, agent: int, points: Points) -> List[Side]:
        """An agent's bid is admitted, and replaces its earlier one."""
        self.bids.pop(agent, None)
        self.bids[agent] = points
        if self._is_live:
            self.publish()
        return []

    def publish(self) -> None:
        """The ask becomes the published price."""
        self.published = self.ask()

    def ask(self) -> int:
        """The price of the last unit that would get a room, in dollars; 0 if fewer units stand."""
        if not self.bids:
            return 0
        units = self._units()
        return -units[self._rooms - 1][0] if len(units) >= self._rooms else 0

    def sold(self) -> int:
        """How many rooms are sold if it closes now."""
        return min(len(self._units()), self._rooms)

    def close(self) -> List[Side]:
        """The units that precede the others get the rooms, at the ask."""
        won = [agent for _, agent in self._units()[:self._rooms]]
        self.published, self.is_closed, self.bids = self.ask(), True, {}
        return [(agent, won.count(agent), self.published) for agent in sorted(set(won))]

    def _units(self) -> List[Tuple[int, int]]:
        """The price below 0 and the agent of each unit, in the order in which they precede."""
        units = [(-price, agent) for agent, points in self.bids.items()
                 for count, price in points for _ in range(count)]
        return sorted(units, key=lambda unit: unit[0])  # at equal prices the earlier bid's first


class TicketBook(_Book):
    """The tickets of a type and night: a continuous double auction between the agents."""

    def __init__(self) -> None:
        # The standing units, each its price and agent, in the order in which they arrived.
        self._buying: List[Tuple[int, int]] = []
        self._selling: List[Tuple[int, int]] = []

    def board(self) -> Tuple[int, int]:
        """The bid and the ask."""
        return (max(self._buying)[0] if self._buying else 0,
                min(self._selling)[0] if self._selling else 0)

    def ask_for(self, agent: int) -> Optional[int]:
        """The lowest price at which another agent sells; None if none does."""
        return min((price for price, seller in self._selling if seller != agent), default=None)

    def close(self) -> None:
        """Nothing stands any more."""
        self._buying, self._selling = [], []

    def withdraw(self, agent: int) -> None:
        """What stands of an agent's bid is taken back."""
        self._buying = [unit for unit in self._buying if unit[1] != agent]
        self._selling = [unit for unit in self._selling if unit[1] != agent]

    def bid(self, agent: int, points: Points) -> List[Side]:
        """An agent's bid is admitted, and replaces its earlier one. Its new units do not meet each
        other, since those that buy are below those that sell."""
        self.withdraw(agent)
        trades = []
        for count, price in points:
            for _ in range(abs(count)):
                trades += self._arrive(agent, price, count > 0)
        return trades

    def _arrive(self, agent: int, price: int, is_buying: bool) -> List[Side]:
        others = self._selling if is_buying else self._buying
        # The first of the best: they stand in the order in which they arrived.
        best = (min if is_buying else max)((unit for unit in others if unit[1] != agent),
                                           key=lambda unit: unit[0], default=None)
        if best is None or (best[0] > price if is_buying else best[0] < price):
            (self._buying if is_buying else self._selling).append((price, agent))
            return []
        others.remove(best)
        units = 1 if is_buying else -1
        return [(agent, units, best[0]), (best[1], -units, best[0])]


class Books:
    """The books of a game.

    Attributes:
        tick: How many ticks have passed, 0 to 54.
        holdings: For each seat its units of the 28 goods; below 0 it owes them.
        cash: For each seat what it earned less what it paid, in dollars.
        moves: How many times units and cash of a seat have changed.
        boards: For each good its bid and its ask, and whether it is closed.
    """

    def __init__(self, game: Game) -> None:
        self.tick = 0
        self.holdings = [[0] * TICKETS.start + list(endow) for endow in game.endow]
        self.cash, self.moves = [0] * SEATS, 0
        self._closing, self._drawn, self.clients = game.closing, game.flights, game.clients
        self._flights = [FlightBook(prices_of(flight)) for flight in game.flights]
        self._nights = [NightBook(rooms, game.live) for rooms in game.rooms]
        self._tickets = [TicketBook() for _ in TICKETS]
        self._bid_for: Set[int] = set()  # the flights in which somebody has bid
        # The boards of all flights before the first tick and after each of the others.
        self._fares = list(zip(*[zip(repeat(0), flight.prices, repeat(False))
                                 for flight in self._flights]))
        self.boards: List[Board] = [*self._fares[0],
                                    *[(0, 0, False)] * (len(HOTELS) + len(TICKETS))]

    def bid(self, seat: int, good: int, points: Points) -> None:
        """A bid is admitted."""
        auction = self._timed(good)
        if good in FLIGHTS:
            self._bid_for.add(good)
        self._book(good, auction.bid(seat, points))
        self.boards[good] = (*auction.board(), False)

    def take(self, good: int, entry: Entry) -> None:
        """Works through the next entry of an auction in a log, whose draws and trades count."""
        call, auction = entry.call, self._auction(good)
        is_clock = entry.caller == CLOCK
        if not isinstance(entry.reply, No):
            if call.do == "bid":
                auction.bid(entry.caller, call.points)
            elif call.do == "withdraw" and not isinstance(auction, NightBook):
                auction.withdraw(entry.caller)
            elif is_clock:
                self._take_clock(good, call)
            is_closed = self.boards[good][2] or is_clock and call.do == "close"
            self.boards[good] = (*auction.board(), is_closed)
        for trade in entry.trades:
            self._book(good, [side for side in ((trade.buyer, trade.units, trade.price),
                                                (trade.seller, -trade.units, trade.price))
                              if side[0] != HOUSE])

    def _take_clock(self, good: int, call: Call) -> None:
        auction = self._auction(good)
        if isinstance(auction, FlightBook):
            if call.do == "update":
                self.tick = max(self.tick, call.tick)
                auction.move(next_price(self._drawn[good], auction.price, call.tick, call.draw))
        elif isinstance(auction, NightBook) and call.do != "close":
            auction.publish()
        if call.do == "close":
            auction.close()

    def standing(self, agent: int) -> Dict[int, Points]:
        """What stands of an agent's bids for flights and rooms, by goods: units and dollars for
        each."""
        books: List[Union[FlightBook, NightBook]] = [*self._flights, *self._nights]
        return {good: book.bids[agent] for good, book in enumerate(books) if agent in book.bids}

    def prices_for(self, agent: int) -> List[Optional[int]]:
        """What a unit more of each of the 28 goods costs an agent, in dollars; None if there is
        none."""
        return [*(None if is_closed else ask for _, ask, is_closed in self.boards[:TICKETS.start]),
                *(tickets.ask_for(agent) for tickets in self._tickets)]

    def plan(self, agent: int, before: Optional[Plan] = None) -> Plan:
        """An agent's best plan at these prices, with its plan of a moment ago, if that is known."""
        return best_plan(self.clients[agent], self.holdings[agent], self.prices_for(agent), before)

    def withdraw(self, seat: int, good: int) -> None:
        """A withdrawal of a flight's or a ticket's bid is admitted."""
        auction = self._timed(good)
        assert not isinstance(auction, NightBook)
        auction.withdraw(seat)
        self.boards[good] = (*auction.board(), False)

    def advance(self) -> None:
        """A tick passes: the clock makes its calls."""
        self.tick += 1
        if self.tick == TICKS:
            for tickets in self._tickets:
                tickets.close()
            self.boards = [*((bid, ask, True) for bid, ask, _ in self.boards[:TICKETS.start]),
                           *[(0, 0, True)] * len(TICKETS)]
            return
        self.boards[:HOTELS.start] = self._fares[self.tick]
        for good in self._bid_for:
            self._book(good, self._moved(good))
        if self.tick % MINUTE == 0 and self.tick <= MINUTE * len(HOTELS):
            closing = self._closing[self.tick // MINUTE - 1]
            self._book(closing, self._nights[closing - HOTELS.start].close())
            for good, night in zip(HOTELS, self._nights):
                if not night.is_closed:
                    night.publish()
                self.boards[good] = (0, night.published, night.is_closed)

    def at_the_end(self) -> Books:
        """The books of the end of the game, if nobody asks anything more."""
        end = copy.deepcopy(self)
        while end.tick < TICKS:
            end.advance()
        return end

    def __deepcopy__(self, memory: Dict[int, Any]) -> Books:
        """The same books, which go on by themselves. What is fixed of a game is shared."""
        other = copy.copy(self)
        other.boards, other.cash, other._bid_for = self.boards[:], self.cash[:], set(self._bid_for)
        other.holdings = [held[:] for held in self.holdings]
        other._flights = [flight.copied() for flight in self._flights]
        other._nights = [night.copied() for night in self._nights]
        other._tickets = [tickets.copied() for tickets in self._tickets]
        return other

    def _timed(self, good: int) -> Union[FlightBook, NightBook, TicketBook]:
        """An auction as of this tick. A flight in which no bid stands is not updated before."""
        if good in FLIGHTS:
            self._moved(good)
        return self._auction(good)

    def _moved(self, flight: int) -> List[Side]:
        return self._flights[flight].move(self._flights[flight].prices[self.tick])

    def _auction(self, good: int) -> Union[FlightBook, NightBook, TicketBook]:
        if good in FLIGHTS:
            return self._flights[good]
        return (self._nights[good - HOTELS.start] if good in HOTELS
                else self._tickets[good - TICKETS.start])

    def _book(self, good: int, trades: List[Side]) -> None:
        self.moves += len(trades)
        for agent, units, price in trades:
            self.holdings[agent][good] += units
            self.cash[agent] -= units * price


def text_of(boards: Sequence[Board]) -> str:
    """Boards of all goods as lines of text, four goods in each; none for no boards."""
    text = ""
    for auction, (bid, ask, is_closed) in zip(AUCTIONS, boards):
        text += "" if auction.number % 4 else f"\n{auction.group:20}"
        price = f"{bid}/{ask}" if auction.number in TICKETS else str(ask)
        text += f"  {auction.name[auction.name.index(',') + 2:]} {price}{' x' if is_closed else ''}"
    return text[1:] + "\n" if boards else ""
