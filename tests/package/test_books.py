"""The books of games, beside logs of the proved program and on worked examples; and the ticks of a
log's entries, and prices over them."""

import unittest
from collections import defaultdict
from dataclasses import replace
from typing import Dict, List, Optional, Tuple

from geesefuton.records.books import Books, FlightBook, NightBook, TicketBook
from geesefuton.records.games import FLIGHTS, GOODS, HOTELS, SEATS, TICKETS, TICKS, Game
from geesefuton.records.logs import Call, Entry, Post, Trade
from geesefuton.records.replies import Own
from geesefuton.records.rules import next_price, prices_of
from geesefuton.records.ticks import (MarketEvent, all_events, entries_by_tick, events_of,
                                      ticks_by_log)
from tests.package.entries import GAMES, bid, by_clock, refused, withdrawal
from tests.package.helpers import served_game, served_log
from tests.package.journals import GAME

TICKET, PUBLISH, CLOSE = TICKETS[0], by_clock("publish"), by_clock("close")


class Logs(unittest.TestCase):
    """Games that are kept as data."""

    def test_prices_are_those_of_the_tick_and_in_the_end_plans_are_worth_the_scores(self) -> None:
        for game, log in GAMES:
            books = Books(game)
            for tick, entries in enumerate(entries_by_tick(ticks_by_log(game, log), log)):
                for good, _, entry in entries:
                    books.take(good, entry)
                self.assertEqual(books.tick, min(tick, 53))
                if tick == TICKS:
                    break
                prices = books.prices_for(0)
                self.assertEqual([prices[good] for good in FLIGHTS],
                                 [prices_of(flight)[tick] for flight in game.flights])
                self.assertEqual([prices[good] is None for good in HOTELS],
                                 [hotel.closes <= tick for hotel in game.hotels])
            self.assertEqual(books.cash, [score.cash for score in log.scores])
            self.assertEqual([-sum(units for units in held if units < 0)
                              for held in books.holdings], [score.short for score in log.scores])
            self.assertEqual([books.cash[agent] + books.plan(agent).value
                              for agent in range(SEATS)], [score.score for score in log.scores])
            self.assertEqual(books.prices_for(0), [None] * 28)
            self.assertEqual([is_closed for *_, is_closed in books.boards], [True] * 28)
            self.assertEqual(books.at_the_end().cash, books.cash)

    def test_the_ticks_of_entries_only_grow(self) -> None:
        for game, log in GAMES:
            for good, ticks in enumerate(ticks_by_log(game, log)):
                self.assertEqual((len(ticks), ticks), (len(log.histories[good]), sorted(ticks)))
                if good in TICKETS:
                    self.assertEqual(ticks[-1], TICKS)

    def test_events_have_the_prices_of_their_ticks_and_add_up_to_the_cash(self) -> None:
        game, log = served_game(), served_log()
        told: Dict[Tuple[str, int], List[Tuple[Optional[int], int]]] = defaultdict(list)
        cash, paths = [0] * SEATS, [prices_of(flight) for flight in game.flights]
        for event in all_events(game, log):
            told[event.what, event.good].append((event.tick, event.dollars))
            if event.what == "trade" and event.agent is not None:
                cash[event.agent] -= (event.units or 0) * event.dollars
        self.assertEqual(cash, [score.cash for score in log.scores])
        for good, path in zip(FLIGHTS, paths):
            self.assertEqual(told["price", good], list(enumerate(path)))
            self.assertLessEqual(set(told["trade", good]), set(enumerate(path)))
        self.assertTrue(any(told["trade", good] for good in FLIGHTS))
        for good in HOTELS:
            self.assertEqual([tick for tick, _ in told["close", good]],
                             [game.hotels[good - 8].closes])
            self.assertLessEqual(set(told["trade", good]), set(told["close", good]))


class Auctions(unittest.TestCase):
    def test_equal_hotel_bids_go_to_the_earlier_one(self) -> None:
        night = NightBook(3, False)
        night.bid(4, ((2, 50),))
        night.bid(1, ((1, 50), (1, 60)))
        night.bid(2, ((1, 50),))
        self.assertEqual(night.board(), (0, 0))
        night.publish()
        self.assertEqual(night.board(), (0, 50))
        night.bid(4, ((2, 50),))  # now it is the latest
        self.assertEqual(night.close(), [(1, 2, 50), (2, 1, 50)])

    def test_rooms_that_are_left_cost_nothing(self) -> None:
        night = NightBook(3, True)
        night.bid(0, ((2, 50),))
        self.assertEqual((night.close(), night.is_closed), ([(0, 2, 0)], True))

    def test_tickets_trade_at_the_standing_price_and_never_with_oneself(self) -> None:
        tickets = TicketBook()
        for agent, points in ((0, ((-1, 60),)), (1, ((-2, 50),)), (2, ((-1, 50),))):
            self.assertEqual(tickets.bid(agent, points), [])
        self.assertEqual(tickets.board(), (0, 50))
        self.assertEqual(tickets.bid(1, ((3, 55),)), [(1, 1, 50), (2, -1, 50)])
        self.assertEqual(tickets.board(), (55, 60))
        self.assertEqual(tickets.bid(3, ((-1, 40), (-1, 56))), [(3, -1, 55), (1, 1, 55)])
        tickets.withdraw(1)
        tickets.withdraw(3)
        self.assertEqual(tickets.board(), (0, 60))

    def test_a_seat_waits_for_its_price(self) -> None:
        flight = FlightBook([300, 290, 310])
        self.assertEqual(flight.bid(2, ((1, 300), (2, 295), (1, 280))), [(2, 1, 300)])
        for book in (flight.copied(), flight):
            self.assertEqual(book.move(290), [(2, 2, 290)])
        flight.withdraw(2)
        self.assertEqual((flight.move(310), flight.board()), ([], (0, 310)))

    def test_the_ask_is_that_of_the_last_unit_that_gets_a_room(self) -> None:
        # Three units stand at 90, 70 and 50 dollars, and a fourth at 50.
        for rooms, ask, sold in ((1, 90, 1), (2, 70, 2), (3, 50, 3), (4, 50, 4), (5, 0, 4)):
            night = NightBook(rooms, False)
            self.assertEqual((night.ask(), night.sold()), (0, 0))
            for agent, points in ((0, ((1, 10),)), (0, ((2, 50), (1, 90))), (3, ((1, 70),))):
                night.bid(agent, points)
            self.assertEqual((night.ask(), night.sold()), (ask, sold))


class Costs(unittest.TestCase):
    """What goods cost, call by call."""

    def test_a_ticket_costs_the_lowest_that_another_agent_asks(self) -> None:
        selling = bid(0, (-1, 50))
        for entries, due in (
                ([], [None, None, None]),
                ([bid(0, (-2, 90), (1, 20)), bid(1, (-1, 80))], [80, 90, 80]),
                ([selling, bid(0, (-1, 70))], [None, 70, 70]),
                ([selling, withdrawal(0)], [None, None, None]),
                ([selling, bid(0, (-1, 10), reply=refused("selfcross"))], [None, 50, 50]),
                ([bid(0, (-1, 50), (-1, 60)), bid(1, (1, 55))], [None, 60, 60]),
                # Who sells to a standing bid keeps what nobody took.
                ([bid(1, (1, 55)), bid(0, (-1, 90), (-1, 40))], [None, 90, 90])):
            books = Books(served_game())
            for entry in entries:
                books.take(TICKET, entry)
            self.assertEqual([books.prices_for(agent)[TICKET] for agent in (0, 1, 2)], due)
        books = Books(GAME)
        books.take(20, bid(1, (-1, 90)))
        self.assertEqual(books.prices_for(0)[20:22], [90, None])
        books.take(20, bid(0, (1, 95), trades=(Trade(0, 1, 1, 90),)))
        self.assertEqual((books.cash[:2], books.holdings[0][20] - GAME.endow[0][4],
                          books.holdings[1][20] - GAME.endow[1][4]), ([-90, 90], 1, -1))

    def test_a_hotel_costs_what_was_published(self) -> None:
        low = bid(2, (2, 90), reply=refused("belowquote 1 51 0"))
        for live, other, due in (
                (False, bid(1, (1, 70)), [0, 50, 50, 50, 50, None]),
                (True, bid(1, (1, 70)), [50, 50, 50, 50, 50, None]),
                (False, bid(1, (2, 70)), [0, 50, 50, 50, 70, None]),
                (True, bid(1, (2, 70)), [50, 50, 70, 70, 70, None])):
            books, costs = Books(GAME.with_rooms([2] * 8, live)), list[Optional[int]]()
            for entry in (bid(0, (2, 50)), PUBLISH, other, low, PUBLISH, CLOSE):
                books.take(8, entry)
                costs.append(books.prices_for(0)[8])
            self.assertEqual(costs, due)

    def test_what_stands_trades_before_the_end_if_nobody_asks_more(self) -> None:
        game = served_game()
        books, good = Books(game), game.closing[0]
        books.bid(3, good, ((1, 90),))
        end = books.at_the_end()
        self.assertEqual((books.tick, books.cash[3], books.holdings[3][good]), (0, 0, 0))
        self.assertEqual((end.tick, end.holdings[3][good]), (54, 1))
        self.assertIsNone(end.prices_for(0)[good])


class Events(unittest.TestCase):
    """Prices and trades of some entries."""

    def events(self, good: int, *entries: Entry, game: Game = served_game()) -> List[MarketEvent]:
        return list(events_of(game, good, entries, Books(game)))

    def test_prices_of_hotels_are_those_that_are_published(self) -> None:
        """By the minute by the clock alone, and live by each admitted bid, too. Hotel 8 has two
        rooms and closes second."""
        low = bid(3, (5, 500), reply=refused("belowquote 1 51 0"))
        wrong, withdraw = (Entry(0, Call(do), refused("wrongcall"))
                           for do in ("publish", "withdraw"))  # an agent's
        own = Entry(0, Call("own"), Own(None, 0, ((2, 50),)))
        for live, entries, *due in (
                (False, [bid(0, (1, 50)), bid(1, (1, 60)), PUBLISH, bid(2, (1, 90)), CLOSE],
                 ("price", 6, 50, 2), ("close", 12, 60, 4)),
                (False, [PUBLISH, bid(0, (1, 50))], ("price", 6, 0, 0)),
                (True, [bid(0, (1, 50)), bid(1, (1, 60)), low, PUBLISH, bid(0, (1, 70))],
                 ("price", 0, 50, 1), ("price", 6, 50, 3), ("price", 6, 60, 4)),
                (False, [bid(0, (2, 50)), bid(0, (1, 80)), PUBLISH], ("price", 6, 0, 2)),
                (False, [bid(0, (2, 50)), wrong]),
                (True, [bid(0, (2, 50)), own, withdraw, PUBLISH],
                 ("price", 0, 50, 0), ("price", 6, 50, 3))):
            game = served_game().with_rooms([2] * 8, live)
            game = replace(game, closing=(9, 8, *range(10, 16)))
            with self.subTest(live=live, due=due):
                got = [(event.what, event.tick, event.dollars, event.position)
                       for event in self.events(8, *entries, game=game)]
                self.assertEqual(got, [("price", 0, 0, None), *due])

    def test_trades_are_those_of_agents_on_both_sides(self) -> None:
        for trade, *due in ((Trade(4, 2, 1, 70), (4, 1, 70), (2, -1, 70)),
                            (Trade(8, 4, 1, 70), (4, -1, 70))):  # the house has none of its own
            got = self.events(20, bid(2, (-1, 60), trades=(trade,)))
            self.assertEqual(got, [MarketEvent("trade", None, 20, 0, *each) for each in due])

    def test_updates_of_a_flight_move_its_price_by_their_draws(self) -> None:
        flight = served_game().flights[3]
        first = flight.first
        second = next_price(flight, first, 1, 12345)
        bought = bid(4, (2, 800), trades=(Trade(4, 8, 2, second),))
        got = self.events(3, by_clock("update", tick=1, draw=12345), bought)
        self.assertEqual(got, [MarketEvent("price", 0, 3, None, None, None, first),
                               MarketEvent("price", 1, 3, 0, None, None, second),
                               MarketEvent("trade", 1, 3, 1, 4, 2, second)])
        wrong = Entry(4, Call("update", (), 1, 12345), refused("wrongcall"))  # an agent's
        self.assertEqual([(event.tick, event.position) for event in self.events(3, wrong, bid(4))],
                         [(0, None)])

    def test_tickets_have_the_tick_of_the_last_flight_or_room_that_was_paid_before(self) -> None:
        def update(tick: int) -> Entry:
            return by_clock("update", tick=tick)

        selling = (bid(1, (-1, 5)), bid(2, (1, 5)))
        histories = {0: (update(1), update(2), bid(1, (1, 900)), update(3)),
                     1: (update(1), bid(1, (1, 900))),
                     8: (bid(0, (1, 9)), PUBLISH, bid(0, (1, 19))),
                     20: (*selling, bid(3, (1, 5)), CLOSE), 21: (*selling, CLOSE),
                     22: (*selling, CLOSE)}
        posts = [(21, 1), (0, 2), (1, 1), (20, 1), (8, 2), (22, 1)]  # goods, and positions there
        log = replace(served_log(), histories=tuple(histories.get(good, ()) for good in GOODS),
                      cash=tuple(Post(2, good, at, (0,) * 9) for good, at in posts))
        ticks = ticks_by_log(GAME, log)
        self.assertEqual([ticks[good] for good in (0, 1, 8, 20, 21, 22)], [
            [1, 2, 2, 3], [1, 1], [0, 6, 6], [0, 2, 2, 54], [0, 0, 54], [0, 6, 54]])
