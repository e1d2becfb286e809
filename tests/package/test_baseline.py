"""The agent of examples/agents/baseline.py, in games in steps: no server and no time."""

import random
import sys
import unittest
from collections import Counter
from typing import Callable, Dict, Iterator, List, Optional, Sequence, Tuple, Type

from geesefuton.learning.market import Market
from geesefuton.learning.rivals import SeatLink
from geesefuton.link import Quote, Unanswered
from geesefuton.records.games import HOTELS, TICKETS, TICKS, Client, inbound, outbound
from geesefuton.records.drawing import made_game
from geesefuton.records.replies import Own
from tests.package.helpers import TOP, needs_program

AGENTS = TOP / "examples" / "agents"
sys.path.insert(0, str(AGENTS))

import baseline  # noqa: E402
import learn_baseline  # noqa: E402
from baseline import Baseline, Flight, Plan, best_shows, span  # noqa: E402
from equilibrium import Demand, Equilibrium, equilibrium  # noqa: E402
from scenarios import Scenarios, added  # noqa: E402

REFUSALS = ["no spent", "no syntax", "no toolong", "no auction", "no memory",
            *(f"no bid {fault}" for fault in range(1, 6)), "@7 no closed", "@7 no wrongcall",
            "@7 no nobid", "@7 no sell", "@7 no selfcross", "@7 no belowquote 1 1 0",
            "@7 no belowquote 16 10000 2", "@7 no belowquote 3 10001 0"]


class Watched(SeatLink):
    """A seat that keeps what its agent asks. `refuse` gives the reply to a call, or None where the
    market answers."""

    def __init__(self, market: Market, agent: int = 0,
                 refuse: Callable[[int], Optional[str]] = lambda good: None) -> None:
        super().__init__(market, agent, random.Random(1))
        self.market, self.refuse = market, refuse
        self.bids: List[Tuple[int, Tuple[Tuple[int, int], ...], str]] = []
        self.calls: Dict[int, int] = Counter()  # by auction
        self.lines = 0

    def ask(self, line: str) -> str:
        good = int(line.split(" ")[1])
        self.count(good)
        return self.refuse(good) or super().ask(line)

    def bid(self, good: int, *points: Tuple[int, int]) -> str:
        reply = super().bid(good, *points)
        self.bids.append((good, points, reply))
        return reply

    def own(self, good: int) -> int:
        self.count(good)
        return super().own(good)

    def quote(self, good: int) -> Quote:
        self.lines += 1
        return super().quote(good)

    def count(self, good: int) -> None:
        self.calls[good] += 1
        self.lines += 1


class Hurried(Watched):
    """A seat whose agent's offer is taken right after its first look of a tick at what it holds."""

    def __init__(self, market: Market) -> None:
        super().__init__(market)
        self.looked = [-1] * 28  # the tick of the last look

    def own(self, good: int) -> int:
        held = super().own(good)
        if good in TICKETS and self.looked[good] < self.market.books.tick:
            self.looked[good] = self.market.books.tick
            self.market.ask([(7, f"bid {good} ((1 300))"), (7, f"withdraw {good}")])
        return held


MADE = made_game(9)


def played(market: Market) -> Iterator[int]:
    """The ticks of a game, each of which passes after what is done in it."""
    for tick in range(TICKS):
        yield tick
        market.advance()


class Tables(unittest.TestCase):
    def test_each_has_four_rows_of_eight_rises(self) -> None:
        for table in (baseline.PLENTY, baseline.SCARCE):
            self.assertEqual([len(row) for row in table], [8] * 4)
            self.assertTrue(all(isinstance(rise, int) and 0 <= rise <= 1000
                                for row in table for rise in row))

    def test_a_rise_is_that_to_the_closing(self) -> None:
        # Night 8 rises from 10 to 70 dollars at tick 3, and the others stay at 0.
        quotes = [[10 if tick < 3 else 70, *[0] * 7] for tick in range(TICKS + 1)]
        seen = learn_baseline.rises(MADE, quotes, few=False)
        self.assertEqual(sum(len(rises) for rises in seen.values()),
                         sum(6 * number for number in range(1, 9)))
        self.assertEqual(seen["PLENTY", 0, 0].count(60), 3)
        few = learn_baseline.rises(MADE, quotes, few=True)
        self.assertEqual(sum(map(len, few.values())), MADE.hotels[0].closes)


class Flights(unittest.TestCase):
    def test_how_far_a_price_may_move(self) -> None:
        self.assertEqual([span(30, 54), span(10, 20), span(-10, 27), span(-10, 28), span(-10, 54)],
                         [(-10, 30), (-10, 10), (-10, 10), (-1, 10), (-10, 10)])

    def test_a_great_move_tells_a_great_bound(self) -> None:
        flight = Flight(300)
        flight.move(325, 50)  # by more than 25 only if 10 + floor(50 (x - 10) / 54) does
        likely = [bound for bound, odd in zip(baseline.BOUNDS, flight.odds) if odd > 0.01]
        self.assertEqual(likely, [bound for bound in range(-10, 31)
                                  if 10 + 50 * (bound - 10) // 54 >= 25])
        self.assertTrue(flight.rising(50))

    def test_two_ticks_at_once_exclude_nothing(self) -> None:
        flight = Flight(300)
        for tick in range(1, TICKS):
            flight.move(flight.price + 60, tick)
        self.assertAlmostEqual(sum(flight.odds), 1)
        flight.move(flight.price, 53)
        self.assertAlmostEqual(sum(flight.odds), 1)


class Plans(unittest.TestCase):
    CLIENTS = MADE.clients[0]

    def test_where_all_is_free_each_gets_the_trip_that_it_prefers(self) -> None:
        plan = Plan(self.CLIENTS, [[0] * baseline.UNITS] * 28).settle()
        for client, (value, goods) in zip(self.CLIENTS, plan.trips):
            nights = client.depart - client.arrive
            shows = sum(sorted(client.values, reverse=True)[:nights])
            # A day more costs 100 dollars, and may bring a ticket of more.
            self.assertGreaterEqual(value, 1000 + client.premium + shows)
            self.assertLessEqual(value, 1000 + client.premium + sum(client.values))
            self.assertTrue({*goods} & {*range(12, 16)} and not {*goods} & {*range(8, 12)})
        self.assertEqual(plan.worth(), sum(value for value, _ in plan.trips))

    def test_units_used_are_those_of_the_trips(self) -> None:
        costs: List[List[float]] = [[300.0] * baseline.UNITS] * 8 + [[90.0] * 17] * 8 + \
            [[60.0] * 17] * 12
        plan = Plan(self.CLIENTS, costs).settle()
        used = Counter(good for _, goods in plan.trips for good in goods)
        self.assertEqual(plan.used, [used[good] for good in range(28)])
        for good in HOTELS:
            if plan.used[good]:
                less = plan.with_units(good, plan.used[good] - 1)
                self.assertLess(less.used[good], plan.used[good])
        self.assertEqual(plan.used, [used[good] for good in range(28)])

    def test_a_client_stays_at_home_where_trips_cost_too_much(self) -> None:
        plan = Plan(self.CLIENTS, [[baseline.NEVER] * baseline.UNITS] * 28).settle()
        self.assertEqual((plan.trips, plan.worth()), ([baseline.HOME] * 8, 0))

    def test_tickets_of_a_stay_are_of_different_nights_and_types(self) -> None:
        client = Client(1, 3, 100, (150, 80, 40))
        # Two nights: the two best of three types, each less 10 dollars.
        gain, goods = best_shows(client.values, (10,) * 12, (1, 3))
        self.assertEqual((gain, len(goods)), (210, 2))
        self.assertEqual({(good - 16) // 4 for good in goods}, {0, 1})
        self.assertEqual({(good - 16) % 4 for good in goods}, {0, 1})
        self.assertEqual(best_shows(client.values, (200,) * 12, (1, 5)), (0, ()))


@needs_program
class Games(unittest.TestCase):
    def begun(self, few: bool = False) -> Market:
        """A game that has begun, which ends with its test."""
        market = Market(MADE.with_rooms([3, 4, 5, 6] * 2, True) if few else MADE)
        self.addCleanup(market.close)
        return market

    def alone(self, refuse: Callable[[int], Optional[str]] = lambda good: None, seed: int = 1,
              ticks: int = TICKS) -> Tuple[Market, Watched, Baseline]:
        """A game in which one agent bids. It looks twice a tick, in the first of them alone."""
        market = self.begun()
        seat = Watched(market, refuse=refuse)
        agent = Baseline(seat, random.Random(seed))
        for tick in played(market):
            for _ in range(2 if tick < ticks else 0):
                agent.round()
        return market, seat, agent

    def assert_allowed(self, seat: Watched) -> None:
        """Whether what was asked keeps to the limits, and is refused only where nobody can know."""
        for good, points, reply in seat.bids:
            self.assertTrue(1 <= len(points) <= 16, points)
            self.assertLessEqual(sum(abs(units) for units, _ in points), 16)
            self.assertTrue(all(1 <= price <= 10000 and units for units, price in points))
            self.assertTrue(good >= 16 or all(units > 0 for units, _ in points))
            self.assertIn(reply.split()[1], ("taken", "no"))
            self.assertTrue(" no " not in reply or " belowquote " in reply and good in HOTELS,
                            reply)
        self.assertLess(max(seat.calls.values()), 1024)
        self.assertLess(seat.lines, 65536)

    def check_limits(self, few: bool, kinds: Sequence[Type[Baseline]]) -> None:
        """Agents of some kinds play a game, and keep to the limits."""
        market = self.begun(few)
        seats = [Watched(market, agent) for agent in range(8)]
        source = random.Random(3)
        players = [kind(seat, source) for kind, seat in zip(kinds, seats)]
        for _ in played(market):
            for player in players:
                self.assertTrue(player.round())
        for player, seat in zip(players, seats):
            self.assertFalse(player.round())
            self.assertEqual(player.seen, TICKS)
            self.assert_allowed(seat)
            held = market.books.holdings[seat.agent]
            self.assertTrue(all(held[good] >= 0 for good in TICKETS))
            self.assertEqual(player.have[8:16], held[8:16])
            trips = min(sum(held[inbound(day)] for day in range(1, 5)),
                        sum(held[outbound(day)] for day in range(2, 6)), sum(held[8:16]))
            self.assertGreater(trips, 0 if few else 5)

    def test_it_and_its_kin_keep_to_the_limits(self) -> None:
        kinds: Sequence[Sequence[Type[Baseline]]] = ((Baseline,) * 3, (Equilibrium, Scenarios))
        for few in (False, True):
            for each in kinds:
                with self.subTest(few=few, kinds=each):
                    self.check_limits(few, each)

    def test_it_survives_each_refusal(self) -> None:
        for refusal in REFUSALS:
            with self.subTest(refusal=refusal):
                ticks = TICKS if refusal == "no spent" else 13  # past two closings
                market, seat, agent = self.alone(lambda good: refusal, ticks=ticks)
                self.assertFalse(agent.round())
                books = market.books
                self.assertEqual((books.cash[0], sum(books.holdings[0][:16])), (0, 0))
                self.assertLess(max(seat.calls.values()), 1024)
                self.assertTrue(all(1 <= price <= 10000 for _, points, _ in seat.bids
                                    for _, price in points))

    def test_refusals_of_one_kind_of_auction_cost_no_others(self) -> None:
        for goods, bought in ((TICKETS, range(16)), (HOTELS, range(8)), (range(8), HOTELS)):
            market, _, _ = self.alone(lambda good: "no spent" if good in goods else None)
            self.assertGreater(sum(market.books.holdings[0][good] for good in bought), 0)

    def test_it_never_sells_what_it_sold_while_it_planned(self) -> None:
        market = self.begun()
        agent = Baseline(Hurried(market), random.Random(1))
        for _ in played(market):
            agent.round()
        held = market.books.holdings
        self.assertGreater(sum(held[7][16:]), sum(market.game.endow[7]))
        self.assertTrue(all(held[0][good] >= 0 for good in TICKETS), held[0])

    def test_it_plays_on_after_lost_bids(self) -> None:
        lost: List[int] = []

        class Losing(Watched):
            """Its link is lost at each seventh bid, before or after that was taken."""

            def bid(self, good: int, *points: Tuple[int, int]) -> str:
                lost.append(good)
                if len(lost) % 14 == 0:
                    raise Unanswered("lost")
                reply = super().bid(good, *points)
                if len(lost) % 7 == 0:
                    raise Unanswered("lost")
                return reply

            def holding(self, good: int) -> Own:
                taken = [points for other, points, reply in self.bids
                         if other == good and reply.split()[1] == "taken"]
                return Own(1, self.own(good), taken[-1] if taken else ())

        market = self.begun()
        seat = Losing(market)
        agent = Baseline(seat, random.Random(1))
        for _ in played(market):
            self.assertTrue(agent.act())
        self.assertFalse(agent.act())
        self.assertGreater(len(lost), 14)
        for good in HOTELS:
            stood = [price for _, price in seat.holding(good).points]
            self.assertEqual(agent.bids[good], stood, good)
        self.assertLessEqual(max(market.books.holdings[0][:8]), 8)

    def test_with_a_seed_it_draws_from_nothing_else(self) -> None:
        played = []
        for noise in (1, 2):
            random.seed(noise)
            market, seat, _ = self.alone(seed=5)
            played.append((market.books.holdings, market.books.cash, seat.bids))
        self.assertEqual(played[0], played[1])

    def test_it_knows_the_tick_from_the_closings_if_it_missed_some(self) -> None:
        market = self.begun()
        agent = Baseline(Watched(market), random.Random(1))
        for tick in played(market):
            if tick % 7 == 0:
                agent.round()
                self.assertTrue(tick - 5 <= agent.tick <= tick, (tick, agent.tick))
        self.assertFalse(agent.round())


class Equilibria(unittest.TestCase):
    FARES = [320.0] * 8

    def test_at_lower_prices_too_many_rooms_are_wanted_and_at_higher_ones_too_few(self) -> None:
        demand = Demand([((2, 4), 100)] * 8, self.FARES)
        prices = equilibrium(demand, [100.0] * 8)

        def wanted(place: int, change: int) -> float:
            moved = [price + change * (each == place) for each, price in enumerate(prices)]
            return demand.at((moved[:4], moved[4:]))[place]

        self.assertGreater(max(prices), 60)
        for place, price in enumerate(prices):
            self.assertLess(wanted(place, 60), 16)
            self.assertTrue(price < 60 or wanted(place, -60) > 16, (place, price))

    def test_clients_that_all_want_a_night_make_it_dearer(self) -> None:
        first, last = (equilibrium(Demand([(days, 150)] * 8, self.FARES), [100.0] * 8)
                       for days in ((1, 2), (4, 5)))
        self.assertLess(first[7], last[7])
        self.assertLess(last[4], first[4])


class Worths(unittest.TestCase):
    def test_a_room_adds_what_its_trip_loses_without_it(self) -> None:
        # One client, one night of its stay, and all else too dear: the room carries the trip.
        costs: List[List[float]] = [[baseline.NEVER] * 17 for _ in range(28)]
        for good in (inbound(1), outbound(2)):
            costs[good] = [300.0] * 17
        costs[8] = [100.0] * 17
        plan = Plan([Client(1, 2, 50, (0, 0, 0))] * 8, costs).settle()
        self.assertEqual(added(plan)[8], [1000 - 600] * 8)
        self.assertEqual(set(added(plan)[9]), {0})


class Waiting(unittest.TestCase):
    def lines(self, pause: float, seconds: float) -> int:
        """How many lines its looks take in a game of so many seconds, which take no time."""
        looks, now = 0, 0.1  # its first plans take longer
        while now < seconds:
            looks, now = looks + 1, now + baseline.wait(pause, now, looks)
        return 8 * looks

    def test_the_lines_of_a_link_last(self) -> None:
        for pace in (0.1, 1, 10, 60):
            for pause in (0.0, 0.001, pace, 100.0):
                self.assertLess(self.lines(pause, TICKS * pace), 60000)

    def test_it_looks_some_times_a_tick(self) -> None:
        for pace in (0.1, 1, 10, 60):
            self.assertLessEqual(baseline.wait(pace, TICKS * pace, 9999), pace / 3)

    def test_in_turns_it_does_not_wait(self) -> None:
        for turns in (20, 80, 200):
            self.assertEqual(baseline.wait(0.0, 1000.0, TICKS * turns // 8), 0.0)
