"""The best plans of a seat's trips, and those that games in steps choose."""

import random
import unittest
from typing import Dict, List, Optional, Sequence, Tuple
from unittest import mock

from geesefuton import program
from geesefuton.learning.trips import NEVER, chosen
from geesefuton.link import solve
from geesefuton.records import best_plans
from geesefuton.records.best_plans import best_plan
from geesefuton.records.games import (GOODS, PACKAGES, Client, inbound, outbound, read_game, room,
                                      ticket)
from tests.package.helpers import needs_program, served_game

Prices = List[Optional[int]]
GAME = served_game()
OPEN: Prices = [*[300] * 8, *[90] * 8, *[70] * 12]
CLIENT, WISHES = Client(2, 4, 60, (10, 20, 90)), (2, 4, 60, 10, 20, 90)
FREE = [100] * 8 + [50] * 8 + [NEVER] * 12


def held(*goods: int) -> List[int]:
    units = [0] * 28
    for good in goods:
        units[good] += 1
    return units


def counted(clients: Sequence[Client], units: Sequence[int],
            prices: Sequence[Optional[int]]) -> int:
    """The best value over all trips of clients: for each client in turn, by what is left of the
    units that are held."""
    costs = [best_plans.NEVER if price is None else price for price in prices]
    left = {tuple(units): 0}
    for client in clients:
        trips = [(client.worth(trip), trip.goods()) for trip in PACKAGES]
        after = dict(left)
        for before, value in left.items():
            for worth, goods in trips:
                rest, gain = list(before), value + worth
                for good in goods:
                    if rest[good] > 0:
                        rest[good] -= 1
                    else:
                        gain -= costs[good]
                key = tuple(rest)
                if gain > after.get(key, -1):
                    after[key] = gain
        left = after
    return max(left.values())


def small_case(seed: int) -> Tuple[List[Client], List[int], Prices]:
    """Three clients who share a few units."""
    draw = random.Random(seed)
    clients = [Client(*sorted(draw.sample(range(1, 6), 2)), draw.randint(50, 150),
                      (draw.randint(0, 200), draw.randint(0, 200), draw.randint(0, 200)))
               for _ in range(3)]
    prices: Prices = [draw.choice([None, draw.randrange(10, 400)]) for _ in GOODS]
    return clients, held(*draw.choices(GOODS, k=5)), prices


# What the trips of `tight_case` are worth, by a program in whole numbers (test_overview.py).
OPTIMA: Dict[int, int] = {17: 3960, 25: 3762, 47: 3157}


def tight_case(seed: int) -> Tuple[List[Client], List[int], Prices]:
    """Six clients who share what there is, where the best trips are often worth one dollar more
    than others."""
    draw = random.Random(seed)
    clients = [Client(*sorted(draw.sample(range(1, 6), 2)), 50 + draw.randint(0, 2),
                      (draw.randint(0, 2), draw.randint(0, 2), draw.randint(0, 2)))
               for _ in range(6)]
    return clients, held(*draw.choices(GOODS, k=40)), [None] * len(GOODS)


class Plans(unittest.TestCase):
    def test_what_is_missing_is_bought(self) -> None:
        plan = best_plan([CLIENT], held(inbound(2), room(0, 2)), OPEN)
        # Shanties are worth 60 dollars less, and a night there is held, which saves 90.
        self.assertEqual(plan.value, 1000 + 90 - 70 - 300 - 90)
        self.assertEqual(plan.bound, plan.value)
        self.assertEqual([good for good in GOODS if plan.missing[good]],
                         [outbound(4), room(0, 3), ticket(2, 2)])

    def test_a_unit_serves_one_client(self) -> None:
        alone, both = (best_plan([CLIENT] * count, held(inbound(2)), OPEN) for count in (1, 2))
        self.assertEqual(both.value, 2 * alone.value - 300)

    def test_what_cannot_be_had_is_not_planned(self) -> None:
        prices = OPEN[:]
        for night in (room(0, 2), room(1, 2)):
            prices[night] = None
        plan = best_plan([CLIENT], [0] * 28, prices)
        self.assertEqual([plan.missing[night] for night in (room(0, 2), room(1, 2))], [0, 0])
        self.assertEqual(best_plan([CLIENT] * 8, [0] * 28, [None] * 28).value, 0)

    def test_tickets_short_are_bought_or_cost_200(self) -> None:
        for price, due in ((70, 140), (300, 400), (None, 400)):
            units, prices = [0] * 28, OPEN[:]
            units[ticket(0, 1)], prices[ticket(0, 1)] = -2, price
            plan = best_plan([CLIENT], units, prices)
            rest = best_plan([CLIENT], [0] * 28, prices).value
            self.assertEqual((plan.value, plan.bound), (rest - due,) * 2)

    def test_no_trips_are_better(self) -> None:
        for seed in range(8):
            clients, units, prices = small_case(seed)
            plan = best_plan(clients, units, prices)
            self.assertEqual((plan.value, plan.bound), (counted(clients, units, prices),) * 2)

    def test_the_last_dollar_is_found(self) -> None:
        for seed, due in OPTIMA.items():
            plan = best_plan(*tight_case(seed))
            self.assertEqual((plan.value, plan.bound), (due, due), seed)

    def test_the_trips_are_worth_what_is_said(self) -> None:
        draw = random.Random(3)
        for clients in GAME.clients:
            units = [draw.choice([0, 0, 1, 2]) for _ in GOODS]
            prices = [draw.randrange(10, 400) for _ in GOODS]
            plan = best_plan(clients, units, prices)
            worth = sum(client.worth(trip) for client, trip in zip(clients, plan.packages))
            spent = sum(count * price for count, price in zip(plan.missing, prices))
            self.assertEqual(plan.value, worth - spent)
            used = [good for trip in plan.packages if trip for good in trip.goods()]
            for good in GOODS:
                self.assertEqual(plan.missing[good], max(0, used.count(good) - units[good]))

    def test_a_search_that_ends_early_says_how_far_it_may_be(self) -> None:
        units = [2] * 28
        whole = best_plan(GAME.clients[0], units, [None] * 28)
        self.assertEqual(whole.value, whole.bound)
        with mock.patch.multiple(best_plans, ROUNDS=1, TRIES=10):
            cut = best_plan(GAME.clients[0], units, [None] * 28)
        self.assertLessEqual(cut.value, whole.value)
        self.assertGreaterEqual(cut.bound, whole.value)
        self.assertGreater(cut.bound, cut.value)

    @needs_program
    def test_without_prices_it_is_the_best_allocation_of_the_program(self) -> None:
        draw = random.Random(11)
        for clients in read_game(program.make(77)).clients:
            units = [draw.choice([0, 0, 1, 1, 2, 3]) for _ in GOODS]
            plan = best_plan(clients, units, [None] * 28)
            self.assertEqual((plan.value, plan.bound), (solve(units, clients),) * 2)


class InSteps(unittest.TestCase):
    def test_a_client_takes_the_trip_that_gains_most(self) -> None:
        made = chosen([WISHES], FREE, [0] * 28)
        # The better hotel is worth 60 dollars at the same price.
        self.assertEqual(made.worth, 1000 + 60 - 2 * 100 - 2 * 50)
        self.assertEqual([good for good in range(28) if made.wanted[good]],
                         [inbound(2), outbound(4), room(1, 2), room(1, 3)])

    def test_what_is_held_costs_nothing_and_only_once(self) -> None:
        made = chosen([WISHES] * 2, FREE, held(inbound(2), outbound(4), room(0, 2), room(0, 3),
                                               ticket(2, 2)))
        self.assertEqual(made.wanted[inbound(2)], 2)
        self.assertEqual(made.wanted[ticket(2, 2)], 1)
        # The first stays where rooms are held, at 0 dollars, and sees the museum.
        self.assertEqual(made.worth, 1000 + 90 + 1000 + 60 - 2 * 100 - 2 * 50)

    def test_a_ticket_is_bought_for_less_than_its_value(self) -> None:
        prices = FREE[:]
        prices[ticket(2, 3)], prices[ticket(1, 2)], prices[ticket(0, 2)] = 40, 15, 30
        made = chosen([WISHES], prices, [0] * 28)
        self.assertEqual(made.worth, 1000 + 60 - 300 + 90 - 40 + 20 - 15)
        self.assertEqual([made.wanted[good] for good in (ticket(2, 3), ticket(1, 2),
                                                         ticket(0, 2))], [1, 1, 0])

    def test_nobody_travels_at_a_loss(self) -> None:
        made = chosen([WISHES] * 8, [NEVER] * 28, [0] * 28)
        self.assertEqual((made.worth, sum(made.wanted)), (0, 0))

    def test_where_a_night_is_dear_a_client_stays_for_another(self) -> None:
        prices = FREE[:]
        prices[room(0, 3)] = prices[room(1, 3)] = 400
        made = chosen([WISHES], prices, [0] * 28)
        self.assertEqual(made.worth, 1000 - 100 + 60 - 2 * 100 - 50)
        self.assertEqual(made.wanted[outbound(3)], 1)
