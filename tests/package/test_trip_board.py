"""The board of trips of a seat: what it shows of plans, and what decisions cost."""

import unittest
from typing import Any, Dict, List, Optional, Sequence, Tuple

from geesefuton.playing.trip_board import BID, HELD, NONE, OPEN, TripBoard
from geesefuton.records.games import inbound, outbound, room, ticket

# Two clients who want day 1 to day 2, and six who want days 3 to 5; none cares for hotels.
CLIENTS = [[1, 2, 0, 0, 0, 0]] * 2 + [[3, 5, 0, 0, 0, 0]] * 6
FAR = 9000  # dollars that no trip is worth


class Boards(unittest.TestCase):
    def setUp(self) -> None:
        self.board = TripBoard(True)
        self.units, self.cash, self.tick = [0] * 28, 0, 1
        self.points: Dict[int, Sequence[Tuple[int, int]]] = {}
        self.quotes: List[List[Any]] = [[0, 300, False] if good < 8 else [0, 0, False]
                                        for good in range(28)]

    def close(self, *goods: int) -> None:
        for good in goods:
            self.quotes[good] = [0, self.quotes[good][1], True]

    def raise_to(self, price: int, *goods: int) -> None:
        """What is asked for each of these is so many dollars now."""
        for good in goods:
            self.quotes[good][1] = price

    def hold(self, *goods: int, paid: int = 0) -> None:
        """The seat has a unit more of each, for so many dollars in all."""
        self.cash -= paid
        for good in goods:
            self.units[good] += 1

    def look(self, settled: bool = True) -> Dict[str, Any]:
        return self.board.follow({
            "clients": CLIENTS, "quotes": [quote[:] for quote in self.quotes], "cash": self.cash,
            "goods": [[units, self.points.get(good, ())] for good, units in enumerate(self.units)],
            "settled": settled, "tick": self.tick})

    def parts(self, client: int) -> Dict[int, Tuple[int, Optional[int]]]:
        """What is shown of a client's trip: by good what is known of it, and its price."""
        return {good: (what, price) for good, what, price in self.look()["trips"][client]["parts"]}

    def test_a_trip_that_is_still_to_be_bought(self) -> None:
        self.raise_to(40, room(1, 1))
        trip = self.look()["trips"][0]
        self.assertEqual((trip["planned"], trip["hotel"], trip["worth"], trip["cost"]),
                         (True, 0, 1000, 600))
        self.assertEqual(self.parts(0), {inbound(1): (OPEN, 300), outbound(2): (OPEN, 300),
                                         room(0, 1): (OPEN, 0)})

    def test_what_is_held_and_what_is_bid_for(self) -> None:
        self.hold(inbound(1), outbound(2))
        self.points = {room(0, 1): ((1, 90),)}
        self.quotes[room(1, 1)][1] = 40
        self.assertEqual(self.parts(0), {inbound(1): (HELD, None), outbound(2): (HELD, None),
                                         room(0, 1): (BID, 0)})
        self.assertEqual(self.parts(1)[room(0, 1)], (OPEN, 0))

    def test_what_is_held_makes_whole_trips_first(self) -> None:
        self.hold(inbound(3), room(0, 3), room(0, 4), outbound(5))
        whole = [trip for trip in self.look()["trips"][2:]
                 if all(what == HELD for _, what, _ in trip["parts"])]
        self.assertEqual(len(whole), 1)

    def test_a_night_that_is_closed_in_both_hotels_is_impossible(self) -> None:
        self.close(room(0, 1), room(1, 1))
        self.raise_to(FAR, inbound(2), outbound(3))
        self.assertEqual(self.parts(0)[room(1, 1)], (NONE, None))
        self.assertFalse(self.look()["trips"][0]["planned"])

    def test_a_client_takes_the_hotel_that_is_open_and_rooms_of_both_count_for_the_same(
            self) -> None:
        self.close(room(1, 3))
        self.assertEqual({trip["hotel"] for trip in self.look()["trips"][2:]}, {0})
        self.assertEqual([self.look()["need"][room(hotel, 3)] for hotel in (0, 1)], [6, 0])
        self.units[room(0, 1)] = self.units[room(1, 1)] = 2
        self.close(room(0, 1), room(1, 1))
        need = self.look()["need"]
        self.assertEqual(need[room(0, 1)] + need[room(1, 1)], 2)

    def test_flights_to_a_night_that_is_closed_are_of_no_use(self) -> None:
        self.hold(inbound(1), outbound(2))
        self.close(room(0, 1), room(1, 1))
        self.raise_to(FAR, inbound(2), outbound(3), inbound(3), inbound(4), outbound(4))
        shown = self.look()
        self.assertEqual((shown["need"][inbound(1)], shown["need"][outbound(2)]), (0, 0))
        self.assertEqual(self.parts(0)[inbound(1)], (HELD, None))  # by nobody used, but there

    def test_a_ticket_that_only_the_seat_itself_offers_cannot_be_had(self) -> None:
        board, clients = TripBoard(True), [[1, 2, 0, 150, 0, 0]] * 8
        self.hold(inbound(1), outbound(2), room(0, 1))
        self.close(*range(16))
        self.quotes[ticket(0, 1)][1] = 50
        for offered, due in (((), 1100), (((-1, 50),), 1000)):
            told = {"clients": clients, "quotes": self.quotes, "cash": 0, "settled": True,
                    "tick": 1, "goods": [[units, offered if good == ticket(0, 1) else ()]
                                         for good, units in enumerate(self.units)]}
            self.assertEqual(board.follow(told)["worth"], due)

    def test_without_a_plan_each_client_has_its_own_days(self) -> None:
        self.board = TripBoard(False)
        self.raise_to(FAR, inbound(1), outbound(5))
        shown = self.look()
        self.assertEqual([trip["planned"] for trip in shown["trips"]], [False] * 8)
        self.assertEqual(self.parts(0)[inbound(1)], (OPEN, FAR))
        self.assertEqual((shown["plans"], shown["need"][inbound(1)], shown["need"][inbound(3)]),
                         (False, 2, 6))

    def test_after_the_game_all_boards_show_the_trips_that_are_made(self) -> None:
        for has_plan in (True, False):
            self.board = TripBoard(has_plan)
            self.hold(inbound(1), outbound(2), room(1, 1))
            self.close(*range(28))
            shown = self.look()
            self.assertEqual(sum(trip["planned"] for trip in shown["trips"]), 1 + (not has_plan))

    # What decisions cost, at prices at which each trip is worth something.

    def cost(self) -> List[Tuple[int, str]]:
        told: List[Tuple[int, str]] = self.look()["costs"]
        return told

    def test_rooms_that_were_not_won(self) -> None:
        self.look()
        self.tick = 6
        self.raise_to(FAR, inbound(2), outbound(3), outbound(4), outbound(5))
        self.look()
        self.quotes[room(0, 1)][1], self.quotes[room(1, 1)][1] = 60, 50
        self.close(room(0, 1), room(1, 1))
        self.hold(room(1, 1), paid=50)
        (cost, text), = [each for each in self.look()["costs"] if "closed at" in each[1]]
        self.assertEqual(cost, 350)  # a trip for 400, which a room for 50 would have made
        self.assertEqual(text, "Tick 6: Shoreline Shanties, night 1 closed at 60, you won 0 and "
                               "0 would have been best; Tampa Towers, night 1 closed at 50, you "
                               "won 1 and 2 would have been best")

    def test_rooms_that_were_won_cost_nothing_and_those_beyond_the_plan_their_price(self) -> None:
        text = "Tick 1: Tampa Towers, night 4 closed at 70, you won 9 and 6 would have been best"
        for units, due in ((6, []), (9, [(3 * 70, text)])):
            with self.subTest(units=units):
                self.setUp()
                self.quotes[room(0, 4)][1] = 200
                self.look()
                self.quotes[room(1, 4)] = [0, 70, True]
                self.units[room(1, 4)], self.cash = units, -70 * units
                self.assertEqual(self.cost(), due)

    def test_trips_use_the_rooms_that_are_bid_for_unless_the_bid_is_below_the_price(self) -> None:
        self.points, self.quotes[room(1, 1)][1] = {room(1, 1): ((2, 90),)}, 60
        self.assertEqual(self.look()["need"][room(1, 1)], 2)  # though others are cheaper
        self.quotes[room(0, 1)][1] = self.quotes[room(1, 1)][1] = 40
        for price, due in ((39, OPEN), (40, BID)):
            self.points = {room(hotel, 1): ((2, price),) for hotel in (0, 1)}
            self.assertIn((due, 40), self.parts(0).values())

    def test_what_was_bought_for_less_than_it_is_worth(self) -> None:
        self.look()
        self.hold(inbound(4), inbound(4), paid=600)
        # They serve clients who want to come a day earlier, for 100 dollars less each.
        self.assertEqual(self.cost(), [(200, "Tick 1: you bought 2 of Flights in, day 4")])

    def test_a_flight_that_is_wanted_costs_nothing_nor_does_cash_that_is_read_later(self) -> None:
        self.look()
        self.hold(inbound(3), paid=300)
        self.assertEqual(self.cost(), [])
        self.cash -= 300
        self.look(settled=False)
        self.hold(inbound(3))
        self.assertEqual(self.cost(), [])

    def test_waiting_for_flights(self) -> None:
        self.look()
        for tick, price in ((2, 310), (3, 325), (4, 320)):
            self.tick, self.quotes[outbound(2)][1] = tick, price
            self.look()
        self.assertEqual(self.cost(), [(2 * 25, "Until tick 3: you waited with flights, which "
                                               "became dearer or closed")])

    def test_the_dearest_are_told_first_and_three_of_them(self) -> None:
        self.look()
        for count in range(1, 6):
            self.hold(*[inbound(4)] * count, paid=300 * count)
            self.look()
        # Six of them serve clients who want to come a day earlier, for 100 dollars less each.
        self.assertEqual([cost for cost, _ in self.cost()], [1500, 1200, 300])

    def test_another_game_begins_anew(self) -> None:
        self.look()
        self.hold(inbound(4), paid=300)
        self.assertEqual(len(self.cost()), 1)
        self.units, self.cash = [0] * 28, 0
        other = self.board.follow({
            "clients": [*CLIENTS[:7], [1, 5, 0, 0, 0, 0]], "quotes": self.quotes, "cash": 0,
            "goods": [[0, ()]] * 28, "settled": True, "tick": 0})
        self.assertEqual(other["costs"], [])
