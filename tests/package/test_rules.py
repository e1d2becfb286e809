"""The rules of prices, of the clock's ticks and of the order of seats; and what seats are called
where their words must not be seen."""

import unittest
from collections import Counter

from geesefuton.records.games import GOODS, SEATS, TICKS, Flight
from geesefuton.records.order import first_seat, order_of_turn
from geesefuton.records.rules import clock_ticks, next_price, prices_of
from geesefuton.records.seat_names import names_of
from tests.package.helpers import served_game


class Flights(unittest.TestCase):
    def test_how_a_flight_moves(self) -> None:
        for bound, price, tick, draw, due in (
                (30, 300, 27, 0, 290), (30, 300, 27, 30, 320), (30, 300, 27, 31, 290),  # to 20
                (-10, 300, 54, 0, 290), (-10, 300, 27, 20, 310),  # from -10 to 10; the end is 0
                (-10, 300, 40, 0, 295), (-10, 300, 40, 15, 310), (-10, 300, 40, 16, 295),
                (30, 795, 54, 39, 800), (30, 152, 1, 0, 150)):
            self.assertEqual(next_price(Flight(300, bound, (0,) * 53), price, tick, draw), due)

    def test_prices_of_a_flight(self) -> None:
        for flight in served_game().flights:
            prices = [flight.first]
            for number in range(53):
                end = 10 + (number + 1) * (flight.bound - 10) // 54
                low, high = (-10, end) if end > 0 else (end, 10) if end < 0 else (-10, 10)
                moved = prices[-1] + low + flight.draws[number] % (high - low + 1)
                prices.append(min(800, max(150, moved)))
            self.assertEqual(prices_of(flight), prices)


class Clock(unittest.TestCase):
    def test_the_ticks_at_which_it_calls_an_auction(self) -> None:
        game = served_game()
        first, last = game.closing[0], game.closing[7]
        ticks = [clock_ticks(game, good) for good in GOODS]
        self.assertEqual((ticks[first], ticks[last]), ([6], [6, 12, 18, 24, 30, 36, 42, 48]))
        self.assertEqual((ticks[0], ticks[7]), ([*range(1, 55)], [*range(1, 55)]))
        self.assertEqual(ticks[16:], [[54]] * 12)

    def test_names_of_seats(self) -> None:
        words = ["red7k", "blue4", *(f"{letter}9" for letter in "cdefgh")]
        numbers = [f"agent {number}" for number in range(8)]
        for given, is_told, due in (
                (words, False, ["red", "blue", *"cdefgh"]), (words, True, words),
                ([f"seat{number}" for number in range(8)], False, numbers),
                (["red", *words[1:]], False, numbers)):
            self.assertEqual(names_of(given, is_told), due)


class Order(unittest.TestCase):
    def test_each_turn_begins_one_seat_later(self) -> None:
        self.assertEqual(order_of_turn(0, 0), [0, 1, 2, 3, 4, 5, 6, 7])
        for tick in range(TICKS + 1):
            for turn in range(1, 60):
                later = order_of_turn(tick, turn)
                self.assertEqual(sorted(later), list(range(SEATS)))
                self.assertEqual(later, order_of_turn(tick, turn - 1)[1:] + later[-1:])

    def test_so_does_each_tick_and_each_closing_once_more(self) -> None:
        firsts = [order_of_turn(tick, 0)[0] for tick in range(14)]
        self.assertEqual(firsts, [0, 1, 2, 3, 4, 5, 7, 0, 1, 2, 3, 4, 6, 7])

    def test_each_seat_has_each_place_equally_often_in_any_turn_of_a_tick(self) -> None:
        for turn in (0, 1, 7, 28, 39, 999):
            counts = Counter((place, seat) for tick in range(48)
                             for place, seat in enumerate(order_of_turn(tick, turn)))
            self.assertEqual(set(counts.values()), {6})
            self.assertEqual(len(counts), SEATS * SEATS)

    def test_each_seat_is_first_before_one_closing(self) -> None:
        for turn in range(8):
            for before in (1, 0):
                firsts = [order_of_turn(tick - before, turn)[0] for tick in range(6, 54, 6)]
                self.assertEqual(sorted(firsts), list(range(SEATS)))

    def test_the_first_seat_of_a_game_shifts_all_turns(self) -> None:
        for first in range(SEATS):
            for tick, turn in ((0, 0), (5, 7), (54, 3)):
                self.assertEqual(order_of_turn(tick, turn, first),
                                 [(seat + first) % SEATS for seat in order_of_turn(tick, turn)])

    def test_the_first_seat_changes_from_game_to_game_and_not_with_words(self) -> None:
        game = served_game()
        text = game.text()
        self.assertEqual(first_seat(game.named([f"other{seat}" for seat in range(SEATS)]).text()),
                         first_seat(text))
        counts = Counter(first_seat(text + f"flight 0 {number}\n") for number in range(800))
        self.assertEqual(sorted(counts), list(range(SEATS)))
        self.assertTrue(all(60 <= count <= 140 for count in counts.values()), counts)
