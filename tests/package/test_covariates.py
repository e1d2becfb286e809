import random
import unittest
from itertools import combinations
from statistics import fmean, pstdev
from typing import List, Sequence

from geesefuton.experiments import covariates
from geesefuton.experiments.covariates import (MEAN_FIRST_PRICE, MEAN_LUCK, MEAN_NIGHTS, Covariates,
                                               best_trip, covariates_of)
from geesefuton.records.games import PACKAGES, Client
from tests.package.helpers import served_game


class Drawn(unittest.TestCase):
    def assert_mean(self, values: Sequence[float], due: float) -> None:
        """The mean of values is one that is due, by less than four standard errors."""
        self.assertLess(abs(fmean(values) - due), 4 * pstdev(values) / len(values) ** 0.5)

    def test_those_of_a_game(self) -> None:
        game = served_game()
        first_price = sum(flight.first for flight in game.flights) / 8
        self.assertEqual(list(covariates_of(game)), [
            Covariates(sum(map(best_trip, clients)),
                       sum(client.depart - client.arrive for client in clients) / 8, first_price)
            for clients in game.clients])

    def test_nothing_is_kept_of_the_clients_of_earlier_games(self) -> None:
        for number in range(200):
            best_trip(Client(1, 3, 50 + number % 100, (number, 1, 2)))
        kept = [value for value in vars(covariates).values() if isinstance(value, dict)]
        self.assertFalse(any(isinstance(key, Client) for each in kept for key in each))

    def test_means_are_those_of_what_is_drawn(self) -> None:
        source = random.Random(1)
        trips = list(combinations(range(1, 6), 2))
        self.assertEqual(sum(depart - arrive for arrive, depart in trips) / len(trips), MEAN_NIGHTS)
        self.assertEqual(sum(range(250, 401)) / 151, MEAN_FIRST_PRICE)
        worths: List[int] = []
        for _ in range(3000):
            arrive, depart = source.choice(trips)
            worths.append(best_trip(Client(arrive, depart, source.randint(50, 150),
                                           (source.randint(0, 200), source.randint(0, 200),
                                            source.randint(0, 200)))))
        self.assert_mean([8 * worth for worth in worths], MEAN_LUCK)


class Lucks(unittest.TestCase):
    def test_a_best_trip_by_hand(self) -> None:
        # Two nights in Shanties, and one in Towers; no ticket is worth its price.
        seats = 2 * covariates.SEAT
        for client, worth in (
                (Client(1, 3, 50, (10, 20, 30)), 1000 - 2 * covariates.SHANTIES),
                (Client(1, 2, 150, (0, 0, 0)), 1150 - covariates.TOWERS),
                (Client(2, 4, 50, (200, 0, 180)),
                 1380 - 2 * covariates.SHANTIES - 2 * covariates.TICKET)):
            self.assertEqual(best_trip(client), worth - seats)

    def test_it_is_the_best_of_all_trips(self) -> None:
        for clients in served_game().clients:
            for client in clients:
                gains = [client.worth(package)
                         - sum(covariates.PRICES[good] for good in package.goods())
                         for package in PACKAGES]
                self.assertEqual(best_trip(client), max(0, *gains))

    def test_each_good_has_its_price(self) -> None:
        self.assertEqual((covariates.SEAT, covariates.SHANTIES, covariates.TOWERS,
                          covariates.TICKET), (350, 80, 120, 80))
        self.assertEqual(list(covariates.PRICES), [350] * 8 + [80] * 4 + [120] * 4 + [80] * 12)
