import json
import re
import unittest
from dataclasses import replace
from typing import Dict, List, Optional, Sequence, Tuple
from unittest import mock

from geesefuton.records.best_plans import Plan, best_plan
from geesefuton.records.games import HOUSE, SEATS, TICKS, Client, name_of
from geesefuton.records.hindsight import Decision, Story, stories
from geesefuton.records.report_page import story_html
from geesefuton.records.logs import Entry, Log, Post, Trade
from geesefuton.records.rules import next_price
from tests.package.entries import bid, by_clock, refused, withdrawal
from tests.package.helpers import served_game, served_log

GAME, LOG = served_game(), served_log()
FOUND: Dict[object, Plan] = {}


def found_once(clients: Sequence[Client], held: Sequence[int], prices: Sequence[Optional[int]],
               before: Optional[Plan] = None) -> Plan:
    """The best plan of a seat, which is searched for once: all logs here begin alike."""
    key = (*clients, *held, *prices, before, before and before.prices)
    if key not in FOUND:
        FOUND[key] = best_plan(clients, held, prices, before)
    return FOUND[key]


def told_of(log: Log) -> List[Story]:
    """The stories of the eight teams by a log of the game."""
    with mock.patch("geesefuton.records.books.best_plan", found_once):
        return stories(GAME, log)


def log_of(histories: Dict[int, Tuple[Entry, ...]]) -> Log:
    """A log with these entries alone."""
    return replace(LOG, cash=(), histories=tuple(histories.get(good, ()) for good in range(28)))


def flights(dearer_at: int, until: int = 8) -> Dict[int, Tuple[Entry, ...]]:
    """The updates of all flights until a tick, which leave the prices as they are, but at one."""
    histories = {}
    for good, flight in enumerate(GAME.flights):
        price, entries = flight.first, list[Entry]()
        for tick in range(1, until + 1):
            prices = {next_price(flight, price, tick, draw): draw for draw in range(100)}
            price = max(prices) if tick == dearer_at else price
            entries.append(by_clock("update", tick=tick, draw=prices[price]))
        histories[good] = tuple(entries)
    return histories


START = told_of(log_of({}))  # nothing happens
# The first hotel night that closes of those that a team wants, and when it does.
NIGHT = next(good for good in GAME.closing if any(story.moments[0].wanted[good] for story in START))
CLOSES = 6 * (GAME.closing.index(NIGHT) + 1)


def night(*trades: Trade) -> Tuple[Entry, ...]:
    """The clock's calls there."""
    return (*[by_clock("publish")] * (CLOSES // 6 - 1), by_clock("close", *trades))


class Stories(unittest.TestCase):
    def test_they_end_with_the_scores_of_the_log(self) -> None:
        made = told_of(LOG)
        self.assertEqual([len(story.moments) for story in made], [TICKS + 1] * SEATS)
        for story, score in zip(made, LOG.scores):
            last = story.moments[-1]
            self.assertEqual((last.worth, last.cash), (score.score, score.cash))
            self.assertEqual((sum(last.wanted), last.bids), (0, {}))
            costs = [decision.cost for decision in story.decisions]
            self.assertEqual(costs, sorted(costs, reverse=True))
            self.assertLessEqual(len(costs), 3)

    def test_what_is_bought_in_vain_is_told(self) -> None:
        price = GAME.flights[0].first
        bought = bid(2, (16, 800), trades=(Trade(2, 8, 16, price),))
        story = told_of(log_of({0: (bought,)}))[2]
        first = story.decisions[0]
        self.assertIn(f"Tick 0: bought 16 of in, day 1 at {price}", first.text)
        # Eight of them are of no use to eight clients.
        self.assertGreaterEqual(first.cost, 8 * price)
        self.assertEqual((story.moments[0].held[0], story.moments[0].cash), (16, -16 * price))
        self.assertEqual(story.moments[0].bids, {})

    def test_flights_that_became_dearer_are_told_with_what_waiting_cost(self) -> None:
        story = told_of(log_of(flights(dearer_at=1, until=2)))[0]
        cost = story.moments[0].worth - story.moments[1].worth
        self.assertTrue(any(story.moments[0].wanted[:8]) and cost > 0)
        self.assertEqual(story.decisions, [Decision(
            cost, "Until tick 2: waited with flights that its plans wanted, which became dearer or "
            f"closed meanwhile. Its best plan was worth {cost:,} less afterwards.")])
        self.assertEqual(told_of(log_of(flights(0, until=1)))[0].decisions, [])

    def test_rooms_that_were_wanted_and_not_won_are_told_apart_from_flights(self) -> None:
        alone = told_of(log_of({NIGHT: night()}))
        both = told_of(log_of({**flights(CLOSES, CLOSES), NIGHT: night()}))
        found = 0
        for story, other in zip(both, alone):
            before, after = other.moments[CLOSES - 1:CLOSES + 1]
            cost = before.worth - after.worth
            self.assertEqual(other.decisions, [Decision(
                cost, f"Tick {CLOSES}: {name_of(NIGHT)} closed, and it won no rooms where its best "
                f"plan wanted {before.wanted[NIGHT]}. Its best plan was worth {cost:,} less "
                "afterwards.")] if cost else [])
            found += cost > 0
            before, after = story.moments[CLOSES - 1:CLOSES + 1]
            self.assertEqual(sum(decision.cost for decision in story.decisions),
                             before.worth - after.worth)
            self.assertEqual(len(story.decisions), 1 + (cost > 0))
        self.assertGreater(found, 0)

    def test_rooms_that_were_won_are_told_with_their_price(self) -> None:
        story = told_of(log_of({NIGHT: night(Trade(5, HOUSE, 1, 900))}))[5]
        wanted = story.moments[0].wanted[NIGHT]
        self.assertIn(f"{name_of(NIGHT)} closed, and it won 1 room at 900 where its best plan "
                      f"wanted {wanted}. ", story.decisions[0].text)

    def test_trades_of_a_tick_are_told_together(self) -> None:
        price = GAME.flights[0].first
        bought = bid(2, (3, 800), trades=(Trade(2, HOUSE, 2, price), Trade(2, HOUSE, 1, price)))
        sold = bid(2, (-4, 1), trades=(Trade(1, 2, 4, 1),))
        log = replace(log_of({0: (bought,), 16: (sold,)}), cash=(
            Post(2, 0, 0, (0,) * 9), Post(2, 16, 0, (0,) * 9)))
        story, other = (told_of(log)[agent] for agent in (2, 1))
        self.assertIn(f"Tick 0: bought 3 of {name_of(0)} at {price}, sold 4 of {name_of(16)} at "
                      "1. ", story.decisions[0].text)
        self.assertEqual(story.decisions[0].cost,
                         told_of(log_of({}))[2].moments[0].worth - story.moments[0].worth)
        self.assertEqual([decision for decision in other.decisions if "bought 3" in decision.text],
                         [])

    def test_the_three_that_cost_most_are_told(self) -> None:
        histories = flights(dearer_at=0)
        for good, count in enumerate((9, 16, 12, 14)):
            trade = Trade(0, HOUSE, count, GAME.flights[good].first)
            entry = bid(0, (count, 800), trades=(trade,))
            histories[good] = (*histories[good][:good + 1], entry, *histories[good][good + 1:])
        story = told_of(log_of(histories))[0]
        worths = [moment.worth for moment in story.moments[:5]]
        costs = {f"Tick {tick}": before - after
                 for tick, (before, after) in enumerate(zip(worths, worths[1:]), 1)}
        self.assertEqual(len(set(costs.values())), 4)
        self.assertEqual([(decision.text.split(":")[0], decision.cost)
                          for decision in story.decisions],
                         sorted(costs.items(), key=lambda each: -each[1])[:3])

    def test_what_stands_of_bids(self) -> None:
        price, hotel = GAME.flights[0].first, GAME.closing[0]
        moments = told_of(log_of({
            0: (bid(1, (2, price + 9), (1, price), (3, price - 1),
                    trades=(Trade(1, HOUSE, 3, price),)),),
            1: (bid(1, (1, 200)), withdrawal(1)),
            hotel: (bid(1, (2, 50), (1, 40)), bid(1, (4, 10), reply=refused("belowquote 1 51 0")),
                    bid(3, (1, 70)), by_clock("close")),
            20: (bid(1, (1, 60)),)}))
        self.assertEqual(moments[1].moments[0].bids, {0: f"3 at {price - 1}",
                                                      hotel: "2 at 50, 1 at 40"})
        self.assertEqual(moments[3].moments[5].bids, {hotel: "1 at 70"})
        self.assertEqual(moments[1].moments[6].bids, {0: f"3 at {price - 1}"})


class Page(unittest.TestCase):
    def test_a_team_has_its_decisions_and_its_moments(self) -> None:
        story = told_of(log_of({8: (bid(1, (2, 130)),)}))[1]
        text = story_html(story)
        found = re.search(r'<script type="application/json">(.*?)</script>', text)
        assert found is not None
        moments = json.loads(found[1])
        self.assertEqual(len(moments), TICKS + 1)
        self.assertEqual(moments[0]["worth"], story.moments[0].worth)
        rows = {row[0]: row[1:] for row in moments[0]["goods"]}
        self.assertEqual(rows["Shanties, night 1"][2], "2 at 130")
        self.assertIn("No decision lowered", story_html(Story(story.moments, [])))
