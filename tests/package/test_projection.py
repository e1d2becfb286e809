"""What a live page shows of a game: its projection and the hotel nights, and how much of it."""

import json
import random
import unittest
from dataclasses import replace
from typing import Any, Dict, List, Optional, Tuple
from unittest import mock

from geesefuton.hosting.journal import JournalReader, read_journal
from geesefuton.hosting.nights import STEP, Night, Nights
from geesefuton.hosting.projection import Projection, View, project
from geesefuton.hosting.recovery import RecoveryError
from geesefuton.records.books import Books, NightBook
from geesefuton.records.games import CLOCK, DRAWS
from geesefuton.records.logs import read_log
from geesefuton.records.rules import prices_of
from geesefuton.records.ticks import ticks_by_log
from tests.package.helpers import DATA, CountingPlayer, needs_program
from tests.package.journals import (BEGIN, GAME, HEAD, LINES, PlayedCase, asked, begun, nights_of,
                                    of_text, place_of)

TEXT = (DATA / "lobby.log").read_text()
LOG = read_log(TEXT)


class Projecting(unittest.TestCase):
    """A projection, with a player that counts positions."""

    def project(self, reader: JournalReader) -> Projection:
        self.player = CountingPlayer()
        player: Any = self.player
        return project(reader, nights_of(reader), player)

    def test_scores_are_best_cash_short_and_score(self) -> None:
        sheet = [f"score {agent} {100 + agent} {-7 * agent} {agent} {100 - 206 * agent}"
                 for agent in range(8)]
        text = CountingPlayer().play(GAME.text(), "")[1]
        for agent, line in enumerate(sheet):
            text = text.replace(f"score {agent} 0 0 0 0", line)
        player = mock.Mock(play=mock.Mock(return_value=([], text)))
        over = begun({"over": 0, "t": 100}, tick=54)
        self.assertEqual(project(over, nights_of(over), player).scores,
                         [[100 + agent, -7 * agent, agent, 100 - 206 * agent]
                          for agent in range(8)])
        self.assertEqual(project(begun(), nights_of(begun()), player).scores, [])

    def test_what_was_asked_until_then(self) -> None:
        reader = begun(*asked(1, "bid 20 ((1 5))", "@0 taken 0 0", 10),
                       *asked(1, "quote 20", "@1 quote 5 0 open", 20),
                       # An agent whose lines were all refused counts as refused, and no other.
                       *asked(1, "hm", "no syntax", 25), *asked(2, "hm", "no syntax", 30),
                       {"a": 3, "q": "bid 21 ((1 5))"}, tick=4)
        made = self.project(reader)
        self.assertEqual((made.tick, made.refused), (4, [2]))
        self.assertEqual(self.player.given, [(GAME.text(), "1 bid 20 ((1 5))\n")])
        self.assertEqual(made.asks, [night.asks for night in nights_of(reader)])

    def test_what_is_about_to_come_waits_until_the_game_is_over(self) -> None:
        lines = [{"a": 1, "q": "bid 20 ((1 5))"}, *asked(2, "own 20", "@1 own 0 ()", 10)]
        self.project(begun(*lines))
        self.assertEqual(self.player.given[0][1], "")
        made = self.project(begun(*lines, {"a": 4, "q": "bid 22 ((1 5))"}, {"over": 0, "t": 100}))
        self.assertEqual(self.player.given[-1][1], "1 bid 20 ((1 5))\n2 own 20\n")
        self.assertEqual(made.scores[1], [0, -1, 0, -1])

        lines = [*asked(1, "own 20", "@0 own 0 ()", 10), *asked(2, "own 20", "@0 own 0 ()", 10)]
        self.assertRaises(RecoveryError, self.project, begun(*lines))  # those of no game

    def test_who_is_silent(self) -> None:
        here = [{"here": agent, "from": "10.0.0.7"} for agent in (1, 2, 3, 4)]
        lines = [*here, *asked(2, "cash", "@0 cash 0", 10), {"gone": 3}, {"end": 4, "why": "left"},
                 {"tick": 1, "t": 100}, *asked(2, "cash", "@1 cash 0", 110)]
        for tick, due in ((8, []), (9, [1]), (10, [1, 2])):
            self.assertEqual(self.project(begun(*lines, tick=tick)).silent, due)
        # An agent that reconnects is not silent from the beginning.
        lines += [{"tick": 5, "t": 500}, {"here": 1, "from": "10.0.0.7"}]
        self.assertEqual(self.project(begun(*lines, tick=13)).silent, [2])
        self.assertEqual(self.project(begun(*lines, tick=14)).silent, [1, 2])

    def test_trades_of_tickets_have_the_times_of_their_replies(self) -> None:
        made = project(of_text(LINES), [], mock.Mock(play=mock.Mock(return_value=([], TEXT))))
        times, due = replies_to_bids(), []
        for good in range(16, 28):
            for position, entry in enumerate(LOG.histories[good]):
                due += [[times[good, position], good, trade.buyer, trade.seller, trade.price]
                        for trade in entry.trades]
        self.assertEqual(len(due), 7)
        self.assertEqual(made.trades, sorted(due, key=lambda trade: trade[0]))

    def test_no_trade_comes_before_an_earlier_one_of_its_ticket(self) -> None:
        lines = [*asked(1, "bid 20 ((-2 5))", "@0 taken 0 0", 100),
                 *asked(3, "bid 20 ((1 6))", "@2 taken 1 0", 300),
                 *asked(2, "bid 20 ((1 7))", "@1 taken 1 0", 310)]
        text = CountingPlayer().play(GAME.text(), "1 bid 20 ((-2 5))\n2 bid 20 ((1 7))\n"
                                                  "3 bid 20 ((1 6))\n")[1]
        for agent, price in ((2, 7), (3, 6)):
            bid = f"{agent} bid ((1 {price})) = taken 0 0\n"
            self.assertIn(bid, text)
            text = text.replace(bid, f"{bid}trade {agent} 1 1 5\n")
        made = project(begun(*lines), [], mock.Mock(play=mock.Mock(return_value=([], text))))
        self.assertEqual(made.trades, [[3.1, 20, 2, 1, 5], [3.1, 20, 3, 1, 5]])


class Plans(unittest.TestCase):
    """What the plans of a kept game are worth, by its log, which goes on to its end."""

    def plans(self, tick: int) -> List[List[int]]:
        player = mock.Mock(play=mock.Mock(return_value=([], TEXT)))
        return project(begun(tick=tick), [], player).plans

    def test_in_the_end_they_are_the_scores(self) -> None:
        self.assertEqual(self.plans(54), [[row.score, row.cash, 0, 0] for row in LOG.scores])

    def test_before_it_the_clocks_later_calls_do_not_count(self) -> None:
        ticks = ticks_by_log(GAME, LOG)
        for tick in (0, 30):
            accounts, cash = Books(GAME), [0] * 8
            for good, history in enumerate(LOG.histories):
                for at, entry in zip(ticks[good], history):
                    if at > tick and (good < 16 or entry.caller == CLOCK):
                        continue
                    accounts.take(good, entry)
                    for trade in entry.trades:
                        for agent, sign in ((trade.buyer, -1), (trade.seller, 1)):
                            if agent < 8:
                                cash[agent] += sign * trade.units * trade.price
            plans = self.plans(tick)
            self.assertEqual([plan[1] for plan in plans], cash)
            for agent, (total, _, to_buy, _) in enumerate(plans):
                best, prices = accounts.plan(agent), accounts.prices_for(agent)
                due = sum(units * (prices[good] or 0) for good, units in enumerate(best.missing))
                self.assertEqual((total - cash[agent], to_buy), (best.value, due))
            self.assertTrue(all(to_buy for *_, to_buy, _ in plans) or tick)


def replies_to_bids() -> Dict[Tuple[int, int], float]:
    """The ticks at which the journal has the replies to bids, by good and position."""
    times: Dict[Tuple[int, int], float] = {}
    waiting: Dict[int, str] = {}
    for line in map(json.loads, LINES):
        if "q" in line:
            waiting[line["a"]] = line["q"]
        elif "r" in line:
            words = waiting[line["a"]].split(" ")
            if words[0] == "bid" and line["r"].startswith("@"):
                times[int(words[1]), int(line["r"].split(" ")[0][1:])] = line["t"] / 100
    return times


class Views(unittest.TestCase):
    def state(self, reader: JournalReader, late: int = 6, by_word: bool = False,
              secret: Optional[Projection] = None, is_final: bool = False) -> Dict[str, Any]:
        nights = nights_of(reader) if reader.has_begun else None
        return View(late, by_word).state(reader, nights, secret, is_final)

    def secret(self, **more: Any) -> Projection:
        return Projection(**{"tick": 3, "plans": [[9, agent, 0, 0] for agent in range(8)],
                             "scores": [[agent, 0, 0, agent] for agent in range(8)],
                             "asks": [night.asks for night in nights_of(begun())],
                             "trades": [], "silent": [], "refused": [], "empty": [], **more})

    def test_what_stands_on_any_page(self) -> None:
        for lines in (LINES[:1], [LINES[0], BEGIN]):
            state = self.state(of_text(lines))
            self.assertEqual((state["phase"], state["flights"], state["status"], state["shown"]),
                             ("waiting", [], None, None))
            self.assertFalse({"hotels", "asks", "trades"} & set(state))
        for live in (False, True):
            game = GAME.with_rooms([2] * 8, live)
            state = self.state(begun(tick=4, game=game), late=9)
            self.assertEqual([state[key] for key in ("phase", "tick", "pace", "late", "status",
                                                     "live")], ["running", 4, 100, 9, None, live])
        for tick, count in ((0, 1), (1, 2), (53, 54), (54, 54)):  # prices so far
            self.assertEqual(self.state(begun(tick=tick))["flights"],
                             [prices_of(flight)[:count] for flight in GAME.flights])
        over = begun({"over": 6, "t": 1}, tick=54)
        self.assertEqual((self.state(over)["phase"], self.state(over)["status"]), ("running", 6))
        self.assertEqual(self.state(over, is_final=True)["phase"], "over")

    def test_rooms_sold_are_shown_at_once_or_in_the_end(self) -> None:
        bids = [line for good in range(8, 16)
                for line in asked(0, f"bid {good} ((1 50))", "@0 taken 0 0", 100)]
        reader = begun(*bids, tick=7)
        first = GAME.closing[0] - 8
        nights = nights_of(reader)
        closed = nights[first].closed
        assert closed is not None
        for late, is_final, due in ((6, False, closed[:2]), (0, False, closed), (6, True, closed)):
            hotels = self.state(reader, late, is_final=is_final)["hotels"]
            self.assertEqual(hotels, [{"published": night.published,
                                       "closed": due if number == first else None}
                                      for number, night in enumerate(nights)])

    def test_what_only_one_agent_knows_is_that_of_the_projection(self) -> None:
        trades = [[number / 10, 20, 1, 2, number] for number in range(62)]
        asks = [[[0, 0], [2.5, good]] for good in range(8, 16)]
        secret = self.secret(trades=trades, asks=asks, empty=[6])
        state = self.state(begun(tick=9), secret=secret)
        self.assertEqual(state["shown"], 3)
        self.assertEqual(state["trades"], trades[2:])
        self.assertEqual(state["asks"], asks)
        self.assertEqual([(agent["plan"], agent["score"]) for agent in state["agents"]],
                         [([9, agent, 0, 0], [agent, 0, 0, agent]) for agent in range(8)])
        self.assertEqual([agent["empty"] for agent in state["agents"]],
                         [agent == 6 for agent in range(8)])
        state = self.state(begun(tick=9), secret=replace(secret, scores=[]))
        self.assertNotIn("score", state["agents"][0])
        plain = self.state(begun(tick=9))
        self.assertEqual([set(agent) for agent in plain["agents"]], [{"name", "here"}] * 8)
        self.assertFalse({"asks", "trades"} & set(plain))

    def test_what_agents_do(self) -> None:
        here = [{"here": agent, "from": "10.0.0.7"} for agent in (1, 2, 4)]
        secret = self.secret(silent=[1, 2, 3], refused=[2])
        doing = [None, "silent", "refused", None, None, None, None, None]
        for more, due in (([], doing), ([{"gone": 1}], [None, None, *doing[2:]]),
                          ([{"over": 0, "t": 1}], [None, None, *doing[2:]])):
            state = self.state(begun(*here, *more, tick=9), secret=secret)
            self.assertEqual([agent.get("doing") for agent in state["agents"]], due)

    def test_who_is_there(self) -> None:
        here = {"here": 0, "from": "10.0.0.7"}
        in_the_game = begun(here, {"end": 1, "why": "hung"}, {"end": 2, "why": "refused"},
                            {"end": 3, "why": "left"}, {"end": 4, "why": "gone"}, {"without": 6})
        before = of_text([*map(json.dumps, [HEAD, here, {"without": 1}, {"end": 2, "why": "absent"},
                                            {"end": 3, "why": "left"}])])
        for reader, due in (
                (in_the_game, ["here", "hung", "gone", "left", "gone", "gone", "absent", "gone"]),
                (before, ["here", "absent", "absent", "absent", *["missing"] * 4])):
            self.assertEqual([agent["here"] for agent in self.state(reader)["agents"]], due)

        lines = LINES[:1]
        for line, here in (('{"without":2}', "absent"), ('{"here":2,"from":"10.0.0.7"}', "here"),
                           ('{"gone":2}', "missing"), ('{"here":2,"from":"10.0.0.7"}', "here"),
                           ('{"begin":[2]}', "here"), ('{"gone":2,"t":5}', "gone"),
                           ('{"end":2,"why":"left","t":9}', "left")):
            lines = [*lines, line]
            self.assertEqual(self.state(of_text(lines))["agents"][2]["here"], here)

    def test_words_are_shown_only_where_the_host_wants_it(self) -> None:
        stems = ["red", "orange", "yellow", "green", "blue", "violet", "brown", "grey"]
        for by_word, due in ((True, list(GAME.words)), (False, stems)):
            self.assertEqual([agent["name"] for agent in self.state(
                begun(), by_word=by_word)["agents"]], due)
        for count in (1, 6, 12, 60, len(LINES)):
            text = json.dumps(self.state(of_text(LINES[:count])))
            for word in GAME.words:
                self.assertNotIn(word, text)


@needs_program
class WithTheProgram(PlayedCase):
    def test_a_projection_does_not_tell_the_future(self) -> None:
        for tick in (13, 29):
            states = set()
            for seed in range(2):
                dice = random.Random(seed)
                flights = tuple(replace(flight, draws=flight.draws[:tick + 1] + tuple(
                    dice.randrange(1 << 32) for _ in range(tick + 1, DRAWS)))
                    for flight in GAME.flights)
                done, rest = GAME.closing[:tick // 6], list(GAME.closing[tick // 6:])
                dice.shuffle(rest)
                game = replace(GAME, flights=flights, closing=(*done, *rest))
                head = json.dumps({**HEAD, "game": game.text()})
                reader = of_text([head, *LINES[1:place_of(tick) + 1]])
                nights = nights_of(reader)
                made = project(reader, nights, self.player)
                states.add(json.dumps(View(6, False).state(reader, nights, made, False)))
            self.assertEqual(len(states), 1)


class OneNight(unittest.TestCase):
    """A night of two rooms, the third to close, at tick 18."""

    GOOD = GAME.closing[2]

    def night(self, tick: int, *calls: Tuple[int, str, str, int], live: bool = False) -> Night:
        """The night at a tick after calls: agent, words, reply, and milliseconds."""
        lines = [line for agent, words, reply, time in calls
                 for line in asked(agent, words.replace("G", str(self.GOOD)), reply, time)]
        game = GAME.with_rooms([2] * 8, live)
        return nights_of(begun(*lines, tick=tick, game=game))[self.GOOD - 8]

    BIDS = [(0, "bid G ((1 50))", "@0 taken 0 0", 150), (1, "bid G ((2 60))", "@1 taken 0 0", 250),
            (2, "bid G ((1 90))", "@3 taken 0 0", 650), (2, "bid G ((2 95))", "@4 taken 0 0", 700)]

    def test_nothing_was_asked(self) -> None:
        for live in (False, True):
            self.assertEqual(self.night(0, live=live), Night([[0, 0]], [[0, 0]], None))
            self.assertEqual(self.night(17, live=live),
                             Night([[0, 0], [6, 0], [12, 0]], [[0, 0]], None))
            self.assertEqual(self.night(18, live=live).closed, [18, 0, 0])
            self.assertEqual(self.night(54, live=live),
                             Night([[0, 0], [6, 0], [12, 0], [18, 0]], [[0, 0]], [18, 0, 0]))

    def test_the_clock_publishes_the_ask_and_live_quotes_do_so_with_each_bid(self) -> None:
        asks = [[0, 0], [2.5, 60], [7, 95]]
        for tick, live, published, closed in (
                (12, False, [[0, 0], [6, 60], [12, 95]], None),
                (17, False, [[0, 0], [6, 60], [12, 95]], None),
                (18, False, [[0, 0], [6, 60], [12, 95], [18, 95]], [18, 95, 2]),
                (18, True, [[0, 0], [2.5, 60], [6, 60], [7, 95], [12, 95], [18, 95]],
                 [18, 95, 2])):
            self.assertEqual(self.night(tick, *self.BIDS, live=live),
                             Night(published, asks, closed))

    def test_what_was_refused_or_read_changes_nothing(self) -> None:
        night = self.night(18, self.BIDS[1], (0, "bid G ((2 99) (-1 5))", "@0 no sell", 150),
                           (0, "own G", "@2 own 0 ()", 260), (3, "bid G ((2 0))", "no bid 4", 270),
                           (0, "withdraw G", "@3 no wrongcall", 280),
                           (4, "quote G", "@4 quote 0 0 open", 290),
                           (5, "quote G", "@1 quote 0 0 open", 300),  # was on its way for long
                           (0, "bid G ((2 60))", "@5 no belowquote 1 61 0", 610))
        self.assertEqual((night.asks, night.closed), ([[0, 0], [2.5, 60]], [18, 60, 2]))

    def test_nothing_comes_before_what_stands_before_it(self) -> None:
        # The lobby's clock told tick 6 a moment after the server's.
        night = self.night(18, self.BIDS[1], (0, "bid G ((1 70))", "@0 taken 0 0", 100),
                           (2, "bid G ((1 80))", "@3 taken 0 0", 599))
        self.assertEqual(night.asks, [[0, 0], [2.5, 60], [6, 70]])
        for first, then, at in ((300, 290, 3), (5, 15, 0.05)):  # the last of two at once
            night = self.night(5, (0, "bid G ((2 70))", "@0 taken 0 0", first),
                               (1, "bid G ((2 80))", "@1 taken 0 0", then))
            self.assertEqual(night.asks, [[0, 0], [at, 80]])

    def test_what_follows_a_position_that_is_not_known_waits(self) -> None:
        calls = [(0, "bid G ((2 70))", "@0 taken 0 0", 300),
                 (1, "bid G ((2 80))", "@2 taken 0 0", 590)]
        self.assertEqual(self.night(5, *calls), Night([[0, 0]], [[0, 0], [3, 70]], None))
        self.assertEqual(self.night(6, *calls),
                         Night([[0, 0], [6, 70]], [[0, 0], [3, 70], [6, 80]], None))

    def test_times_end_with_the_game_and_have_two_digits(self) -> None:
        last = GAME.closing[7]
        lines = asked(0, f"bid {last} ((2 70))", "@0 taken 0 0", 1234) \
            + asked(1, f"bid {last} ((2 80))", "@1 taken 0 0", 5678)
        reader = begun(*lines, tick=1, game=GAME.with_rooms([2] * 8, False))
        self.assertEqual(nights_of(reader)[last - 8].asks, [[0, 0], [12.34, 70], [54, 80]])
        reader.pace = 999
        self.assertEqual(nights_of(reader)[last - 8].asks, [[0, 0], [1.24, 70], [5.68, 80]])

    def test_each_night_has_its_own_rooms_and_bids(self) -> None:
        lines = [line for good in range(8, 16)
                 for line in asked(0, f"bid {good} ((1 50) (1 40) (1 30))", "@0 taken 0 0", 100)]
        game = GAME.with_rooms([1, 2, 3, 4, 1, 2, 3, 4], False)
        self.assertEqual([night.asks[-1] for night in nights_of(begun(*lines, tick=2, game=game))],
                         [[1, 50], [1, 40], [1, 30], [0, 0]] * 2)


class Following(unittest.TestCase):
    """Nights while the journal grows: each call is worked through once."""

    def test_each_bid_is_worked_through_once(self) -> None:
        reader, worked = begun(), mock.Mock(wraps=NightBook.bid)
        nights = Nights(reader)
        with mock.patch.object(NightBook, "bid", lambda *given: worked(*given)):
            for number in range(1000):
                reader.read("\n".join(map(json.dumps, asked(
                    number % 8, f"bid {GAME.closing[7]} ((1 {number + 1}))",
                    f"@{number} taken 0 0", number))))
                for _ in range(3):  # as when nothing has come
                    nights.follow(reader)
        self.assertEqual(worked.call_count, 1000)
        self.assertEqual(nights.now(), nights_of(reader))

    def test_at_each_moment_they_are_those_of_the_whole_journal(self) -> None:
        reader, place = of_text(LINES[:place_of(0) + 1]), place_of(0) + 1
        nights, dice = Nights(reader), random.Random(5)
        while place < len(LINES):
            count = dice.randint(1, 40)
            reader.read("\n".join(LINES[place:place + count]))
            place += count
            nights.follow(reader)
            self.assertEqual(nights.now(), nights_of(reader))
        self.assertEqual([night.closed is None for night in nights.now()], [False] * 8)

    def test_a_late_reply_shows_that_a_position_was_not_the_clocks(self) -> None:
        good = GAME.closing[2]  # closes at tick 18
        reader = begun(*asked(0, f"bid {good} ((2 50))", "@0 taken 0 0", 100), tick=6,
                       game=GAME.with_rooms([2] * 8, False))
        nights = Nights(reader)
        nights.follow(reader)
        before = nights.now()[good - 8]
        self.assertEqual(before.published, [[0, 0], [6, 50]])
        reader.read("\n".join(map(json.dumps, asked(
            1, f"bid {good} ((2 80))", "@1 taken 0 0", 601))))
        nights.follow(reader)
        self.assertEqual(nights.now()[good - 8].published, [[0, 0], [6, 80]])
        self.assertEqual(before.published, [[0, 0], [6, 50]])  # what was given stays as it was

    def test_a_flood_of_bids_makes_a_path_of_some_points(self) -> None:
        good, count = GAME.closing[7], 2000
        lines = [line for number in range(count)
                 for line in asked(0, f"bid {good} ((16 {number % 7 + 1}))",
                                   f"@{number} taken 0 0", number)]
        for live in (False, True):
            game = GAME.with_rooms([2] * 8, live)
            nights = Nights(reader := begun(game=game))
            for at in range(0, len(lines), 202):
                reader.read("\n".join(map(json.dumps, lines[at:at + 202])))
                was = nights.now()[good - 8].asks
                kept = [point[:] for point in was]
                nights.follow(reader)
                self.assertEqual(was, kept)  # what was shown is not changed
            last = nights.now()[good - 8]
            self.assertLessEqual(len(last.asks), 2 + count / 100 / STEP)
            self.assertEqual(last.asks[-1][1], (count - 1) % 7 + 1)
            self.assertEqual(len(last.published) > 1, live)
            self.assertEqual(nights.now(), nights_of(reader))


class WholeGames(unittest.TestCase):
    def test_nights_are_those_of_the_log(self) -> None:
        log = read_log((DATA / "lobby.log").read_text())
        nights = nights_of(read_journal(DATA / "lobby.journal"))
        for good, night in enumerate(nights, 8):
            closing = next(entry for entry in log.histories[good] if entry.call.do == "close")
            sold = sum(trade.units for trade in closing.trades)
            price = closing.trades[0].price if closing.trades else 0
            tick = 6 * (GAME.closing.index(good) + 1)
            assert night.closed is not None
            self.assertEqual(night.closed[0], tick)
            self.assertEqual(night.closed[2], sold)
            if sold:
                self.assertEqual(night.closed[1], price)
