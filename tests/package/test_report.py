"""The page of a game, of trades and scores that are made up here, and the command that makes it."""

import html
import os
import re
import unittest
from dataclasses import replace
from pathlib import Path
from typing import Any, Dict, List, Optional, Sequence, Tuple
from unittest import mock

from geesefuton.experiments import report_command as report
from geesefuton.records import report_page
from geesefuton.records.games import FLIGHTS, HOTELS, TICKS, Game, Package
from geesefuton.records.hindsight import Decision, Moment, Story
from geesefuton.records.logs import Log, Score, read_log
from geesefuton.records.report_page import Heading, ranks, why_nothing
from geesefuton.records.rules import prices_of
from geesefuton.records.ticks import MarketEvent, all_events
from tests.package.helpers import (PLAYED, SERVED_GAME, SERVED_LOG, TOP, cells_of, refusal, run,
                                   served_game, served_log)
from tests.package.run_cases import PlaceCase, read_csv

GAME, LOG = served_game(), served_log()
EVENTS = all_events(GAME, LOG)
PRICES = [event for event in EVENTS if event.what != "trade"]
NOBODY = Score(0, 0, 0, 0, 0, (None,) * 8)


def trade(good: int, agent: int, units: int, dollars: int) -> MarketEvent:
    """Units below 0 are sold. Trades of tickets have no tick."""
    return MarketEvent("trade", 7 if good < 16 else None, good, 0, agent, units, dollars)


def page_of(log: Log, events: Sequence[MarketEvent], game: Game = GAME) -> str:
    return report_page.page(game, log, events, Heading("my.game", "today"), game.words)


def text_of(log: Log = LOG, *trades: MarketEvent) -> str:
    return page_of(log, [*PRICES, *trades])


def scored(*scores: int, left: Sequence[int] = ()) -> Log:
    """The log with other scores, of seats whose agents have quit, but for some that left."""
    rows = tuple(replace(row, score=score) for row, score in zip(LOG.scores, scores))
    return replace(LOG, scores=rows, ends={
        agent: "end" if agent in left else "quit" for agent in range(8)})


def table_of(text: str, heading: str) -> List[List[str]]:
    return cells_of(text.split(f">{heading}</h", 1)[1])


class Money(unittest.TestCase):
    """What agents 0 and 1 paid and earned."""

    def setUp(self) -> None:
        bought = ((0, 1, 300), (7, 2, 250), (8, 1, 10), (11, 2, 20), (12, 1, 40), (15, 3, 80),
                  (16, 2, 5), (27, 1, 7))
        sold = ((27, 3, 50), (16, 1, 1))
        self.text = text_of(
            scored(90, 80, 0, 0, 0, 0, 0, 0), *(trade(good, 0, units, dollars)
                                                for good, units, dollars in bought),
            *(trade(good, 0, -units, dollars) for good, units, dollars in sold),
            trade(16, 1, 1, 9), trade(17, 1, -1, 60))

    def test_by_kind(self) -> None:
        rows = table_of(self.text, "What each team paid and earned")
        self.assertEqual(rows[:3], [
            ["team", "flights", "Shanties", "Towers", "tickets", "tickets sold", "cash"],
            [GAME.words[0], "800", "50", "280", "17", "151", "−996"],
            [GAME.words[1], "0", "0", "0", "9", "60", "51"]])
        self.assertEqual([row[1:] for row in rows[3:]], [["0"] * 6] * 6)
        self.assertEqual([row[0] for row in rows[1:]],
                         [row[1] for row in table_of(self.text, "Scores")[1:]])

    def test_by_good(self) -> None:
        rows = table_of(self.text, "Trades")
        self.assertEqual(rows, [
            ["good", "bought", "for", "sold", "for", "cash"],
            ["in, day 1", "1", "300", "", "", "−300"], ["out, day 5", "2", "500", "", "", "−500"],
            ["Shanties, night 1", "1", "10", "", "", "−10"],
            ["Shanties, night 4", "2", "40", "", "", "−40"],
            ["Towers, night 1", "1", "40", "", "", "−40"],
            ["Towers, night 4", "3", "240", "", "", "−240"],
            ["alligators, night 1", "2", "10", "1", "1", "−9"],
            ["museum, night 4", "1", "7", "3", "150", "143"]])
        other = table_of(self.text.split("</details>")[1], "Trades")
        self.assertEqual(other[1:], [["alligators, night 1", "1", "9", "", "", "−9"],
                                     ["alligators, night 2", "", "", "1", "60", "60"]])

    def test_tickets(self) -> None:
        rows = table_of(self.text, "Ticket prices")
        self.assertEqual(rows[0], ["ticket", "traded", "lowest", "mean", "highest"])
        self.assertEqual(rows[1], ["alligators, night 1", "3", "5", "6", "9"])  # 19 dollars for 3
        self.assertEqual(rows[2], ["alligators, night 2", "0", "–", "–", "–"])
        self.assertEqual(rows[12], ["museum, night 4", "1", "7", "7", "7"])


class Scores(unittest.TestCase):
    def test_of_the_kept_game(self) -> None:
        rows = table_of(page_of(LOG, EVENTS), "Scores")[1:]
        self.assertEqual([row[:3] for row in rows], [
            ["1", "twotrips", "507"], ["2", GAME.words[7], "294"], ["3", "watcher", "0"],
            ["4", "boom", "−367"], ["5", GAME.words[2], "−566"], ["6", GAME.words[1], "−726"],
            ["–", "gone", "0"], ["–", "goneb", "0"]])
        self.assertEqual([rows[place][4:] for place in (0, 2, 3)], [
            ["1,302", "−795", "7 of 8", "0", "played to the end"],
            ["0", "0", "8 of 8", "0", "made no call; played to the end"],
            ["0", "−367", "8 of 8", "0", "no seats out, no rooms; left without quit"]])

    def test_the_best_come_first_and_those_without_a_rank_last(self) -> None:
        log = scored(-5, 30, 30, 900, 0, 70, 800, 20, left=(3, 6))
        rows = table_of(text_of(log), "Scores")[1:]
        self.assertEqual([row[0] for row in rows], ["1", "2", "2", "4", "5", "6", "–", "–"])
        self.assertEqual([row[2] for row in rows], ["70", "30", "30", "20", "0", "−5", "900",
                                                    "800"])
        self.assertNotIn(7, ranks(replace(LOG, seats=LOG.seats[:7])))  # no link had the seat

    def test_how_it_went(self) -> None:
        causes = ("quit", "end", "readfault", "writefault", "budget", "quit", "quit", "quit")
        log = replace(LOG, ends=dict(enumerate(causes)), scores=tuple(
            replace(NOBODY, agent=agent, best=1, score=8 - agent) for agent in range(8)))
        told = {row[1]: row[8] for row in table_of(text_of(log), "Scores")[1:]}
        self.assertEqual([told[word] for word in GAME.words[:5]], [
            "played to the end", "left without quit", "lost its link", "lost its link",
            "used up its lines"])

    def test_what_the_columns_are(self) -> None:
        trip = Package(0, 1, 3, (1, 0, 2))
        row = Score(0, 1700, -650, 2, 650, (trip, None, None, trip, None, None, None, None))
        rows = table_of(text_of(replace(LOG, scores=(row, *LOG.scores[1:]))), "Scores")
        self.assertEqual(rows[0], ["", "team", "score", "", "trips", "cash", "left home",
                                   "ticketsshort", "how it went"])
        self.assertEqual(rows[1], ["1", GAME.words[0], "650", "", "1,700", "−650", "6 of 8", "2",
                                   "played to the end"])

    def test_bars_are_of_one_scale_from_0(self) -> None:
        for scores, due in (
                ([100, 75, 50, 50, 50, 50, 50, 25], [("0.0", "fill", "0.0", "100.0"),
                                                     ("0.0", "fill", "0.0", "75.0")]),
                ([50] * 7 + [200], [("0.0", "fill", "0.0", "100.0"),
                                    ("0.0", "fill", "0.0", "25.0")]),
                ([300, 0, 0, 0, 0, 0, -100, -50], [("25.0", "fill", "25.0", "75.0")]),
                ([0] * 8, [("0.0", "fill", "0.0", "0.0")] * 8)):
            bars = re.findall(r'"zero" style="left:([\d.]+)%"></i><i class="([a-z ]+)" '
                              r'style="left:([\d.]+)%;width:([\d.]+)%"', text_of(scored(*scores)))
            self.assertEqual((bars[:len(due)], len(bars)), (due, 8))
            if min(scores) < 0:
                self.assertEqual(bars[-2:], [("25.0", "fill less", "12.5", "12.5"),
                                             ("25.0", "fill less", "0.0", "25.0")])

    def test_why_a_seat_has_nothing(self) -> None:
        for goods, due in (((0,), "no seats out, no rooms"), ((3, 4), "no rooms"),
                           ((7,), "no seats in, no rooms"), ((8,), "no seats in, no seats out"),
                           ((15, 4), "no seats in"), ((0, 11), "no seats out"),
                           ((16,), "no seats in, no seats out, no rooms"),
                           ((0, 4, 8), "its goods make no trip"),
                           ((3, 7, 12), "its goods make no trip"), ((), "bought nothing")):
            events = [trade(good, 1, 1, 5) for good in goods]
            events += [trade(good, 2, 1, 5) for good in (0, 4, 8)]  # another's
            self.assertEqual(why_nothing(LOG, [*PRICES, *events], LOG.scores[1]), due, goods)
        seatless = replace(LOG, seats=LOG.seats[:7])
        for log, score, due in ((LOG, LOG.scores[0], ""), (seatless, LOG.scores[7], ""),
                                (LOG, LOG.scores[3], "made no call"),
                                (seatless, replace(LOG.scores[7], best=0), "no link had the seat")):
            self.assertEqual(why_nothing(log, EVENTS, score), due)


Points = List[Tuple[int, float]]


class Charts(unittest.TestCase):
    """The charts of prices, by the game file and the published prices."""

    def charts(self) -> List[Dict[str, str]]:
        form = (r'<figcaption>(?P<title>.*?)</figcaption>.*?class="line" d="(?P<path>.*?)"/></svg>'
                r'(?P<dot>.*?)<span class="top">(?P<top>\d+)</span>'
                r'<span class="low">(?P<low>\d+)</span>')
        found = [match.groupdict() for match in re.finditer(form, text_of(LOG, trade(0, 1, 1, 9)))]
        self.assertEqual(len(found), 16)
        return found

    def path(self, prices: List[Tuple[int, int]], low: int, high: int) -> Points:
        return [(tick, round(100 - 100 * (price - low) / (high - low), 1))
                for tick, price in prices]

    def test_flights(self) -> None:
        all_prices = [price for flight in GAME.flights for price in prices_of(flight)]
        low, high = min(all_prices) // 50 * 50, (max(all_prices) + 49) // 50 * 50
        for chart, flight in zip(self.charts()[:8], GAME.flights):
            self.assertEqual((chart["low"], chart["top"], chart["dot"]), (str(low), str(high), ""))
            drawn = [(int(tick), float(y)) for tick, y in
                     re.findall(r"[ML](\d+) ([\d.]+)", chart["path"])]
            prices = list(enumerate(prices_of(flight)))
            self.assertEqual(drawn, self.path([*prices, (TICKS, prices[-1][1])], low, high))
        self.assertEqual([chart["title"] for chart in self.charts()[:8]], [
            f"day {day}: <b>{prices_of(flight)[0]} to {prices_of(flight)[-1]}</b>"
            for day, flight in zip((1, 2, 3, 4, 2, 3, 4, 5), GAME.flights)])

    def test_hotels(self) -> None:
        high = (max(event.dollars for event in PRICES if event.good in HOTELS) + 99) // 100 * 100
        for chart, good in zip(self.charts()[8:], HOTELS):
            self.assertEqual((chart["low"], chart["top"]), ("0", str(high)))
            prices = [(event.tick or 0, event.dollars) for event in PRICES if event.good == good]
            start, *rest = re.findall(r"M(\d+) ([\d.]+)|H(\d+)V([\d.]+)", chart["path"])
            drawn = [(int(start[0]), float(start[1]))]
            drawn += [(int(tick), float(y)) for _, _, tick, y in rest]
            due = self.path(prices, 0, high)
            self.assertEqual(drawn, due)
            closes = GAME.hotels[good - 8].closes
            self.assertEqual(due[-1][0], closes)
            self.assertIn(f'left:{closes * 100 / TICKS:.1f}%;top:{due[-1][1]:.1f}%', chart["dot"])
            sold = next(entry.reply for entry in LOG.histories[good] if entry.call.do == "close")
            self.assertEqual(chart["title"], f"night {good % 4 + 1}: <b>{getattr(sold, 'price')} "
                                             f"at tick {closes}</b>")

    def test_groups(self) -> None:
        groups = re.split(r'<h3>([^<]*)</h3><div class="charts">', text_of())
        self.assertEqual(groups[1::2], ["Flights in", "Flights out", "Shoreline Shanties",
                                        "Tampa Towers"])
        self.assertEqual([part.count("<figure>") for part in groups[2::2]], [4] * 4)

    def test_scales_of_prices_that_are_alike(self) -> None:
        flat = [event._replace(dollars=200 if event.good in FLIGHTS else 0) for event in PRICES]
        text = page_of(LOG, flat)
        labels = re.findall(r'"top">(\d+)</span><span class="low">(\d+)<', text)
        self.assertEqual(labels, [("250", "200")] * 8 + [("100", "0")] * 8)


class Parts(unittest.TestCase):
    def test_a_table(self) -> None:
        self.assertEqual(
            report_page.table(["a", "b"], [[1, "x"], [2, "y"]], (1,)),
            '<div class="wide"><table><tr><th>a</th><th class="t">b</th></tr>'
            '<tr><td>1</td><td class="t">x</td></tr><tr><td>2</td><td class="t">y</td></tr>'
            '</table></div>')

    def test_the_head(self) -> None:
        text = text_of(replace(LOG, missed=3))
        trades = sum(len(entry.trades) for history in LOG.histories for entry in history)
        rooms = list(map(str, GAME.rooms))
        self.assertIn("my.game, played over links; the log was written today. "
                      f"{trades} trades. Rooms: Shanties {' '.join(rooms[:4])}, "
                      f"Towers {' '.join(rooms[4:])}. 3 ticks lapsed. ", text)
        self.assertNotIn("lapsed", text_of())
        self.assertIn(f"<title>A game of {', '.join(GAME.words)}</title>", text)

    def test_texts_of_others_are_escaped(self) -> None:
        names = [f"<zz{number} & co" for number in range(8)]
        heading = Heading("<zz & b.game", "<zz & today", "<zz & unsound")
        story = Story([Moment(0, 0, (0,) * 28, (0,) * 28, {})] * (TICKS + 1),
                      [Decision(9, "<zz & lost")])
        text = report_page.page(GAME, LOG, PRICES, heading, names, [story] * 8)
        for due, count in ((heading.game, 1), (heading.written, 1), (heading.warning, 1),
                           (story.decisions[0].text, 8), *((name, 4) for name in names)):
            self.assertEqual(text.count(html.escape(due)), count, due)
        self.assertNotIn("<zz", text)
        self.assertNotIn("& ", re.sub("(?s)<script>.*?</script>", "", text))

    def test_live_quotes_are_told_only_of_games_that_have_them(self) -> None:
        for live in (False, True):
            text = page_of(LOG, PRICES, replace(GAME, live=live))
            self.assertEqual("publish with each bid" in text, live)

    def clients(self, package: Optional[Package]) -> List[str]:
        """The row of client 0 of agent 0, who has a trip."""
        scores = (replace(LOG.scores[0], packages=(package, *[None] * 7)), *LOG.scores[1:])
        rows = table_of(text_of(replace(LOG, scores=scores)).split("<h2>Teams</h2>")[1],
                        "What each client wanted, and got on which nights")
        self.assertEqual(rows[0], ["client", "days", "Towers", "alligators", "park", "museum",
                                   "got", "days", "alligators", "park", "museum", "worth"])
        self.assertEqual([row[0] for row in rows[1:]], list("12345678"))
        return rows[1]

    def test_what_a_client_wanted_and_got(self) -> None:
        # The game file: client 0 0 4 5 149 3 113 153.
        wanted = ["1", "4–5", "149", "3", "113", "153"]
        self.assertEqual(self.clients(Package(1, 4, 5, (0, 0, 4))),
                         [*wanted, "Towers", "4–5", "", "", "4", "1,302"])
        self.assertEqual(self.clients(Package(0, 3, 5, (3, 4, 0))),
                         [*wanted, "Shanties", "3–5", "3", "4", "", "1,016"])
        self.assertEqual(self.clients(None), [*wanted, "stays at home", "", "", "", "", "0"])

    def test_the_best_team_is_shown_open(self) -> None:
        text = page_of(LOG, EVENTS)
        teams = re.findall(r"<details( open)?><summary>(.*?)</summary>", text)
        self.assertEqual(([is_open for is_open, _ in teams], teams[0][1]), (
            [" open", *[""] * 7], "<b>twotrips</b>: trips worth 1,302, cash −795, score 507"))
        self.assertEqual(text.count("stays at home"), 8 * 8 - 2)

    def test_it_stands_alone_and_is_whole(self) -> None:
        text = text_of()
        self.assertTrue(text.startswith("<!doctype html>") and text.endswith("</html>\n"))
        for outside in ("http:", "https:", "src=", "url(", "<link"):
            self.assertNotIn(outside, text)
        self.assertEqual(text.count("<table>"), text.count("</table>"))

    def test_letters_are_large_enough(self) -> None:
        style = report_page.STYLE
        self.assertIn("html { font-size: 26px; }", style)
        sizes = [float(size) for size in re.findall(r"font-size: ([0-9.]+)rem", style)]
        self.assertTrue(sizes and min(sizes) * 26 >= 20)


class Scripts(unittest.TestCase):
    def test_a_game_from_a_script(self) -> None:
        game = report.read_game((TOP / "examples" / "first.game").read_text())
        text = PLAYED.read_text()
        log = read_log(text[text.index("taclog"):])
        text = report_page.page(game, log, all_events(game, log), Heading("g", "t"), game.words)
        self.assertIn("played from a script or in turns", text)
        self.assertNotIn("Rooms:", text)


class Command(PlaceCase):
    """The command, with a stand-in for the program."""

    def setUp(self) -> None:
        super().setUp()
        self.use_program("echo sound")

    def shown(self, *flags: object, game: Path = SERVED_GAME, told: str = "", **how: Any) -> str:
        """What the command prints of a game by the kept log; if it fails, it tells this."""
        done = run("experiments.report_command", *flags, game, SERVED_LOG, **how)
        line = f"report: {told}\n" if told else ""
        self.assertEqual((done.returncode, done.stderr), (bool(told), line))
        return str(done.stdout)

    def refused(self, told: str, *words: object) -> None:
        with mock.patch("geesefuton.experiments.forms.Output",
                        side_effect=AssertionError("written")):
            self.assert_refused(told, "report_command", *(words or (SERVED_GAME, SERVED_LOG)),
                                status=1)

    def test_the_page(self) -> None:
        text = self.shown()
        self.assertIn("<h1>A game of TAC Classic</h1>", text)
        self.assertIn("served.game, played over links; the log was written 20", text)
        self.assertIn("<td class=\"t\">agent 7</td>", text)
        self.assertNotIn("warning\"", text)

    def test_words_which_are_passwords_are_shown_only_if_asked_for(self) -> None:
        words = ["red7k", "orange3x", "yellow9m", "green4", "blue77", "violet5", "brown8q", "grey0"]
        game = self.write("teams.game", served_game().named(words).text())
        plain, told, csv_rows = (self.shown(*flags, game=game)
                                 for flags in ((), ("--names",), ("--csv",)))
        for word in words:
            self.assertNotIn(word, plain + csv_rows)
            self.assertIn(f"<td class=\"t\">{word}</td>", told)
        names = "red, orange, yellow, green, blue, violet, brown, grey"
        self.assertIn(f"<title>A game of {names}</title>", plain)

    def test_the_csv(self) -> None:
        rows = read_csv(self.shown("--csv"))
        self.assertEqual(" ".join(rows[0]), "what tick good position agent units dollars")
        self.assertEqual(list(rows[0].values()),
                         ["price", "0", "0", "", "", "", str(GAME.flights[0].first)])
        self.assertEqual([int(row["dollars"]) for row in rows if row["what"] == "score"],
                         [507, -726, -566, 0, -367, 0, 0, 294])
        self.assertEqual(sum(row["what"] == "close" for row in rows), 8)

    def test_a_log_that_is_not_sound_or_cannot_be_audited(self) -> None:
        for body, parts in (
                ("echo unsound score 3; exit 9", ("served.log is not sound by", "unsound score 3")),
                ("echo text 5 1; exit 8", ("text 5 1",)),
                ("", ("there is no program /nowhere/tac",))):
            self.use_program(body)
            if not body:
                self.set(TAC="/nowhere/tac")
            for part in parts:
                self.refused(part)

    def test_files_that_are_none(self) -> None:
        lines = SERVED_LOG.read_text().splitlines(keepends=True)
        cut = self.write("cut.log", "".join(lines[:-30]))
        for told, *files in (
                (f"cut.log is not a complete log: line {len(lines) - 29}: ", SERVED_GAME, cut),
                ("is not a game file: line 1", SERVED_LOG, SERVED_LOG),
                ("is not a complete log: line 1", SERVED_GAME, SERVED_GAME),
                ("/nowhere/log: No such file", SERVED_GAME, "/nowhere/log"),
                ("/nowhere/game: No such file", "/nowhere/game", SERVED_LOG),
                ("Is a directory", SERVED_GAME, self.folder)):
            self.refused(told, *files)
        cut.write_bytes(b"")
        self.refused("line 1: expected a line `taclog 1`, but the text ends", SERVED_GAME, cut)

    def test_outputs_that_take_no_more(self) -> None:
        with open("/dev/full", "wb") as full:
            for flags in ((), ("--csv",)):
                self.shown(*flags, told="standard output: No space left on device", stdout=full)
        reading, writing = os.pipe()
        os.close(reading)
        self.shown(told="standard output: its reader has gone", stdout=writing)
        os.close(writing)

    def test_words_that_are_wrong(self) -> None:
        self.assertEqual(refusal("experiments.report_command", "--cs", SERVED_GAME, SERVED_LOG),
                         (2, "report: unrecognized arguments: --cs (see --help)\n"))
