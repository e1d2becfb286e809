"""What the games of a run have in common, by games that are kept as data."""

import csv
import importlib.util
import re
import unittest
from collections import defaultdict
from dataclasses import replace
from typing import Any, Dict, List, Optional, Tuple

from geesefuton.experiments.comparisons import missing_libraries
from geesefuton.experiments.runs import read_games, read_scores
from geesefuton.experiments.summary import summarize
from geesefuton.records.best_plans import best_plan
from geesefuton.records.drawing import made_game
from geesefuton.records.games import Client, read_game
from geesefuton.records.report_page import number
from geesefuton.records.rules import prices_of
from tests.package.helpers import cells_of, needs_study, refusal, run, served_game
from tests.package.test_best_plans import OPTIMA, counted, small_case, tight_case
from tests.package.test_data import NAMES, TEXTS, Case, numbers
from tests.package.run_cases import games_of

if not missing_libraries("these tests"):
    from geesefuton.experiments.overview import (PARTS, best_allocation, figures_of, optimum,
                                                 overview_of, table_of)
    from geesefuton.experiments.overview_page import page


@needs_study
class Allocations(unittest.TestCase):
    def test_no_trips_are_worth_more(self) -> None:
        small = [(case, counted(*case)) for case in map(small_case, range(4))]
        for case, due in (*small, *((tight_case(seed), due) for seed, due in OPTIMA.items())):
            self.assertEqual(best_allocation(*case), (due, due))

    def test_sixty_four_clients(self) -> None:
        """The best known allocation is the bound, and more than by looking for better trips one
        client after the other."""
        game = made_game(1)
        clients = [client for clients in game.clients for client in clients]
        held = [0] * 8 + list(game.rooms) + list(map(sum, zip(*game.endow)))
        prices = [*(flight.first for flight in game.flights), *[None] * 20]
        found = best_allocation(clients, held, prices)
        self.assertEqual(found.value, found.bound)
        self.assertGreater(found.value, best_plan(clients, held, prices).value)


@needs_study
class Optima(unittest.TestCase):
    def test_all_clients_share_what_there_is(self) -> None:
        # One room a night in each hotel; a seat costs 300 each way.
        client = Client(1, 2, 100, (0, 0, 0))
        game = served_game()
        text = re.sub(r"(?m)^(flight \d) \d+ ", r"\1 300 ", game.text())
        text = re.sub(r"(?m)^(endow \d).*$", r"\1" + " 0" * 12, text)
        text = re.sub(r"(?m)^rooms .*$", "rooms" + " 1" * 8, text)
        text = re.sub(r"(?m)^(client \d \d).*$", r"\1 1 2 100 0 0 0", text)
        same = read_game(text)
        self.assertEqual(same.clients[7][7], client)
        # Each of the four nights has two rooms. For a stay of a night with the wished day in or
        # out a client gets 1000 or 1000 less 200 for each day later, less the two seats.
        nights = [1000 - 200 * night - 600 for night in range(4)]
        due = sum(2 * worth + 100 for worth in nights if worth > 0)
        due += max(0, nights[2] + 100)  # the third night gains only in the better hotel
        found = optimum(same)
        self.assertEqual(found.value, due)
        self.assertGreaterEqual(found.bound, due)


@needs_study
class Games(Case):
    figures: List[Any] = []  # found once for all tests

    def setUp(self) -> None:
        super().setUp()
        self.rows = read_scores(self.source).rows
        if not self.figures:
            for kept in read_games(self.source, self.rows, []):
                self.figures.append(figures_of(kept, optimum(kept.game)))
        self.overview = overview_of(self.figures)
        self.by_agent = {agent: seats for agent, seats in self.overview.seats.groupby("agent")}

    def test_the_parts_add_up_to_the_scores_of_the_logs(self) -> None:
        scores: Dict[str, List[int]] = defaultdict(list)
        trips: Dict[str, List[int]] = defaultdict(list)
        for texts in TEXTS.values():
            for seat, best, *_, score in numbers("score", texts["log"]):
                scores[NAMES[seat]].append(score)
                trips[NAMES[seat]].append(best)
        for agent in NAMES:
            seats = self.by_agent[agent]
            self.assertEqual(list(seats[PARTS].sum(axis=1)), scores[agent])
            self.assertEqual((list(seats.score), list(seats.trips)), (scores[agent], trips[agent]))
        means_of_all = [sum(scores[agent]) for agent in self.overview.order]
        self.assertEqual(means_of_all, sorted(means_of_all, reverse=True))

    def test_the_distance_is_that_to_the_best_plan_at_closing_prices(self) -> None:
        game, text = served_game(), TEXTS["9"]["log"]
        prices: List[Optional[int]] = [prices_of(flight)[-1] for flight in game.flights]
        parts = re.split(r"(?m)^(?:auction|cash) ", text)
        for part in parts[9:17]:
            prices += [int(price) for price in re.findall(r"close = sold \d+ (\d+)", part)]
        for part in parts[17:29]:
            trades = [(units, price) for *_, units, price in numbers("trade", part)]
            count = sum(units for units, _ in trades)
            prices.append(round(sum(units * price for units, price in trades) / count)
                          if trades else None)
        for seat, agent in enumerate(NAMES):
            plan = best_plan(game.clients[seat], [0] * 16 + list(game.endow[seat]), prices)
            score = numbers("score", text)[seat][-1]
            self.assertEqual(self.by_agent[agent].distance.iloc[0], plan.value - score)

    def test_nobody_has_more_than_the_bound(self) -> None:
        games = self.overview.games
        self.assertEqual((len(games), games.agents.nunique()), (3, 1))
        self.assertTrue((games[["had", "best"]].max(axis=1) <= games.bound).all())
        self.assertEqual(table_of(["b", "a", "b"]), "1 a, 2 b")

    def test_the_page_has_a_picture_and_a_table_for_each_figure(self) -> None:
        text = page(self.overview, "<run>", self.rows[0], summarize(self.rows))
        self.assertIn("&lt;run&gt;: 3 games of 3 deals, played by the clock.", text)
        sections = dict(re.findall(r"<h2>(.*?)</h2>(.*?)(?=<h2>|</html>)", text, re.DOTALL))
        self.assertEqual(list(sections)[:3], ["Ranking", "Differences", "The parts of scores"])
        self.assertEqual(len(sections), 5)
        for name, section in sections.items():
            self.assertGreater(section.count('class="bar"'), 0 if name != "Differences" else -1,
                               name)
            self.assertGreaterEqual(section.count("<table>"), 1, name)
        rows = cells_of(sections["The parts of scores"].split("</table>")[1])[1:]
        best = self.overview.order[0]
        means = self.by_agent[best][["score", *PARTS]].mean()
        self.assertEqual(rows[0], [best, "3", *map(number, means)])

    def test_names_are_escaped(self) -> None:
        rows = [replace(row, agent=f"<zz{row.agent} & co") for row in self.rows]
        overview = overview_of([
            ([(deal, f"<zz{agent} & co", *more) for deal, agent, *more in seats],
             (f"<zz{agents}", *rest)) for seats, (agents, *rest) in self.figures])
        text = page(overview, "<zz & run", rows[0], summarize(rows))
        self.assertNotIn("<zz", text)
        self.assertNotIn("& ", re.sub("(?s)<script>.*?</script>", "", text))
        self.assertIn("&lt;zz &amp; run", text)

    def test_the_first_screen_tells_who_is_separated_and_what_would_separate_neighbours(self
                                                                                       ) -> None:
        rows = games_of(**{agent: [base + (-1) ** (deal + seat) * 40 for deal in range(6)] for
                           seat, (agent, base) in enumerate(zip("abc", (3000, 1030, 1000)))})
        summary = summarize(rows)
        text = page(self.overview, "run", rows[0], summary)
        ranking, differences = (text.split(f"<h2>{name}</h2>")[1].split("<h2>")[0]
                                for name in ("Ranking", "Differences"))
        cells = cells_of(ranking)
        self.assertEqual([(line[0], line[1], line[2], line[4]) for line in cells[1:]],
                         [("1", "a", "3,000", "A"), ("2", "b", "1,030", "B"),
                          ("3", "c", "1,000", "B")])
        self.assertEqual(ranking.count('class="bar"'), 3)
        lines = cells_of(differences)
        self.assertEqual([(line[0], line[-1]) for line in lines[1:2]], [("a less b", "separated")])
        self.assertEqual((lines[2][0], lines[2][-2]), ("b less c", "6"))
        self.assertGreater(int(lines[2][-1]), 10)
        self.assertIn("<summary>All other pairs</summary>", differences)

    def report(self, *words: object, status: int = 0) -> Tuple[str, List[str]]:
        """What the command prints of the run, and the lines that it tells."""
        done = run("experiments.report_command", "--over", *words)
        self.assertEqual(done.returncode, status, done.stderr)
        return done.stdout, done.stderr.splitlines()

    def test_pictures_for_a_paper_have_their_data_beside_them(self) -> None:
        place = self.source.parent / "pictures"
        words = (self.source, "--figures", place)
        self.assertEqual(self.report(*words)[1], [])
        names = {file.stem for file in place.iterdir()}
        self.assertEqual(names, {"ranking", "differences", "parts", "distances", "efficiencies"})
        with open(place / "parts.csv", newline="", encoding="utf-8") as text:
            lines = list(csv.DictReader(text))
        self.assertEqual([line["of"] for line in lines], self.overview.order)
        self.assertAlmostEqual(float(lines[0]["trips"]),
                               self.by_agent[self.overview.order[0]].trips.mean())
        if importlib.util.find_spec("matplotlib") is not None:
            self.assertEqual(len(list(place.iterdir())), 15)
            svg = (place / "ranking.svg").read_bytes()
            self.report(*words)
            self.assertEqual((place / "ranking.svg").read_bytes(), svg)
        (place / "parts.csv").unlink()
        (place / "parts.csv").mkdir()
        fault, = self.report(*words, status=1)[1]
        self.assertIn("parts.csv: Is a directory", fault)

    def test_the_command(self) -> None:
        self.assertEqual(self.report(self.source / "games", status=1), (
            "", [f"report: {self.source}/games: it is not the folder of a tournament's run"]))
        for words in (("--over", self.source, "my.game"), ("--over", self.source, "--csv"), (),
                      ("a",), ("--figures", "x", "my.game", "my.log")):
            self.assertEqual(refusal("experiments.report_command", *words)[0], 2)
        (self.source / "games" / "9.0.log").unlink()
        (self.source / "games" / "10.0.game").write_text("no game\n")
        text, told = self.report(self.source, status=1)
        self.assertEqual(["10.0.game: line 1: " in line for line in sorted(told)], [True, False])
        self.assertIn("The folder run: 1 game of 1 deal", text)
