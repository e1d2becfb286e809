"""The tables of a run, by games that are kept as data."""

import csv
import json
import re
import shutil
import unittest
from collections import defaultdict
from pathlib import Path
from typing import Any, Dict, List, Tuple
from unittest import mock

from geesefuton.experiments.results import Outcome, Row
from geesefuton.records.data import TABLES
from geesefuton.records.rules import prices_of
from tests.package.run_cases import PlaceCase, write_run
from tests.package.helpers import (DATA, PLAYED, SERVED_GAME, SERVED_LOG, TOP, completed, refusal,
                                   served_game)
from tests.package.journals import GAME

# A game by the clock of an earlier version, one with its journal, and one with its script.
LOG = PLAYED.read_text()
TEXTS: Dict[str, Dict[str, str]] = {
    "9": {"game": SERVED_GAME.read_text(), "log": SERVED_LOG.read_text()},
    "10": {"game": GAME.text(), "log": (DATA / "lobby.log").read_text(),
           "journal": (DATA / "lobby.journal").read_text()},
    "first-1": {"game": (TOP / "examples" / "first.game").read_text(),
                "log": LOG[LOG.index("taclog"):],
                "script": (TOP / "examples" / "three_agents.script").read_text()}}
NAMES = [f"agent {seat}" for seat in range(8)]
DEBIAN = Path("/usr/bin/python3")
HAS_PANDAS = Path("/usr/lib/python3/dist-packages/pandas").is_dir()


def read_tables(folder: Path) -> Dict[str, List[Dict[str, Any]]]:
    """The rows of all tables of a folder, with None for an empty cell, and whole numbers."""
    tables: Dict[str, List[Dict[str, Any]]] = {}
    for table in TABLES:
        with open(folder / f"{table}.csv", encoding="utf-8", newline="") as text:
            tables[table] = [{name: int(cell) if name != "deal" and re.fullmatch("-?[0-9]+", cell)
                              else cell or None for name, cell in row.items()}
                             for row in csv.DictReader(text)]
    return tables


def numbers(pattern: str, text: str) -> List[Tuple[int, ...]]:
    """The numbers of the lines of a log that begin so."""
    return [tuple(map(int, line.split()[1:])) for line in re.findall(f"^{pattern} .*$", text,
                                                                     re.MULTILINE)]


class Case(PlaceCase):
    """A folder as that of a run."""

    def setUp(self) -> None:
        super().setUp()
        self.source, self.out = self.folder / "run", self.folder / "tables"
        rows: List[Row] = []
        for number, (deal, texts) in enumerate(TEXTS.items(), 9):
            for suffix, text in texts.items():
                self.write(f"run/games/{number}.0.{suffix}", text)
            scores = [score[-1] for score in numbers("score", texts["log"])]
            rows += [Row(deal, 0, seat, NAMES[seat], scores[seat], Outcome.PLAYED, 700, nights=2.5,
                         number=number) for seat in (3, 1, 0, 2, 7, 5, 4, 6)]
        write_run(self.source, rows)

    def data(self) -> Tuple[int, str]:
        return refusal("experiments.data_command", self.source, self.out)

    def tables(self) -> Dict[str, List[Dict[str, Any]]]:
        self.assertEqual(self.data(), (0, ""))
        return read_tables(self.out)


class Sums(Case):
    def test_they_are_those_of_the_logs(self) -> None:
        tables = self.tables()
        self.assertEqual([(row["name"], row["ticks"]) for row in tables["games"]],
                         [("9.0", "log"), ("10.0", "journal"), ("11.0", "script")])
        for number, text in enumerate((texts["log"] for texts in TEXTS.values()), 1):
            rows = {name: [row for row in each if row.get("game") == number]
                    for name, each in tables.items()}
            sums: Dict[int, int] = defaultdict(int)
            for row in rows["trades"]:
                sums[row["seat"]] += row["dollars"]
            scores = numbers("score", text)
            for row, (seat, best, cash, short, score) in zip(rows["scores"], scores):
                self.assertEqual(
                    (row["seat"], row["agent"], row["utility"], row["cash"], row["short"],
                     row["score"]), (seat, NAMES[seat], best, cash, short, score))
                self.assertEqual(sums[seat], cash)
                self.assertEqual(row["flights"] + row["hotels"] + row["tickets"], cash)
                self.assertEqual(row["utility"] + cash - row["penalties"], score)
                trips = [trip for trip in rows["trips"] if trip["seat"] == seat]
                self.assertEqual((len(trips), sum(trip["worth"] for trip in trips)), (8, best))
            sides = sorted((side, units, price) for buyer, seller, units, price
                           in numbers("trade", text)
                           for side, units in ((buyer, units), (seller, -units)) if side != 8)
            self.assertEqual(sorted((row["seat"], row["units"], row["price"])
                                    for row in rows["trades"]), sides)
            calls = re.findall(r"^[0-7] (?:bid|withdraw).*$", text, re.MULTILINE)
            self.assertEqual(len({(row["good"], row["position"]) for row in rows["bids"]}),
                             len(calls))
            self.assertEqual(len(rows["quotes"]), 55 * 28)

    def test_what_stands_at_each_tick(self) -> None:
        rows = [row for row in self.tables()["quotes"] if row["game"] == 1]
        game = served_game()
        for flight in range(8):
            self.assertEqual([row["ask"] for row in rows if row["good"] == flight][:54],
                             prices_of(game.flights[flight]))
        for good, night in enumerate(game.hotels, 8):
            closed = [row["tick"] for row in rows if row["good"] == good and row["closed"]]
            self.assertEqual(closed, [*range(night.closes, 55)])

    def test_a_call_has_the_tick_of_the_script(self) -> None:
        rows = [row for row in self.tables()["bids"] if row["game"] == 3]
        script = [(0, line) for line in TEXTS["first-1"]["script"].splitlines()]
        ticks = sum(line == "tick" for _, line in script)
        self.assertGreater(ticks, 1)
        due, tick = [], 0
        for _, line in script:
            tick += line == "tick"
            words = line.split(" ", 3)
            if line != "tick" and words[1] in ("bid", "withdraw") and int(words[2]) < 28 \
                    and "(0 " not in line:
                due.append((tick, int(words[2]), int(words[0]), words[1]))
        found = {(row["tick"], row["good"], row["seat"], row["call"], row["position"])
                 for row in rows}
        self.assertEqual(sorted(each[:4] for each in found), sorted(due))

    def test_a_call_has_the_tick_of_the_journal(self) -> None:
        rows = [row for row in self.tables()["bids"] if row["game"] == 2]
        asked: Dict[Tuple[int, int, str], List[int]] = defaultdict(list)
        tick = 0
        for line in map(json.loads, TEXTS["10"]["journal"].splitlines()):
            tick = line.get("tick", tick)
            words = line.get("q", "").split(" ", 2)
            if words[0] in ("bid", "withdraw"):
                asked[line["a"], int(words[1]), words[0]].append(tick)
        tickets = [row for row in rows if row["good"] >= 16]
        self.assertGreater(len({row["tick"] for row in tickets}), 5)
        for row in tickets:
            self.assertIn(row["tick"], asked[row["seat"], row["good"], row["call"]])

    def test_clients_and_goods_of_each_deal(self) -> None:
        tables = self.tables()
        due = served_game().clients[3][5]
        self.assertIn({"deal": "9", "seat": 3, "client": 5, "arrive": due.arrive,
                       "depart": due.depart, "premium": due.premium, **dict(zip(
                           ("alligators", "park", "museum"), due.values))}, tables["deals"])
        goods = [row for row in tables["goods"] if row["deal"] == "9"]
        self.assertEqual(len(goods), 28)
        self.assertEqual([[row[f"endow{seat}"] for row in goods[16:]] for seat in range(8)],
                         [list(units) for units in served_game().endow])
        self.assertEqual([row["rooms"] for row in goods[7:10]], [None, *served_game().rooms[:2]])


class Reading(Case):
    def test_a_table_has_a_cell_for_each_column(self) -> None:
        self.data()
        for table, columns in TABLES.items():
            with open(self.out / f"{table}.csv", encoding="utf-8", newline="") as text:
                head, *rows = csv.reader(text)
            self.assertEqual((head, {len(row) for row in rows}), (columns, {len(columns)}))

    @unittest.skipUnless(HAS_PANDAS, "Debian's Python has no pandas")
    def test_pandas_reads_a_table_in_a_line(self) -> None:
        self.data()
        code = ("import pandas, sys; print(pandas.read_csv(sys.argv[1] + '/trades.csv')"
                ".groupby(['game', 'seat']).dollars.sum().to_dict())")
        told = completed(DEBIAN, "-c", code, self.out, check=True).stdout
        sums = {tuple(map(int, pair)): int(dollars) for *pair, dollars in
                re.findall(r"\((\d+), (\d+)\): (-?\d+)", told)}
        due = {(number, seat): cash for number, texts in enumerate(TEXTS.values(), 1)
               for seat, _, cash, _, _ in numbers("score", texts["log"]) if cash}
        self.assertEqual({key: dollars for key, dollars in sums.items() if dollars}, due)


class Refusals(Case):
    def test_what_is_no_run(self) -> None:
        (self.source / "run.json").unlink()
        self.assertEqual(self.data(), (1, f"data: {self.source}: it is not the folder of a "
                                          "tournament's run\n"))
        self.assertFalse(self.out.exists())
        shutil.rmtree(self.source)
        self.assertEqual(self.data()[0], 1)

    def test_nothing_is_written_over(self) -> None:
        self.write("tables/mine", "mine")
        self.assert_refused("has mine): name a new folder", "data_command", self.source, self.out)
        self.assertEqual(sorted(file.name for file in self.out.iterdir()), ["mine"])

    def test_games_that_cannot_be_read_are_named_and_the_others_go_on(self) -> None:
        games = self.source / "games"
        (games / "9.0.log").unlink()
        script = TEXTS["first-1"]["script"].replace("1 bid 13 ((2 80))\n", "")
        self.write("run/games/11.0.script", script)
        self.assertEqual(self.data(), (
            1, f"data: {games}/9.0.log: No such file or directory\n"
               f"data: {games}/11.0.script: it lacks entry 1 of good 13\n"))
        self.assertEqual([row["name"] for row in read_tables(self.out)["games"]], ["10.0"])

    def test_files_that_do_not_belong_together(self) -> None:
        lines = TEXTS["10"]["journal"].splitlines(keepends=True)
        place = next(place for place, line in enumerate(lines) if '"q":"bid 9' in line)
        agent = json.loads(lines[place])["a"]
        answer = next(later for later in range(place, len(lines))
                      if f'"a":{agent},"r"' in lines[later])
        journal = "".join(line for number, line in enumerate(lines)
                          if number not in (place, answer))
        for name, text, told in (
                ("10.0.journal", journal, r"it lacks entry \d+ of good 9"),
                ("10.0.log", TEXTS["9"]["log"], "its scores differ from the run's rows"),
                ("11.0.script", "tick\n" * 3, r"it lacks entry 0 of good \d+")):
            shutil.rmtree(self.out, ignore_errors=True)
            file = self.source / "games" / name
            before = file.read_text()
            self.write(f"run/games/{name}", text)
            status, lines_told = self.data()
            self.assertEqual(status, 1)
            self.assertRegex(lines_told, f"^data: .*/{name}: {told}\n$")
            file.write_text(before)

    def test_a_full_disk(self) -> None:
        with mock.patch("os.write", side_effect=OSError(28, "No space left on device")):
            self.assertEqual(self.data(), (1, f"data: {self.out}/games.csv: No space left on "
                                              "device\n"))
