import json
import os
import unittest
from dataclasses import replace
from pathlib import Path
from typing import Any, Dict, List, Optional

from geesefuton.experiments.forms import as_text
from geesefuton.experiments.joining import (Source, differences, joined, missing, pooled,
                                            read_source, twice)
from geesefuton.experiments.results import Kind, Outcome, Row
from geesefuton.experiments.runs import RunError
from geesefuton.experiments.summary import summarize
from tests.package.run_cases import PlaceCase, write_run
from tests.package.helpers import TOP, in_process, refusal, run

SETTINGS = "agents=mine+planner rotations=1 turns=40 rooms=16..16"


def source(name: str, *deals: int, seats: int = 4, **more: Any) -> Source:
    """Deals that were played once by two agents, the first of which has so many seats."""
    rows = [Row(str(deal), 0, seat, "mine" if seat < seats else "planner", 100 * deal + seat,
                Outcome.PLAYED, 5, Kind.TURNS, 2.5, 300.0, 1, SETTINGS,
                "aaaa" if seat < seats else "bbbb", number=deal)
            for deal in deals for seat in range(8)]
    return Source(name, [replace(row, **more) for row in rows])


class Differences(unittest.TestCase):
    def told(self, text: str, other: Source, first: Source = source("a.csv", 1, 2)) -> None:
        self.assertEqual(differences(first, other), [f"b.csv does not belong to a.csv: {text}"])
        self.assertEqual(len(joined([first, other])[1]), 1)

    def test_what_belongs_together(self) -> None:
        first, other = source("a.csv", 1, 2), source("b.csv", 3)
        self.assertEqual(joined([first, other]), ([*first.rows, *other.rows], []))
        broken = source("b.csv", 3, kind=Kind.UNREPEATABLE)
        self.assertEqual(joined([first, broken])[1], [])

    def test_what_does_not(self) -> None:
        for text, more in (
                ("its games are by the clock, not in turns", {"kind": Kind.SERVED}),
                ("turns is 20, not 40", {"settings": SETTINGS.replace("turns=40", "turns=20")}),
                ("agents is mine+planner*7, not mine+planner",
                 {"settings": SETTINGS.replace("planner", "planner*7")})):
            self.told(text, source("b.csv", 3, **more))
        lines = differences(source("a.csv", 1), source("b.csv", 2, settings=SETTINGS.replace(
            "turns=40 rooms=16..16", "turns=20 rooms=3..6")))
        self.assertEqual([line.rpartition(": ")[2] for line in lines],
                         ["turns is 20, not 40", "rooms is 3..6, not 16..16"])
        other = source("b.csv", 3)
        changed = [replace(row, files="cccc") if row.agent == "mine" else row for row in other.rows]
        self.told("the files, libraries or words of mine differ", Source("b.csv", changed))

    def test_games_that_are_there_twice(self) -> None:
        first = source("a.csv", 1, 2, 3)
        both = "b.csv and a.csv both have game"
        for other, due in ((source("b.csv", 3, 4), [f"{both} 3.0"]),
                           (source("b.csv", 2, 3), [f"{both} 2.0 and 1 more"]),
                           (first, ["a.csv has twice game 1.0 and 2 more"]),
                           (source("b.csv", 1, 2, rotation=1), [])):
            self.assertEqual(joined([first, other])[1], due)
        self.assertEqual(twice([Source("a.csv", [*first.rows, first.rows[8]])]),
                         ["a.csv has twice game 2.0"])


class Pools(unittest.TestCase):
    def test_each_pool_has_its_name_and_common_deals_are_compared(self) -> None:
        mixed = SETTINGS.replace("agents=mine+", "agents=mine*7+")
        first, other = source("p/one", 1, 2), source("p/seven", 1, 2, seats=7, settings=mixed)
        rows, refused = pooled([first, source("p/more", 3), other])
        self.assertEqual(refused, [])
        summary = summarize(rows)
        self.assertEqual({standing.agent: standing.seats for standing in summary.standings},
                         {"mine in p/one": 12, "planner in p/one": 12, "mine in p/seven": 14,
                          "planner in p/seven": 2})
        counts = {pair.score.count if pair.score else 0 for pair in summary.differences}
        self.assertEqual(counts, {2, 3})
        # The same deals and rotations in two pools are twice as many games.
        self.assertEqual((summary.games, summary.deals, len({row.game for row in rows})), (5, 3, 5))

    def test_a_pool_has_no_game_twice(self) -> None:
        self.assertEqual(pooled([source("a.csv", 1), source("b.csv", 1)])[1],
                         ["b.csv and a.csv both have game 1.0"])


class Reading(PlaceCase):
    def run_of(self, name: str, *deals: int, planned: Optional[int] = None,
               run: Optional[Dict[str, Any]] = None, **more: Any) -> Path:
        """The folder of a run with these deals, which was to have so many games."""
        rows = source(name, *deals, **more).rows
        return write_run(
            self.folder / name, rows, runs=[run or {"ended": "now", "status": 0, "lost": []}],
            planned=len({row.place for row in rows}) if planned is None else planned)

    def joined(self, *words: object) -> List[str]:
        """What is told on standard error."""
        status, text = in_process("experiments.tournament", "--summary", self.folder / "s.json",
                                  "--join", *words, printed=os.devnull)
        return [str(status), *text.splitlines()]

    def test_what_can_be_read_and_what_cannot(self) -> None:
        read = read_source(self.run_of("run", 2))
        self.assertEqual((read.rows, read.told, missing(read)), (source("", 2).rows, [], ""))
        old = self.run_of("old", 1)
        (old / "run.json").write_text('{"tournament": 1}')
        for path, text in ((self.folder / "none", "not the folder of a tournament's run"),
                           (TOP / "README.md", "not the folder of a tournament's run"),
                           (self.run_of("empty"), "empty: it has no games"),
                           (old, "run.json is not of a tournament of this version"),
                           (self.folder, "not the folder of a tournament's run")):
            with self.assertRaisesRegex(RunError, text):
                read_source(path)

    def test_a_half_written_row_is_left_out_with_its_game(self) -> None:
        folder = self.run_of("run", 1, 2)
        (folder / "scores.csv").write_text((folder / "scores.csv").read_text()[:-9])
        read = read_source(folder)
        self.assertEqual({row.deal for row in read.rows}, {"1"})
        self.assertEqual(len(read.told), 2)
        self.assertIn("game 2.0 has 7 rows, not 8; its game is left out", read.told[1])

    def test_runs_that_lack_games_are_refused(self) -> None:
        whole = self.run_of("a", 3, 4)
        stopped = self.run_of("b", 1, planned=40, run={"ended": "now", "status": 143, "lost": []})
        killed = self.run_of("c", 5, planned=40, run={"ended": None})
        lost = self.run_of("d", 6, planned=2, run={"ended": "now", "status": 1, "lost": ["game"]})
        for folder, told in ((stopped, "1 of 40 games were played (it was stopped)"),
                             (killed, "1 of 40 games were played (it was stopped)"),
                             (lost, "1 of 2 games were played (1 were lost)")):
            self.assertEqual(self.joined(whole, folder), ["1", f"tournament: {folder}: {told}"])
            self.assertFalse((self.folder / "s.json").exists())

    def test_whole_deals_are_enough_if_that_is_said(self) -> None:
        settings = SETTINGS.replace("rotations=1", "rotations=2")
        rows = [*source("", 1, 2, settings=settings).rows,
                *source("", 1, settings=settings, rotation=1).rows]
        folder = write_run(self.folder / "a", rows, planned=40, runs=[{"ended": "now"}])
        told = self.joined(folder, "--partial")
        self.assertEqual(told, [
            "1", f"tournament: {folder}: 1 deals were played whole; 1 are left out",
            f"tournament: {folder}: 3 of 40 games were played (0 were lost)"])
        self.assertIn('"games": 2,\n "deals": 1,', (self.folder / "s.json").read_text())

    def test_the_others_go_on_and_the_status_is_1(self) -> None:
        told = self.joined("--partial", self.run_of("a", 1), self.run_of("bad"),
                           self.run_of("run", 2, 3))
        self.assertEqual(told[0], "1")
        self.assertIn("bad: it has no games", told[1])
        self.assertIn('"games": 3,\n "deals": 3,', (self.folder / "s.json").read_text())

    def test_what_does_not_belong_together_is_refused_and_pooled(self) -> None:
        folders = [self.run_of("a", 1, 2), self.run_of("b", 2, kind=Kind.SERVED)]
        told = self.joined(*folders)
        self.assertEqual((told[0], len(told)), ("1", 3))
        self.assertTrue(told[1].endswith(f"b and {folders[0]} both have game 2.0"))
        self.assertIn("its games are by the clock, not in turns", told[2])
        self.assertFalse((self.folder / "s.json").exists())
        self.assertEqual(self.joined("--pool", *folders), ["0"])
        self.assertIn(f"mine in {folders[1]}", (self.folder / "s.json").read_text())

    def test_several_tournaments_are_summarized_as_one(self) -> None:
        rows = [Row(str(deal), 0, seat, "ab"[seat % 2], 100 * deal + seat, Outcome.PLAYED,
                    deal, number=deal) for deal in range(4) for seat in range(8)]
        folders = [write_run(self.folder / str(number), part, planned=2) for number, part in
                   enumerate((rows[:16], rows[16:]))]
        file = self.folder / "s.json"
        done = run("experiments.tournament", "--summary", file, "--join", *folders)
        self.assertEqual((done.returncode, done.stderr), (0, ""))
        self.assertEqual(done.stdout, as_text(summarize(rows)))
        self.assertEqual(json.loads(file.read_text())["deals"], 4)
        done = run("experiments.tournament", "--summary", "/nowhere/s.json", "--join", *folders)
        self.assertEqual((done.returncode, done.stderr),
                         (1, "tournament: the summary was not written to /nowhere/s.json: No such "
                             "file or directory\n"))
        with open("/dev/full", "wb") as full:
            done = run("experiments.tournament", "--join", *folders, stdout=full)
        self.assertEqual(done.returncode, 1)
        self.assertIn("standard output: No space left on device", done.stderr)
        self.assertEqual(refusal("experiments.tournament", "--join")[0], 2)
