import errno
import json
import os
import pickle
import random
import signal
import sys
import time
from dataclasses import replace
from multiprocessing import get_context
from multiprocessing.process import BaseProcess
from typing import Any, Dict, List, Set, Tuple
from unittest import mock

from geesefuton.experiments import tournament
from geesefuton.experiments.deals import Rule
from geesefuton.experiments.plan import Plan
from geesefuton.experiments.provenance import Agent
from geesefuton.experiments.results import HEAD, Outcome, Result, Row, text_of
from geesefuton.experiments.runs import RunError, RunFolder, is_run, read_scores
from geesefuton.experiments.seating import Seating
from geesefuton.records.tables import csv_of
from tests.package.run_cases import PlaceCase, files_of
from tests.package.helpers import SERVED_GAME, worker

MINE = Agent("mine", "mine.py", ["mine.py"], {"mine.py": "00"})


def rows_of(*games: Tuple[int, int]) -> List[Row]:
    return [Row("0a1b", rotation, seat, "mine", 100 + seat, Outcome.PLAYED, 5, settings="x=1",
                files="0123", number=number) for number, rotation in games for seat in range(8)]


class Folders(PlaceCase):
    def setUp(self) -> None:
        super().setUp()
        self.out = self.folder / "runs" / "1"
        self.use_program("exit 1")
        self.patch("experiments.runs.MOST_WAIT", 0.1)

    def plan(self, **more: Any) -> Plan:
        plan = Plan([], Rule(seed=1), 4, 1, 1, 7, 0, 0.1, "words", 1.5, 2.5, self.out,
                    Seating(1), settings={"turns": 40, "rooms": "16..16"}, agents={"mine": MINE})
        return replace(plan, **more)

    def begin(self, **more: Any) -> RunFolder:
        return RunFolder(self.plan(**more), ["--games", "4"])

    def value(self) -> Dict[str, Any]:
        value: Dict[str, Any] = json.loads((self.out / "run.json").read_text())
        return value

    def refused(self, told: str, **more: Any) -> None:
        before = files_of(self.folder)
        with self.assertRaises(RunError) as caught:
            self.begin(is_resumed=True, **more)
        self.assertIn(told, str(caught.exception))
        self.assertEqual(before, files_of(self.folder))

    def test_a_new_run(self) -> None:
        run = self.begin()
        self.assertEqual((run.number, run.rows, run.told, run.finished), (1, [], [], set()))
        self.assertEqual(read_scores(self.out).rows, [])
        run.out.write(text_of(rows_of((1, 0))))
        value = self.value()
        begun = value["runs"][0]
        self.assertEqual((value["tournament"], value["settings"], len(value["tac"]),
                          len(value["package"])), (2, {"turns": 40, "rooms": "16..16"}, 64, 64))
        self.assertEqual(value["agents"], [{
            "name": "mine", "command": "mine.py", "words": ["mine.py"], "files": {"mine.py": "00"},
            "libraries": {}, "digest": MINE.digest}])
        self.assertEqual((begun["run"], begun["arguments"], begun["ended"]),
                         (1, ["--games", "4"], None))
        self.assertTrue({"host", "python", "load", "commit", "began"} <= set(begun))
        run.end(1, 1, ["game 2.0 is lost: why"])
        ended = self.value()["runs"][0]
        self.assertEqual((ended["status"], ended["games"], ended["lost"], ended["ended"] is None),
                         (1, 1, ["game 2.0 is lost: why"], False))
        self.assertEqual(read_scores(self.out).rows, rows_of((1, 0)))
        self.assertEqual((is_run(self.out), is_run(self.folder)), (True, False))

    def test_a_run_goes_on(self) -> None:
        first = self.begin()
        first.out.write(text_of(rows_of((1, 0), (2, 0))))
        first.end(143, 2, [])
        second = self.begin(is_resumed=True)
        self.assertEqual((second.number, second.finished, second.told), (2, {(1, 0), (2, 0)}, []))
        second.out.write(text_of(rows_of((3, 0))))
        second.end(0, 1, [])
        self.assertEqual(read_scores(self.out).rows, rows_of((1, 0), (2, 0), (3, 0)))
        runs = self.value()["runs"]
        self.assertEqual([(run["run"], run["status"], run["games"]) for run in runs],
                         [(1, 143, 2), (2, 0, 1)])
        self.assertNotIn(None, [run["ended"] for run in runs])

    def test_what_is_half_written_is_told_and_taken_out(self) -> None:
        self.begin().end(0, 0, [])
        whole = csv_of([HEAD]) + text_of(rows_of((1, 0), (2, 0)))
        cases: List[Tuple[str, List[str], List[Tuple[int, int]]]] = [
                (whole[:-5], ["was half written", "game 2.0 has 7 rows"], [(1, 0)]),
                (whole + "3,0,0,mi", ["was half written"], [(1, 0), (2, 0)]),
                (whole.replace("mine,103", "mine,?", 2).replace("mine,?", "mine,103", 1),
                 ["is not a row", "2.0 has 7 rows"], [(1, 0)]),
                (whole + text_of(rows_of((2, 0))), ["2.0 has 16 rows"], [(1, 0)]),
                ("deal,rota", [], []), ("", [], [])]
        for text, told, left in cases:
            (self.out / "scores.csv").write_text(text)
            run = self.begin(is_resumed=True)
            self.assertEqual(run.rows, rows_of(*left))
            self.assertEqual(len(run.told), len(told), run.told)
            for line, part in zip(run.told, told):
                self.assertIn(part, line)
            self.assertEqual((self.out / "scores.csv").read_text(),
                             csv_of([HEAD]) + text_of(rows_of(*left)))
            run.end(0, 0, [])

    def test_files_of_games_that_were_not_finished_are_removed(self) -> None:
        run = self.begin()
        run.out.write(text_of(rows_of((1, 0), (12, 1))))
        run.end(0, 2, [])
        kept = ["1.0.game", "1.0.out.red", "12.1.log", "notes.txt"]
        for name in [*kept, "1.1.game", "2.0.log", "2.0.out.game", "12.0.events"]:
            (self.out / "games" / name).write_text("x")
        self.begin(is_resumed=True).end(0, 0, [])
        self.assertEqual(sorted(os.listdir(self.out / "games")), kept)

    def test_another_run_is_refused_with_its_difference(self) -> None:
        self.begin(is_resumed=True).end(0, 0, [])  # there is nothing yet to go on with
        self.assertRaisesRegex(RunError, "it has a run: continue it with --resume", self.begin)
        begun, mine = "its run began differently: ", "the files, libraries or words of mine differ"
        other = replace(MINE, files={"mine.py": "01"})
        for told, more in (
                (f"{begun}turns is 20, not 40", {"settings": {"turns": 20, "rooms": "16..16"}}),
                (f"{begun}{mine} (mine.py)", {"agents": {"mine": other}}),
                (mine, {"agents": {"mine": replace(MINE, libraries={"numpy": "2.0"})}}),
                ("of the seed 1, not of the seed 1001", {"rule": Rule(seed=1001)}),
                ("of the seed 1, not of the commitment 6", {"rule": Rule(bytes(range(32)))}),
                (f"turns is 41, not 40; {mine}", {
                    "settings": {"turns": 41, "rooms": "16..16"},
                    "agents": {"mine": replace(MINE, words=["mine.py", "-x"])}})):
            self.refused(told, **more)

    def test_folders_that_are_not_ours(self) -> None:
        self.write("runs/1/thesis.txt", "mine")
        with self.assertRaisesRegex(RunError, "not the folder of a tournament: it has thesis.txt"):
            self.begin()
        self.refused("it is not the folder of a tournament: it has thesis.txt")
        for text in ("{}", "no JSON"):
            (self.out / "run.json").write_text(text)
            self.refused("run.json is not of a tournament of this version")
        for file in self.out.iterdir():
            file.unlink()
        self.begin().end(0, 0, [])
        (self.out / "scores.csv").write_text("a,b\n1,2\n")
        self.refused("line 1 is not the head")

    def test_a_run_that_was_killed_when_it_had_only_its_secret(self) -> None:
        rule = Rule(bytes(range(32)))
        for text, other in (("mine", rule), (rule.secret.hex(), Rule(bytes(32)))):
            self.write("runs/1/secret", text + "\n")
            self.refused("it has secret, but no run.json", rule=other)
        run = self.begin(is_resumed=True, rule=rule)
        run.plan_games(1)
        run.end(143, 0, [])
        self.assertEqual(self.value()["deals"], rule.drawn)
        self.refused(f"its deals are of the commitment {rule.drawn['commitment']}, not of the "
                     f"commitment {Rule(bytes(32)).drawn['commitment']}", rule=Rule(bytes(32)))

    def test_two_at_once_are_refused(self) -> None:
        run = self.begin()
        self.refused("another tournament is writing to it")
        run.end(0, 0, [])
        self.begin(is_resumed=True).end(0, 0, [])

    def test_a_file_system_may_have_no_locks(self) -> None:
        with mock.patch("fcntl.flock", side_effect=OSError(errno.ENOLCK, "No locks available")):
            run = self.begin()
            run.out.write(text_of(rows_of((1, 0))))
            run.end(0, 1, [])

    def test_rows_are_sorted_at_the_end(self) -> None:
        run = self.begin()
        run.out.write(text_of(rows_of((10, 0), (2, 1), (2, 0))))
        run.end(0, 3, [])
        self.assertEqual(read_scores(self.out).rows, rows_of((2, 0), (2, 1), (10, 0)))

    def test_a_folder_that_cannot_be_made(self) -> None:
        self.out = SERVED_GAME / "x"
        self.assertRaises(OSError, self.begin)


# A stand-in for the process of a game: it writes that it has begun, and scores soon.
WORKER = worker("""
with open(os.environ["BEGUN"], "a") as begun:
    begun.write(name + "\\n")
time.sleep(float(os.environ["LONGEST"]) * os.urandom(1)[0] / 255)
give(open(os.environ["RESULT"], "rb").read())
""")


class Killed(PlaceCase):
    """Runs of the command that are killed, with a stand-in for games and for the program."""

    KILLS, GAMES = 20, 120

    def setUp(self) -> None:
        super().setUp()
        result = Result(tuple(range(8)), (Outcome.PLAYED,) * 8)
        (self.folder / "result").write_bytes(pickle.dumps(result))
        self.begun, self.out = self.folder / "begun", self.folder / "run"
        self.begun.touch()
        self.use_program()
        self.set(BEGUN=str(self.begun), RESULT=str(self.folder / "result"))

    def start(self, longest: float) -> BaseProcess:
        """The command, in a copy of this process, which has loaded what it needs.

        Args:
            longest: The seconds that a game may last.
        """
        process = get_context("fork").Process(target=self.command, args=(longest,))
        process.start()
        self.addCleanup(process.close)
        return process

    def command(self, longest: float) -> None:
        """Runs the command in a process of its own, with all that it prints in a file."""
        printed = os.open(self.folder / "printed", os.O_WRONLY | os.O_CREAT | os.O_TRUNC)
        for number in (1, 2):
            os.dup2(printed, number)
        os.chdir(self.folder)
        os.environ["LONGEST"] = str(longest)
        sys.argv = ["tournament", "--games", str(self.GAMES), "--at-once", "3", "--out",
                    str(self.out), "--resume", "sh", "cat"]
        tournament.PLAYER = [sys.executable, "-c", WORKER]
        sys.exit(tournament.main())

    def printed(self) -> str:
        return (self.folder / "printed").read_text()

    def finished(self) -> Set[str]:
        return {f"{row.number}.{row.rotation}" for row in read_scores(self.out).rows}

    def begun_games(self) -> List[str]:
        return self.begun.read_text().split()

    def test_kills_lose_no_finished_game_and_none_is_played_twice(self) -> None:
        source = random.Random(6)
        texts: List[str] = []
        for kill in range(self.KILLS):
            finished, begun = self.finished(), len(self.begun_games())
            process = self.start(0.3)
            deadline = time.monotonic() + 60
            # Three play at once, so that one has ended where five have begun, on any machine.
            awaited = begun + source.randint(1, 5) if kill % 4 else 0
            while (len(self.begun_games()) < awaited and process.is_alive()
                   and time.monotonic() < deadline):
                time.sleep(0.01)
            time.sleep(source.random() * 0.2)
            process.kill()
            process.join()
            self.assertEqual(process.exitcode, -signal.SIGKILL, self.printed())
            self.assertFalse(finished & set(self.begun_games()[begun:]), self.printed())
            self.assertTrue(finished <= self.finished(), self.printed())
            file = self.out / "scores.csv"
            texts.append(file.read_text() if file.exists() else "")
        self.assertTrue(all(later.startswith(former) for former, later in zip(texts, texts[1:])))
        finished, begun = self.finished(), len(self.begun_games())
        self.assertTrue(0 < len(finished) < self.GAMES, finished)
        process = self.start(0.0)
        process.join()
        self.assertEqual(process.exitcode, 0, self.printed())
        self.assertIn(f"{len(finished)} games were finished by earlier runs", self.printed())
        self.assertFalse(finished & set(self.begun_games()[begun:]))
        rows = read_scores(self.out)
        self.assertEqual(rows.told, [])
        self.assertEqual([(row.number, row.rotation, row.seat) for row in rows.rows],
                         [(deal, rotation, seat) for deal in range(1, self.GAMES // 2 + 1)
                          for rotation in range(2) for seat in range(8)])
        runs = json.loads((self.out / "run.json").read_text())["runs"]
        self.assertEqual([run["status"] for run in runs if run["ended"]], [0])
        self.assertEqual(len({row.run for row in rows.rows} - {run["run"] for run in runs}), 0)
        texts = sorted(file.name for file in (self.out / "games").iterdir())
        self.assertEqual(texts, [])  # the stand-in writes none
