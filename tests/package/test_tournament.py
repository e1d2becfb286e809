"""The games of a tournament, with a stand-in for their processes."""

import hashlib
import json
import os
import pickle
import stat
import sys
import time
from dataclasses import replace
from multiprocessing.connection import Pipe
from pathlib import Path
from typing import Any, Dict, List, Optional, Tuple
from unittest import mock

from geesefuton.experiments.agents import Limits
from geesefuton.experiments.deals import Deal, Rule, Table
from geesefuton.experiments.entrants import Entrant
from geesefuton.experiments.forms import as_text
from geesefuton.experiments.covariates import covariates_of
from geesefuton.experiments.plan import MARGIN, Plan
from geesefuton.experiments.provenance import Agent
from geesefuton.experiments.results import (HEAD, Kind, Message, Note, Outcome, Result, Row,
                                            read_rows)
from geesefuton.experiments.runs import read_scores
from geesefuton.experiments.seating import Seating
from geesefuton.experiments.summary import summarize
from geesefuton.experiments.tournament import Player, Running, Tournament
from geesefuton.hosting import events
from geesefuton.processes import Children, Output, Stopped
from geesefuton.program import ProgramError
from geesefuton.records.secret_deals import agent_seed
from geesefuton.records.tables import csv_of
from tests.package.run_cases import PlaceCase
from tests.package.helpers import SERVED_GAME, in_process, served_game, worker

# A stand-in for the process of a game: seat s of game D.R scores 1000 D + 100 R + s. What FAULT
# says of the game GAME happens to it. It reads its job without the package, each of whose types is
# a `Value` here, and sends the messages of the folder MESSAGES with other texts and scores.
WORKER = worker("""
import io, pickle
class Value:
    def __new__(kind, *parts):
        value = object.__new__(kind)
        value.parts = parts
        return value
class Values(pickle.Unpickler):
    def find_class(self, module, name):
        return Value
def send(name, **more):
    text = open(os.path.join(os.environ["MESSAGES"], name), "rb").read()
    for old, new in more.items():
        text = text.replace(old.encode(), str(new).encode())
    give(text)
deal, rotation = name.split(".")
fault = os.environ.get("FAULT", "") if name == os.environ.get("GAME") else ""
if fault == "hang":
    time.sleep(60)
if fault == "die":
    os._exit(3)
if fault == "lose":
    send("lost")
else:
    job = Values(io.BytesIO(job)).load()
    told = f"{job.words[0]} {job.form} {job.pace} {job.start:g} {job.linger:g} {job.seeds[0]}"
    send("note", WHAT_IT_IS_TOLD=told)
    send("refused")
    send("warned")
    with open(os.path.join(*job.folder.parts, f"{job.name}.game"), "w") as file:
        file.write(job.game)
    score = 1000 * int(deal) + 100 * int(rotation)
    kind = "served" if not job.turns else "turns" if rotation == "0" else "unrepeatable"
    send(kind, **{f"I{90000 + seat}\\n": f"I{score + seat}\\n" for seat in range(8)})
""")


def messages(folder: Path) -> None:
    """Writes the messages of the stand-in, in a form that can be changed as a text."""
    outcomes = (*[Outcome.PLAYED] * 7, Outcome.HUNG)
    found: Dict[str, Message] = {
        "lost": Result(fault="why"), "note": Note("WHAT_IT_IS_TOLD"),
        "refused": events.Refused(0.0, "here", "syntax", "HELLO"),
        "warned": events.Warned(0.0, "a warning"),
        **{name: Result(tuple(range(90000, 90008)), outcomes, kind=kind) for name, kind in (
            ("served", Kind.SERVED), ("turns", Kind.TURNS), ("unrepeatable", Kind.UNREPEATABLE))}}
    for name, message in found.items():
        (folder / name).write_bytes(pickle.dumps(message, 0))


def entrants(*names: str) -> List[Entrant]:
    return [Entrant(name, (name,), name, name) for name in names]


def by_place(row: Row) -> Tuple[object, ...]:
    return row.place, row.seat


class Playing(PlaceCase):
    """Tournaments with a stand-in for the processes of games."""

    def setUp(self) -> None:
        super().setUp()
        messages(self.folder)
        self.set(MESSAGES=str(self.folder), FAULT="", GAME="")
        self.out, self.told = self.folder / "place", list[str]()
        (self.out / "games").mkdir(parents=True)
        self.patch("experiments.tournament.PLAYER", [sys.executable, "-c", WORKER])
        for module in ("tournament", "forms"):
            self.patch(f"experiments.{module}.tell",
                       lambda line, is_passing=False: self.told.append(line))
        self.patch("program.make", lambda seed: SERVED_GAME.read_text())
        self.left = 0

    def plan(self, *names: str, games: int = 2, rotations: int = 2, at_once: int = 2,
             turns: int = 0) -> Plan:
        agents = entrants(*(names or "ab"))
        return Plan(agents, Rule(seed=1), games, rotations, at_once, 7, turns, 0.1, "json", 1.5,
                    2.5, self.out, Seating(len(agents)))

    def tournament(self, plan: Plan, out: Optional[Output] = None, **more: Any) -> Tournament:
        (self.out / "scores.csv").write_text(csv_of([HEAD]))
        file = os.open(self.out / "scores.csv", os.O_WRONLY | os.O_APPEND)
        self.addCleanup(os.close, file)
        return Tournament(plan, mock.Mock(**{"out": out or Output(file), "finished": set(),
                                             "number": 1, "lock": file, **more}))

    def running(self, connection: Any = None, deadline: float = 0.0,
                result: Optional[Result] = None, *agents: str) -> Running:
        """The first game, which one agent, `a`, plays, or eight."""
        return Running(Table(Deal(1, served_game()), 0), entrants(*(agents or "a" * 8)),
                       Player(connection or mock.Mock(), mock.Mock()), deadline, result)

    def play(self, fault: str = "", game: str = "", out: Optional[Output] = None,
             **more: Any) -> Tournament:
        made = self.tournament(self.plan(**more), out=out)
        with mock.patch.dict(os.environ, {"FAULT": fault, "GAME": game}), Children() as children:
            made.play(children)
            self.left = len(list(children.groups.iterdir()))
        return made

    def rows(self) -> List[Row]:
        return sorted(read_rows((self.out / "scores.csv").read_text()).rows, key=by_place)

    def test_every_game_is_played(self) -> None:
        made = self.play(games=4)
        rows = self.rows()
        self.assertEqual(rows, sorted(made.rows, key=by_place))
        self.assertEqual([(row.number, row.rotation, row.seat) for row in rows],
                         [(deal, rotation, seat) for deal in (1, 2) for rotation in (0, 1)
                          for seat in range(8)])
        self.assertEqual({row.deal for row in rows}, {Deal(1, served_game()).name})
        self.assertEqual([row.score for row in rows[:9]], [*range(1000, 1008), 1100])
        for game in (rows[:8], rows[8:16]):
            self.assertEqual(sorted(row.agent for row in game), list("aaaabbbb"))
        self.assertTrue(all(one.agent != other.agent for one, other in zip(rows, rows[8:16])))
        self.assertEqual([row.end for row in rows[:8]], [Outcome.PLAYED] * 7 + [Outcome.HUNG])
        self.assertEqual([row.luck for row in rows[:8]],
                         [drawn.luck for drawn in covariates_of(served_game())])
        self.assertEqual({row.kind for row in rows}, {Kind.SERVED})
        self.assertEqual((made.lost, self.left), ([], 0))
        self.assertRegex(self.told[-1],
                         r"^game 4 of 4 \(deal [12], rotation [01]\): scored; 0:00 left$")

    def test_the_time_that_is_left_is_told_in_minutes_and_seconds(self) -> None:
        made = self.tournament(self.plan("a", games=3, rotations=1))
        with mock.patch("time.monotonic", return_value=made._began + 29.9):
            made._finish(self.running(result=Result(fault="why")))  # two more, of 29.9 seconds each
        self.assertEqual(self.told[-1], "game 1 of 3 (deal 1, rotation 0): lost; 1:00 left")

    def test_a_run_that_goes_on_plays_and_counts_only_what_is_missing(self) -> None:
        made = self.tournament(self.plan(games=4), finished={(1, 0), (1, 1), (2, 0)}, number=2)
        with Children() as children:
            made.play(children)
        self.assertEqual({(row.place, row.run) for row in self.rows()}, {((2, 1), 2)})
        self.assertEqual(self.told[-1], "game 1 of 1 (deal 2, rotation 1): scored; 0:00 left")

    def test_all_games_of_a_deal_begin_together_where_they_go_in_step(self) -> None:
        plan = replace(self.plan(games=4, at_once=1, turns=1), limits=Limits(),
                       agents={name: Agent(name, name, (), {}) for name in "ab"})
        counts: List[int] = []
        for each, most in ((plan, 2), (replace(plan, limits=None), 1)):
            counts.clear()
            made = self.tournament(each)
            hear = made._hear

            def counted(running: Any, hear: Any = hear) -> None:
                counts.append(len(running))
                hear(running)

            with Children() as children, mock.patch.object(made, "_hear", counted):
                made.play(children)
            self.assertEqual((len(self.rows()), counts[0], max(counts)), (32, most, most))

    def test_games_are_told_a_tick_once_all_games_of_their_deal_have_had_it(self) -> None:
        made = self.tournament(self.plan())
        deals = [Deal(number, served_game()) for number in (1, 2)]
        games = [Running(Table(deal, number), [], Player(mock.Mock(), mock.Mock()), 0.0, tick=tick)
                 for deal, number, tick in zip(deals[:1] * 3 + deals[1:], range(4), (3, 3, 2, 9))]

        def told() -> List[int]:
            made._tell_ticks(games)
            return [sum(call.args[0] for call in game.player.connection.send.call_args_list)
                    for game in games]

        self.assertEqual(told(), [2, 2, 2, 9])
        self.assertEqual(told(), [2, 2, 2, 9])  # once
        del games[2]  # it is lost
        self.assertEqual(told(), [5, 5, 9])
        self.assertGreater(games[0].deadline, time.monotonic())

    def test_what_games_tell_is_passed_on_and_their_settings_reach_them(self) -> None:
        self.play(games=1, rotations=1)
        name = self.rows()[0].agent
        seed = agent_seed(Rule(seed=1).secret, "1.0", f"0 {name}")
        self.assertIn(f"game 1.0: {name} json 7 1.5 2.5 {seed}", self.told)
        self.assertIn("game 1.0: refused a link as syntax: it sent 'HELLO'", self.told)
        self.assertIn("game 1.0: a warning", self.told)

    def test_games_have_their_files_and_words(self) -> None:
        self.play()
        names = sorted(file.name for file in (self.out / "games").glob("*.game"))
        self.assertEqual(names, ["1.0.game", "1.1.game"])
        words = (self.out / "games" / "1.0.game").read_text().split("\n")[1].split()[1:]
        self.assertEqual(sorted(words), ["a", "ab", "ac", "ad", "b", "bb", "bc", "bd"])

    def test_a_lost_game_is_told_and_loses_no_other(self) -> None:
        for fault, told in (("lose", "why"), ("die", "its process ended without a result")):
            made = self.play(fault, "1.1")
            self.assertEqual([row.place for row in self.rows()[::8]], [(1, 0)])
            self.assertEqual(made.lost, [f"game 1.1 is lost: {told}"])
            self.assertIn(f"game 1.1 is lost: {told}", self.told)

    def test_a_deal_that_cannot_be_made_ends_the_tournament_after_the_games_before(self) -> None:
        for fault, told in ((ProgramError("tac make broke"), "tac make broke"),
                            (OSError(28, "the disk is full"), "the disk is full")):
            made = [Deal(1, served_game()), fault]
            with mock.patch("geesefuton.experiments.deals.made_deal", side_effect=made):
                played = self.play(games=3, rotations=1)
            self.assertEqual([row.seat for row in self.rows()], list(range(8)))
            self.assertEqual(played.lost, [f"stopped playing games: {told}"])

    def test_a_game_that_takes_too_long_is_ended(self) -> None:
        self.patch("experiments.plan.MARGIN", -3.0)
        made = self.play("hang", "1.0", games=2, rotations=1, at_once=1)
        self.assertIn("game 1.0 is lost: it took longer than its ticks and all its waits",
                      made.lost)

    def test_a_game_that_has_ended_is_not_late_because_nobody_looked(self) -> None:
        """As after ctrl-Z: its messages came in time, and are read later than it may take."""
        made = self.tournament(self.plan("a", games=1, rotations=1))
        ours, theirs = Pipe()
        result = Result(tuple(range(8)), (Outcome.PLAYED,) * 8)
        with ours, theirs:
            game = self.running(ours, time.monotonic() - 1.0)
            for message in (events.Ticked(0.0, 54), Note("a note"), result):
                theirs.send(message)
            while not made._is_over(game):
                made._hear([game])
        self.assertEqual(game.result, result)
        self.assertIn("game 1.0: a note", self.told)

    def test_games_in_turns_are_told_apart(self) -> None:
        made = self.play(turns=5)
        rows = self.rows()
        self.assertEqual([row.kind for row in rows], [Kind.TURNS] * 8 + [Kind.UNREPEATABLE] * 8)
        self.assertEqual(rows, sorted(made.rows, key=by_place))

    def test_a_game_in_turns_may_take_its_time_as_long_as_ticks_come(self) -> None:
        for turns, is_later in ((5, True), (0, False)):
            plan = self.plan("a", games=1, rotations=1, turns=turns)
            ours, theirs = Pipe()
            with ours, theirs:
                theirs.send(events.Ticked(0.0, 1))
                game = self.running(ours)
                self.tournament(plan)._hear([game])
            self.assertEqual(game.deadline > time.monotonic(), is_later)
            # The start, the turns of eight who are passed over in each, the end, and what is left.
            due = 1.5 + 2.5 + MARGIN + (5 * 8 * 0.1 if turns else 54 * 0.007)
            self.assertAlmostEqual(plan.seconds(), due)

    def test_a_game_whose_rows_are_not_taken_is_lost(self) -> None:
        made = self.play(out=Output("/dev/full"))
        self.assertEqual((made.rows, made.lost[-1].partition(": ")[2]),
                         ([], "/dev/full: No space left on device"))

    def test_what_agents_missed_is_in_the_rows(self) -> None:
        made = self.tournament(self.plan())
        result = Result(tuple(range(8)), (Outcome.PLAYED,) * 8, missed=(None, *range(7)))
        made._finish(self.running(None, 0.0, result, *"abababab"))
        rows = self.rows()
        self.assertEqual([row.missed for row in rows], [None, *range(7)])
        told = as_text(summarize([replace(row, missed=45) if row.agent == "a" else row
                                  for row in rows]))
        self.assertIn("a missed 45 of 54 ticks in the mean: it had too few turns", told)
        self.assertNotIn("b missed", told)

    def command(self, *words: str, out: str = "run", fault: str = "") -> int:
        """Runs the command with a stand-in for games; gives its status."""
        self.use_program("exit 1")
        self.set(FAULT=fault, GAME="1.1")
        status, told = in_process("experiments.tournament", "--out", self.out / out, *words, "sh",
                                  "cat", printed=self.out / "printed")
        self.told += told.splitlines()
        return status

    def test_the_exit_status_tells_whether_all_was_scored_and_written(self) -> None:
        place = self.out / "s.json"
        words = ["--games", "2", "--summary", str(place)]
        for more, fault, status, count, lost in (
                ([], "lose", 1, 8, ["game 1.1 is lost: why"]), (["--resume"], "", 0, 16, [])):
            self.assertEqual(self.command(*words, *more, fault=fault), status)
            rows, value = read_scores(self.out / "run").rows, json.loads(place.read_text())
            self.assertEqual((len(rows), value["lost"], value["planned"]), (count, lost, 2))
        self.assertEqual((self.out / "printed").read_text(), as_text(summarize(rows, planned=2)))
        grades = (self.out / "run" / "grades.csv").read_text().splitlines()
        self.assertEqual(grades[0], "entrant,mean,low,high,groups,games_not_finished")
        self.assertEqual(len(grades), 3)
        self.assertEqual(self.command("--games", "2", "--summary", "/nowhere/s.txt", out="2"), 1)
        self.assertIn("tournament: the summary was not written to /nowhere/s.txt: No such file or "
                      "directory", self.told)

    def test_a_secret_is_private_until_all_games_are_scored(self) -> None:
        run = self.out / "run"

        def deals() -> Any:
            return json.loads((run / "run.json").read_text())["deals"]

        self.assertEqual(self.command("--games", "2", fault="lose"), 1)
        self.assertEqual(sorted(deals()), ["commitment"])
        secret = (run / "secret").read_text().strip()
        self.assertEqual(stat.S_IMODE((run / "secret").stat().st_mode), 0o600)
        self.assertNotIn(secret, "".join(self.told) + (run / "run.json").read_text())
        self.assertIn(f"the deals are of the commitment {deals()['commitment']}", self.told)
        self.assertEqual(self.command("--games", "2", "--resume"), 0)
        self.assertEqual(deals()["secret"], secret)
        self.assertEqual(hashlib.sha256(bytes.fromhex(secret)).hexdigest(), deals()["commitment"])
        self.assertFalse((run / "secret").exists())
        self.assertEqual(self.command("--games", "4", "--resume"), 0)  # draws from the same
        self.assertEqual(deals()["secret"], secret)

    def test_a_run_is_not_gone_on_with_by_another_secret_or_seed(self) -> None:
        self.assertEqual(self.command("--games", "2", fault="lose"), 1)
        before = (self.out / "run" / "run.json").read_text()
        self.assertEqual(self.command("--games", "2", "--resume", "--seed", "1"), 2)
        (self.out / "run" / "secret").unlink()
        self.assertEqual(self.command("--games", "2", "--resume"), 2)
        self.assertEqual((self.out / "run" / "run.json").read_text(), before)
        self.assertEqual(self.command("--games", "2", "--seed", "1", out="2"), 0)
        self.assertIn("the deals are of the seed 1, and agents can guess them", self.told)
        self.assertEqual(self.command("--games", "4", "--seed", "1001", "--resume", out="2"), 2)

    def test_a_signal_gives_its_status_and_the_summary_stands(self) -> None:
        place = self.out / "s.json"
        finish = Tournament._finish

        def stop(made: Tournament, game: Running) -> None:
            finish(made, game)
            raise Stopped(15)

        with mock.patch.object(Tournament, "_finish", stop):
            self.assertEqual(self.command("--games", "4", "--summary", str(place)), 143)
        value = json.loads(place.read_text())
        self.assertEqual((len(read_scores(self.out / "run").rows), value["games"]), (8, 1))
        self.assertEqual((value["planned"], value["is_stopped"]), (4, True))
        self.assertIn("1 of 4 planned games were played: the run was stopped", value["undecided"])
        self.assertIn("tournament: stopped", self.told)
        record = json.loads((self.out / "run" / "run.json").read_text())
        self.assertEqual((record["planned"], record["runs"][0]["status"]), (4, 143))
