import json
import os
import signal
import time
import unittest
from concurrent.futures import ThreadPoolExecutor
from contextlib import closing
from dataclasses import replace
from multiprocessing.connection import Pipe
from pathlib import Path
from typing import Any, Callable, List, Sequence
from unittest import mock

from geesefuton.experiments import match
from geesefuton.experiments.agents import Agents, Job, Limits, sandbox, why_not
from geesefuton.experiments.entrants import Entrant
from geesefuton.experiments.match import Exit, Match, outcome_of
from geesefuton.experiments.provenance import Agent
from geesefuton.experiments.results import Kind, Message, Note, Outcome, Result
from geesefuton.hosting import events
from geesefuton.hosting.events import End
from geesefuton.hosting.lobby import LobbyError
from geesefuton.processes import Children
from tests.package.run_cases import PlaceCase
from tests.package.helpers import SERVED_GAME, SERVED_LOG

KEYS = tuple(f"key{seat}" for seat in range(8))
WHY_NOT = why_not()
QUIT, FAILED, KILLED, STOPPED = Exit(0), Exit(1), Exit(-9), Exit(-9, is_stopped=True)


class Outcomes(unittest.TestCase):
    def test_every_end_of_a_part_with_every_end_of_a_process(self) -> None:
        played, absent, crashed, hung, killed, refused = Outcome
        due = {End.LEFT: (played, played, played, played),
               End.GONE: (played, crashed, killed, hung),
               End.HUNG: (hung, hung, hung, hung),
               End.ABSENT: (absent, crashed, killed, absent),
               End.REFUSED: (refused, refused, refused, refused)}
        self.assertEqual(set(due), set(End))
        for reason, outcomes in due.items():
            for exited, outcome in zip((QUIT, FAILED, KILLED, STOPPED), outcomes):
                self.assertIs(outcome_of(reason, exited, False, False), outcome,
                              (reason, exited))

    def test_who_asks_until_the_end_does_not_hang_and_refusals_count_for_empty_seats(self) -> None:
        for exited in (QUIT, FAILED, KILLED, STOPPED):
            for reason, was_refused, outcome in ((End.HUNG, False, Outcome.PLAYED),
                                                 (End.ABSENT, True, Outcome.REFUSED),
                                                 (End.LEFT, True, Outcome.PLAYED)):
                self.assertIs(outcome_of(reason, exited, was_refused, not was_refused), outcome)
        self.assertIs(outcome_of(End.GONE, FAILED, False, True), Outcome.CRASHED)
        self.assertIs(outcome_of(End.REFUSED, QUIT, False, True), Outcome.REFUSED)


class Lobby:
    """A stand-in for a lobby, which plays no game."""

    port = 4321
    ends: Sequence[End] = ()
    refused: Sequence[str] = ()
    departed: Sequence[int] = ()
    status = 0
    log = b""
    seconds = 0.0
    awaited = 0  # how many orders it waits for first
    lines: Sequence[events.Ticked] = ()
    orders: List[str] = []
    last: Any = None  # the settings of the last one

    def __init__(self, settings, serving) -> None:  # type: ignore[no-untyped-def]
        self.settings = Lobby.last = settings
        for listener in settings.listeners:
            listener.close()

    def run(self, on_event: Callable[[events.Event], None]) -> int:
        Lobby.orders = [self.settings.orders.readline() for _ in range(self.awaited)]
        time.sleep(self.seconds)
        for seat in self.departed:
            on_event(events.Departed(0.0, seat, f"red{seat}"))
        for line in self.refused:
            on_event(events.Refused(0.0, "here", "syntax", line))
        for tick in self.lines:
            on_event(tick)
        for seat, end in enumerate(self.ends):
            on_event(events.Ended(0.0, seat, "word", end, 5))
        self.settings.log.write_bytes(self.log)
        os.set_blocking(self.settings.orders.fileno(), False)
        Lobby.orders += self.settings.orders.readlines()
        return self.status


class Turns:
    """A stand-in for a server of a game in turns.

    Attributes:
        given: What it was told.
    """

    turners: Sequence[Any] = ()
    script: Sequence[bytes] = (b"0 own 1\n", b"tick\n")
    given: Sequence[float] = ()

    def __init__(self, *given: float) -> None:
        Turns.given = given


class Matches(PlaceCase):
    """A game with a stand-in for the lobby, and shell commands as agents."""

    def setUp(self) -> None:
        super().setUp()
        self.sent: List[Message] = []
        self.audit("sound")
        self.lobby = type("Made", (Lobby,), {"ends": [End.LEFT] * 8,
                                             "log": SERVED_LOG.read_bytes(), "seconds": 0.3})
        self.patch("experiments.match.Lobby", self.lobby)
        self.turns = type("Made", (Turns,), {})
        self.patch("experiments.match.TurnServer", self.turns)
        self.patch("experiments.match.LEAVE", 60.0)

    def audit(self, says: str) -> None:
        self.use_program(f"echo {says}; [ '{says}' = sound ] || exit 9")

    def play(self, *scripts: str, words: Sequence[str] = tuple(f"red{seat}" for seat in range(8)),
             **more: Any) -> Result:
        """Plays with eight agents, the last ones `exit 0`."""
        all_scripts = [*scripts, *["exit 0"] * (8 - len(scripts))]
        entrants = tuple(Entrant("", ("sh", "-c", script), f"agent{seat}", "")
                         for seat, script in enumerate(all_scripts))
        job = Job("7.0", self.place, SERVED_GAME.read_text(), entrants, tuple(words),
                  tuple(range(70, 78)), KEYS, pace=20, **more)
        with Children() as children, closing(Agents(children)) as agents:
            if job.limits:
                agent = Agent("", "", (), {})
                job = replace(job, sandboxes={each: sandbox(each, agent, self.place)
                                              for each in entrants})
            return Match(job, children, agents, self.sent.append).play()

    def events_of(self, kind: str) -> List[Any]:
        """The events of a kind in the file that has them."""
        told = map(json.loads, (self.place / "7.0.events").read_text("ascii").splitlines())
        return [event for event in told if event["event"] == kind]

    def notes(self) -> str:
        return "\n".join(message.text for message in self.sent if isinstance(message, Note))

    def test_what_was_asked_is_kept_with_the_other_files(self) -> None:
        script, journal = self.place / "7.0.script", self.place / "7.0.journal"
        self.play(turns=3)
        self.assertEqual((script.read_text(), Lobby.last.journal), ("0 own 1\ntick\n", None))
        script.unlink()
        self.play()
        self.assertEqual((script.exists(), Lobby.last.journal), (False, journal))

    def test_the_ticks_that_an_agent_missed_are_those_that_it_tells(self) -> None:
        result = self.play("echo missed 9 of 54 ticks; echo score 5, missed 45 of 54 ticks",
                           "echo missed", "echo missed 0 of 54 ticks")
        self.assertEqual(result.missed, (45, None, 0, *[None] * 5))

    def test_a_game_with_its_scores(self) -> None:
        result = self.play()
        self.assertEqual(result, Result((507, -726, -566, 0, -367, 0, 0, 294),
                                        (Outcome.PLAYED,) * 8))
        self.assertEqual(self.notes(), "")
        self.assertEqual((self.place / "7.0.game").read_text(), SERVED_GAME.read_text())
        self.assertEqual((self.place / "7.0.log").read_bytes(), SERVED_LOG.read_bytes())
        self.assertEqual(self.events_of("ended"),
                         [json.loads(events.json_of(message)) for message in self.sent
                          if isinstance(message, events.Ended)])
        self.assertEqual(sum(isinstance(message, events.Ended) for message in self.sent), 8)

    def test_the_lobby_gets_what_the_job_says(self) -> None:
        self.play(form="json", start=40.0, linger=1.5)
        told = Lobby.last
        self.assertEqual((told.game, told.log), (self.place / "7.0.game", self.place / "7.0.log"))
        self.assertEqual((told.port, told.pace, told.form, told.start, told.linger, told.patience),
                         (0, 20, "json", 40.0, 1.5, 40.0))
        self.play(start=3.0)
        self.assertEqual((Lobby.last.form, Lobby.last.start, Lobby.last.patience),
                         ("words", 3.0, 30.0))

    def test_a_job_that_cannot_be_played_is_lost(self) -> None:
        job = Job("7.0", self.place / "none", "", (), (), (), ())
        ours, theirs = Pipe()
        with mock.patch("sys.argv", ["match", str(os.dup(theirs.fileno()))]):
            theirs.close()
            player = ThreadPoolExecutor(1)
            ended = player.submit(match._main)
            for _ in range(2):  # one job after another
                ours.send(job)
                self.assertEqual(ours.recv(), Result(
                    fault=f"{self.place / 'none' / '7.0.events'}: No such file or directory"))
            ours.close()
            self.assertEqual(ended.result(), 0)
            player.shutdown()

    def test_agents_get_their_words_and_variables(self) -> None:
        self.play('echo "$@" $PYTHONPATH', "echo oops >&2", "cat; echo $AGENT_SEED.$TAC; pwd",
                  'echo > "$TMPDIR/x"; ls "$TMPDIR"', "readlink /proc/self/fd/1")
        self.assertEqual((self.place / "7.0.out.red2").read_text().split(),
                         ["." + os.environ["TAC"], os.getcwd()])
        self.assertEqual((self.place / "7.0.out.red3").read_text(), "x\n")
        self.assertNotRegex((self.place / "7.0.out.red4").read_text(), r"7\.0")  # which game it is
        printed = (self.place / "7.0.out.red0").read_text().split()
        self.assertEqual(printed[:4], ["4321", "key0", "--pause", "0.02"])
        self.assertIn(str(Path(match.__file__).parents[2]), printed[4].split(":"))
        self.assertEqual((self.place / "7.0.out.red1").read_text(), "oops\n")

    def test_what_agents_print_never_stands_in_a_file_of_the_game(self) -> None:
        names = ["game", "log", "events", "out", "red4", "red5", "red6", "red7"]
        result = self.play(*[f"echo printed by {name}" for name in names], words=names)
        self.assertEqual((result.fault, len(result.scores)), ("", 8))
        self.assertEqual((self.place / "7.0.game").read_text(), SERVED_GAME.read_text())
        self.assertEqual((self.place / "7.0.log").read_bytes(), SERVED_LOG.read_bytes())
        self.assertEqual(len(self.events_of("ended")), 8)
        for name in names:
            self.assertEqual((self.place / f"7.0.out.{name}").read_text(), f"printed by {name}\n")

    @unittest.skipIf(WHY_NOT, WHY_NOT)
    def test_a_game_that_does_not_begin_ends_the_agents_that_are_kept_apart(self) -> None:
        def refuse(settings: Any, _: Any) -> None:
            for listener in settings.listeners:
                listener.close()
            raise LobbyError("taken")

        self.patch("experiments.match.Lobby", refuse)
        self.assertEqual(self.play("echo here; sleep 600", limits=Limits()).fault, "taken")
        self.assertEqual(sorted(file.name for file in self.place.glob("7.0.out.*")),
                         [f"7.0.out.red{seat}" for seat in range(8)])

    @unittest.skipIf(WHY_NOT, WHY_NOT)
    def test_a_game_is_lost_if_an_agent_was_killed_that_only_its_host_could_kill(self) -> None:
        self.patch("experiments.match.outcome_of", lambda *_: Outcome.KILLED)
        self.assertIn("somebody killed an agent", self.play(limits=Limits()).fault)
        self.assertEqual(self.play().outcomes, (Outcome.KILLED,) * 8)

    def test_agents_read_nothing_of_what_the_tournament_is_given(self) -> None:
        (self.place / "typed").write_text("typed\n")
        before = os.dup(0)
        with open(self.place / "typed", "rb") as typed:
            os.dup2(typed.fileno(), 0)
        try:
            self.play("cat; echo end")
        finally:
            os.dup2(before, 0)
            os.close(before)
        self.assertEqual((self.place / "7.0.out.red0").read_text(), "end\n")

    def test_the_lobby_is_told_of_agents_that_have_ended(self) -> None:
        self.patch("experiments.match.LEAVE", 0.3)
        self.lobby.awaited = 7
        self.play("sleep 600")
        self.assertEqual(sorted(Lobby.orders), [f"without red{seat}\n" for seat in range(1, 8)])

    def test_the_lobby_is_told_again_if_a_link_ended_after_its_agent(self) -> None:
        self.lobby.departed, self.lobby.awaited = [1, 2], 7
        self.patch("experiments.match.LEAVE", 0.3)
        self.play("exit 0", "exit 0", "sleep 600")
        self.assertEqual(Lobby.orders.count("without red0\n"), 1)
        self.assertEqual(Lobby.orders.count("without red1\n"), 2)
        self.assertEqual(Lobby.orders.count("without red2\n"), 0)

    def test_a_game_in_turns(self) -> None:
        result = self.play('echo "$@" $AGENT_SEED $PYTHONHASHSEED $AGENT_LIMIT',
                           "echo $AGENT_SEED", turns=30, patience=2.5)
        self.assertEqual((result.kind, len(result.scores)), (Kind.TURNS, 8))
        self.assertEqual((tuple(Turns.given), self.notes()), ((30, 2.5, None), ""))
        printed = (self.place / "7.0.out.red0").read_text().split()
        self.assertEqual(printed, ["4321", "key0", "--pause", "0", "70", "0", "0"])
        self.assertEqual((self.place / "7.0.out.red1").read_text(), "71\n")
        self.assertIs(self.play().kind, Kind.SERVED)

    def test_an_agent_that_was_passed_over_marks_its_game(self) -> None:
        self.turns.turners = [
            mock.Mock(seat=seat, passed=passed, waited=waited) for seat, passed, waited in (
                (0, 0, 30.0), (1, 0, 75.2), (2, 17, 0.0), (6, 1, 0.0))]
        self.assertIs(self.play(turns=1).kind, Kind.UNREPEATABLE)
        self.assertEqual(self.notes().split("\n"), [
            "agent1 at seat 1 (red1) kept the game waiting for 75 seconds", *(
                f"agent{seat} at seat {seat} (red{seat}) was passed over in {count} turns, so the "
                "game cannot be repeated" for seat, count in ((2, 17), (6, 1)))])

    def test_agents_that_fail_are_told_with_what_they_printed_last(self) -> None:
        self.lobby.ends = [End.GONE, End.HUNG, End.ABSENT, End.ABSENT, End.LEFT, End.GONE,
                           End.REFUSED, End.LEFT]
        self.patch("experiments.match.LEAVE", 3.0)
        result = self.play("echo a; printf 'la\\033[31mst'; exit 3", "sleep 99", "exit 0",
                           "kill -9 $$", "exit 137", "exit 0", "exit 0")
        self.assertEqual([outcome.value for outcome in result.outcomes],
                         ["crashed", "hung", "absent", "killed", "played", "played", "refused",
                          "played"])
        told = self.notes().split("\n")
        self.assertEqual(told, [
            "agent0 at seat 0 (red0) counts as crashed: ended with status 3; its last line: "
            r"la\x1b[31mst",
            "agent1 at seat 1 (red1) counts as hung: was still running 3 seconds after its game, "
            "and was stopped",
            "agent2 at seat 2 (red2) counts as absent: ended without taking its seat",
            "agent3 at seat 3 (red3) counts as killed: was ended by signal 9, which its game had "
            "not sent",
            "agent4 at seat 4 (red4) was ended by signal 9",
            "agent5 at seat 5 (red5) left before the last tick, without `quit`",
            "agent6 at seat 6 (red6) counts as refused"][:len(told)])
        self.assertEqual(len(told), 7)

    def test_a_refused_first_line_is_blamed_on_the_word_in_it(self) -> None:
        self.lobby.ends = [End.ABSENT] * 3 + [End.LEFT] * 5
        self.lobby.refused = ['{"hello":"key0"}', "hello key22"]
        result = self.play()
        self.assertEqual(result.outcomes[:3], (Outcome.REFUSED, Outcome.ABSENT, Outcome.ABSENT))

    def test_lines_in_the_last_third_tell_who_hung(self) -> None:
        self.lobby.ends = [End.HUNG] * 8
        self.lobby.lines = [events.Ticked(0.0, 36, (5, 5, 0, 5, 5, 0, 0, 0)),
                            events.Ticked(0.0, 37, (5, 6, 0, 5, 5, 1, 0, 0)),
                            events.Ticked(0.0, 54, (5, 6, 0, 9, 5, 1, 0, 0))]
        result = self.play()
        self.assertEqual([outcome is Outcome.PLAYED for outcome in result.outcomes],
                         [False, True, False, True, False, True, False, False])
        self.assertEqual([told for told in self.sent if isinstance(told, events.Ticked)],
                         self.lobby.lines)
        self.assertEqual([told["tick"] for told in self.events_of("ticked")], [36, 37, 54])
        self.assertIn("agent1 at seat 1 (red1) did not quit in time, and its link was closed",
                      self.notes())

    def test_an_agent_that_ignores_signals_is_ended_too(self) -> None:
        began = time.monotonic()
        self.patch("experiments.match.LEAVE", 0.3)
        self.play("trap '' TERM INT HUP; sleep 60")
        self.assertLess(time.monotonic() - began, 20)
        self.assertIn("was still running", self.notes())

    def test_much_that_is_printed_is_cut(self) -> None:
        self.patch("experiments.match.MOST_KEPT", 1000)
        self.play("seq 1 1000")
        text = (self.place / "7.0.out.red0").read_text()
        self.assertLess(len(text), 1100)
        self.assertTrue(text.startswith("[2893 bytes left out]\n") and text.endswith("1000\n"))
        self.patch("experiments.match.MOST_PRINTED", 8)
        self.lobby.ends = [End.GONE] * 8
        self.assertIs(self.play("seq 1 100000; exit 1").outcomes[0], Outcome.CRASHED)
        self.assertLessEqual((self.place / "7.0.out.red0").stat().st_size, 4096)

    def test_games_without_scores_are_lost(self) -> None:
        for status, log, told in ((5, b"fault links\n", "exit status 5 (its port is taken"),
                                  (-9, b"", "exit status -9 (the log is empty)"),
                                  (-9, b"hm\nx\n", "exit status -9 (hm)"),
                                  (0, b"", "its log: line 1: expected a line `sheet`")):
            self.lobby.status, self.lobby.log = status, log
            result = self.play()
            self.assertEqual((result.scores, result.outcomes), ((), ()))
            self.assertTrue(result.fault.startswith(told), result.fault)

        self.lobby.status, self.lobby.log = 6, SERVED_LOG.read_bytes()
        self.assertEqual(len(self.play().scores), 8)  # a lapsed tick loses nothing

    def test_a_log_that_is_not_sound_loses_the_game(self) -> None:
        self.audit("unsound score 2")
        self.assertEqual(self.play().fault, "the audit of its log says `unsound score 2`")

    def test_a_lobby_that_cannot_begin(self) -> None:
        for method, fault in (("__init__", "no port"), ("run", "no disk")):
            with mock.patch.object(self.lobby, method, side_effect=LobbyError(fault)):
                self.assertEqual(self.play("sleep 1").fault, fault)

    def test_signals_are_told_by_their_number(self) -> None:
        self.play(f"kill -{int(signal.SIGSEGV)} $$")
        self.assertIn(f"was ended by signal {int(signal.SIGSEGV)}", self.notes())
